"""`whatif try`: what would come of changes; and the same of recordings and changes made at random, held against the answers to the
script that makes the same list of edits and asks for the same reports."""
import concurrent.futures
import json
import random
import re

from .answers import text_of
from .cases import MOST_TICKS, R, lines, recording, stage, step, with_r
from .courses import timeout
from .recomputed import TIMEOUTS, some
from .run import LANES, Case, run, shown

HOW_MANY = 200
NO_STAGE = "refused 10 NoStage\n"

# What is told where R's stage a takes half as long.
HALF = lines(
    "b value:5 at 15 -> value:5 at 10",
    *["drift of version 1 against 0 moved 2", "a earlier 5", "b earlier 5"],
    *["changes of version 1 against 0 changed 2", "a value:4 at 10 -> value:4 at 5", "b value:5 at 15 -> value:5 at 10"],
    *["path of b at 10 stages 2", "b at 10 queued 0 ran 5 after a", "a at 5 queued 0 ran 5 created 0"],
)
SAVED = lines('{"form":2,"wrap":"computed","stages":[', '{"name":"a","op":"async","runs":5,"action":4,"pinResult":{"value":1}},', '{"name":"b","op":"thenApply","sources":["a"],"runs":5,"action":["add",["arg",0],1]}', "]}")
HALF_OF_A = lines("a value:4 at 10 -> value:4 at 5", *HALF.splitlines()[1:7], "path of a at 5 stages 1", "a at 5 queued 0 ran 5 created 0")
DRAWN = re.compile(rb"(?s)<svg .*>Version 1 of r\.json<.*>2 stages, \* changed<.*>\* a</text>.*>b</text>.*</svg>\n")
DRAWN_WITH_PATH = re.compile(rb"(?s)<svg .*>Version 1 of r\.json, the path of b<.*>2 stages, \* changed<.*>\* a</text>.*>b</text>.*class='path'.*</svg>\n")
TAKEN = "whatif: no --stage is given, so this is about stage"

# A stage that a timeout cuts off, one that waits for it, and one with two timeouts.
LIMITED = recording(
    stage("async", "slow", queued=3, runs=100, action=1, ends=[timeout(40), {"at": 90, "do": "cancel"}]),
    stage("handle", "h", sources=["slow"], runs=2, action=["if", ["failed"], -1, ["arg", 0]]),
    stage("async", "twice", runs=9, action=2, ends=[timeout(5), {"at": 1, "do": "completeOnTimeout", "delay": 2, "value": 7}]),
    form=2,
)


def changed(of, was, came):
    return f"{of} {was} -> {came}"


def told(first, moved, changes, path):
    """What `try` prints, by the lines of its reports."""
    drift = [f"drift of version 1 against 0 moved {len(moved)}", *moved]
    return lines(first, *drift, f"changes of version 1 against 0 changed {len(changes)}", *changes, *path)


H_WAS, SLOW_WAS = "value:-1 at 42", "bare:java.util.concurrent.TimeoutException at 40"
# The changes of the stages of LIMITED, and what is told of the stage h.
TOLD = [
    (
        "a timeout that is longer",
        ["slow limit=91"],
        told(
            changed("h", H_WAS, "value:-1 at 92"),
            ["slow later 50", "h later 50"],
            [changed("slow", SLOW_WAS, "bare:java.util.concurrent.CancellationException at 90"), changed("h", H_WAS, "value:-1 at 92")],
            ["path of h at 92 stages 2", "h at 92 queued 0 ran 2 after slow", "slow at 90 ended by cancel"],
        ),
    ),
    (
        "no timeout, and less to do",
        ["slow unlimited runs=80"],
        told(
            changed("h", H_WAS, "value:1 at 85"),
            ["slow later 43", "h later 43"],
            [changed("slow", SLOW_WAS, "value:1 at 83"), changed("h", H_WAS, "value:1 at 85")],
            ["path of h at 85 stages 2", "h at 85 queued 0 ran 2 after slow", "slow at 83 queued 3 ran 80 created 0"],
        ),
    ),
    (
        "a value and a moment",
        ["slow at=7 gives=-9223372036854775808"],
        told(
            changed("h", H_WAS, "value:-9223372036854775808 at 9"),
            ["slow earlier 33", "h earlier 33"],
            [changed("slow", SLOW_WAS, "value:-9223372036854775808 at 7"), changed("h", H_WAS, "value:-9223372036854775808 at 9")],
            ["path of h at 9 stages 2", "h at 9 queued 0 ran 2 after slow", "slow at 7 pinned"],
        ),
    ),
    (
        "an exception, and null",
        ["slow fails=com.shop.Down runs=30", "h gives=null"],
        told(
            changed("h", H_WAS, "value:null at 35"),
            ["slow earlier 7", "h earlier 7"],
            [changed("slow", SLOW_WAS, "bare:com.shop.Down at 33"), changed("h", H_WAS, "value:null at 35")],
            ["path of h at 35 stages 2", "h at 35 queued 0 ran 2 after slow", "slow at 33 queued 3 ran 30 created 0"],
        ),
    ),
    (
        "shares, of what the change before has left, rounded down",
        ["slow runs=15% queued=0", "slow runs=50%  queued=250%", "h runs=0%"],
        told(
            changed("h", H_WAS, "value:1 at 7"),
            ["slow earlier 33", "h earlier 35"],
            [changed("slow", SLOW_WAS, "value:1 at 7"), changed("h", H_WAS, "value:1 at 7")],
            ["path of h at 7 stages 2", "h at 7 queued 0 ran 0 after slow", "slow at 7 queued 0 ran 7 created 0"],
        ),
    ),
    # (a pinned result is what the action gives, and the timeout strikes before that)
    (
        "a value that comes too late",
        ["slow gives=5"],
        told(changed("h", H_WAS, H_WAS), [], [], ["path of h at 42 stages 2", "h at 42 queued 0 ran 2 after slow", "slow at 40 ended by orTimeout"]),
    ),
    (
        "a value and a moment that come too late",
        ["slow at=60 gives=1"],
        told(changed("h", H_WAS, H_WAS), [], [], ["path of h at 42 stages 2", "h at 42 queued 0 ran 2 after slow", "slow at 40 ended by orTimeout"]),
    ),
    (
        "a share of the times of a stage whose moment is pinned",
        ["slow at=5", "slow runs=50%"],
        told(
            changed("h", H_WAS, "value:1 at 7"),
            ["slow earlier 35", "h earlier 35"],
            [changed("slow", SLOW_WAS, "value:1 at 5"), changed("h", H_WAS, "value:1 at 7")],
            ["path of h at 7 stages 2", "h at 7 queued 0 ran 2 after slow", "slow at 5 pinned"],
        ),
    ),
    (
        "no timeouts where there are none",
        ["h unlimited"],
        told(changed("h", H_WAS, H_WAS), [], [], ["path of h at 42 stages 2", "h at 42 queued 0 ran 2 after slow", "slow at 40 ended by orTimeout"]),
    ),
    (
        "nothing that is otherwise",
        ["twice unlimited", "slow limit=40"],
        told(
            changed("h", H_WAS, H_WAS),
            ["twice later 6"],
            [changed("twice", "value:7 at 3", "value:2 at 9")],
            ["path of h at 42 stages 2", "h at 42 queued 0 ran 2 after slow", "slow at 40 ended by orTimeout"],
        ),
    ),
]

# Words that are no changes, of which one is at fault, and what is said of it.
NO_CHANGES = [
    ("no assignment", ["a"], r"\Awhatif: the change \"a\": it assigns nothing; a change is one word, in quotes, as 'stock runs=50%'\n\Z"),
    ("no quotes", ["a", "runs=50%"], r'the change "a": it assigns nothing; a change is one word, in quotes'),
    ("a space alone", ["a "], r'the change "a ": it assigns nothing'),
    ("nothing at all", [""], r'the change "": it assigns nothing'),
    ("a later one", ["a runs=1", "b"], r'the change "b": it assigns nothing'),
    ("no name", ["runs=50%"], r'\Awhatif: "runs=50%" is an assignment; a stage\'s name has to stand before it\n\Z'),
    ("no name, and a mistaken part", ["runs=50% colour=5"], r'"runs=50%" is an assignment; a stage\'s name has to stand before it'),
    ("a space in front", [" a runs=5"], r'\Awhatif: the change begins with a space: " a runs=5"\n\Z'),
    ("a tab for the space", ["a\truns=5"], r'"a\\u0009runs=5" is an assignment'),
    ("a name with a space", ["my stage runs=5"], r'the change "my stage runs=5": "stage" can\'t be assigned; queued, runs, gives'),
    ("a key that is like one", ["a run=5"], r'"run" can\'t be assigned; did you mean "runs"\?'),
    ("a key that is like none", ["a colour=5"], r'"colour" can\'t be assigned; queued, runs, gives, fails, at, limit and unlimited can be'),
    ("a key without a value", ["a runs"], r'"runs" has no value; runs=N is in ticks'),
    ("a value without a key", ["a =5"], r'"=5" has nothing before "="; queued, runs, gives, fails, at, limit and unlimited can be'),
    ("an empty value", ["a runs="], r'"runs=" has no whole number; runs=N is in ticks, and runs=P% is a percentage of what it is'),
    ("a value where none is taken", ["a unlimited=5"], r'"unlimited=5" has a value; unlimited stands without a value'),
    ("no number", ["a queued=ten"], r'"queued=ten" has no whole number; queued=N is in ticks'),
    ("a sign", ["a at=-1"], r'"at=-1" has no whole number; at=T is a tick'),
    ("a plus", ["a limit=+1"], r'"limit=\+1" has no whole number; limit=N is in ticks'),
    ("a fraction", ["a runs=1.5"], r'"runs=1.5" has no whole number'),
    ("a share of no number", ["a runs=%"], r'"runs=%" has no whole number'),
    ("a share of a moment", ["a at=50%"], r'"at=50%" has no whole number; at=T is a tick'),
    ("a number of more than 64 bits", ["a at=18446744073709551616"], r'"at=18446744073709551616" has a number of more than 64 bits'),
    ("a value of more than 64 bits", ["a gives=9223372036854775808"], r'"gives=9223372036854775808" has a number of more than 64 bits'),
    ("a value below 64 bits", ["a gives=-9223372036854775809"], r"has a number of more than 64 bits"),
    ("a value that is none", ["a gives=nil"], r'"gives=nil" has no whole number; gives=V is a whole number, or null'),
    ("two signs", ["a gives=--1"], r'"gives=--1" has no whole number'),
    ("a plus before a value", ["a gives=+5"], r'"gives=\+5" has no whole number'),
    ("a minus alone", ["a gives=-"], r'"gives=-" has no whole number'),
    ("digits in groups", ["a runs=1_000"], r'"runs=1_000" has no whole number'),
    ("two percent signs", ["a runs=5%%"], r'"runs=5%%" has no whole number'),
    ("a share of more than 64 bits", ["a runs=18446744073709551616%"], r'"runs=18446744073709551616%" has a number of more than 64 bits'),
    ("too large a share", ["a runs=100001%"], r'"runs=100001%" is too much; 100000% is the most'),
    ("no exception", ["a fails=a-b"], r'"fails=a-b" names no exception: 1 to 128'),
    ("the exception that wraps", ["a fails=java.util.concurrent.CompletionException"], r"names no exception"),
    ("a time twice", ["a runs=1 runs=2"], r'"runs=2" comes after a part that assigns the same\n\Z'),
    ("a time in a queue twice", ["a queued=1 runs=1 queued=1"], r'"queued=1" comes after a part that assigns the same\n\Z'),
    ("two values", ["a gives=1 gives=2"], r'"gives=2" comes after a part that assigns the same\n\Z'),
    ("two values, and an exception behind them", ["a gives=1 gives=2 fails=X"], r'"gives=2" comes after a part that assigns the same\n\Z'),
    ("two limits", ["a limit=1 limit=2"], r'"limit=2" comes after a part that assigns the same\n\Z'),
    ("no limit, twice", ["a unlimited unlimited"], r'"unlimited" comes after a part that assigns the same\n\Z'),
    ("an exception and a value", ["a fails=X gives=1"], r'"gives=1" comes after a part that assigns the same; gives and fails both say what'),
    ("no limit, and one", ["a unlimited limit=1"], r'"limit=1" comes after a part that assigns the same; limit and unlimited both say how'),
    ("a value and an exception", ["a gives=1 fails=X"], r'"fails=X" comes after a part that assigns the same; gives and fails both say what'),
    ("a limit and none", ["a limit=1 unlimited"], r'"unlimited" comes after a part that assigns the same; limit and unlimited both say how'),
    ("a moment twice", ["a at=1 at=1"], r'"at=1" comes after'),
]

# Changes of the stages of LIMITED that are refused, with their line, and what is said.
REFUSED = [
    ("no such stage", ["slo runs=1"], "refused 10 NoStage in 0", r'the change "slo runs=1": no stage has the name "slo"; did you mean "slow"\?'),
    ("no such stage, later", ["slow runs=1 gives=1", "x at=1 unlimited"], "refused 10 NoStage in 2", r'change 2, "x at=1 unlimited": no stage has the name "x"'),
    ("no name, but an assignment", ["runs=50% gives=1"], "refused 10 NoStage in 0", r'the change "runs=50% gives=1": "runs=50%" is an assignment; a stage\'s name has to stand before it'),
    ("a space in place of a name", [" runs=5"], "refused 10 NoStage in 0", r'the change begins with a space: " runs=5"'),
    ("a name with an equals sign", ["slow runs=1", "a=b runs=5"], "refused 10 NoStage in 1", r'change 2, "a=b runs=5": "a=b" is an assignment'),
    ("a name with a percent sign", ["a% runs=5"], "refused 10 NoStage in 0", r'the change "a% runs=5": no stage has the name "a%"'),
    ("too late a moment", ["h gives=1", f"h runs=1 at={MOST_TICKS + 1}"], "refused 15 Limit in 2", rf'change 2, "h runs=1 at={MOST_TICKS + 1}": at is {MOST_TICKS} at most'),
    ("too long a time", [f"slow queued={MOST_TICKS} runs={2**64 - 1}"], "refused 15 Limit in 0", rf'the change "slow queued={MOST_TICKS} runs={2**64 - 1}": queued and runs are {MOST_TICKS} at most'),
    ("a share that is too large", [f"slow runs={MOST_TICKS}", "slow runs=101%"], "refused 15 Limit in 1", rf'change 2, "slow runs=101%": queued and runs are {MOST_TICKS} at most'),
    ("one of equal changes", ["slow runs=1", *["slow runs=100000%"] * 5], "refused 15 Limit in 5", r'change 6, "slow runs=100000%": queued and runs are'),
    ("too long a timeout", [f"slow runs=1 limit={MOST_TICKS + 1}"], "refused 15 Limit in 1", rf'the change "slow runs=1 limit={MOST_TICKS + 1}": limit is {MOST_TICKS} at most'),
    ("no timeout to set", ["slow runs=1", "h runs=1 limit=5"], "refused 22 NotOneTimeout in 2", r'stage "h" has no timeout whose delay could be set'),
    ("two timeouts to set", ["twice limit=5"], "refused 22 NotOneTimeout in 0", r'stage "twice" has 2 timeouts, and limit sets the delay of one'),
    ("no timeout to set, before too late a moment", [f"h at={MOST_TICKS + 1} limit=5"], "refused 22 NotOneTimeout in 1", r'stage "h" has no timeout'),
    ("too late a moment, before no timeout to set", [f"h at={MOST_TICKS + 1}", "h limit=5"], "refused 15 Limit in 0", rf'change 1, "h at={MOST_TICKS + 1}": at is {MOST_TICKS} at most'),
    ("a timeout that is gone", ["slow unlimited", "slow limit=5"], "refused 22 NotOneTimeout in 1", r'stage "slow" has no timeout'),
    ("more edits than a list may have", ["slow runs=1 at=1"] * 33, "refused 21 ListSize", r"the changes make 66 edits; 64 can be made together"),
]

NO_ACTION = recording(stage("manual", "m"), stage("copy", "c", sources=["m"]))
PENDING = recording(stage("manual", "m"), stage("async", "a", takes=3, action=1), stage("async", "b", takes=2, action=1))
TIED = recording(stage("async", "a", takes=3, action=1), stage("async", "b", takes=3, action=1))
# A stage whose timeout and another end act from the same tick, and one that completes before a source of it.
AT_ONCE = recording(stage("async", "s", runs=100, action=1, ends=[timeout(10, 50), {"at": 50, "do": "complete", "value": 9}]), form=2)
EITHER = recording(stage("async", "a", takes=10, action=1), stage("async", "b", takes=100, action=2), stage("anyOf", "first", sources=["a", "b"]))

# Of other recordings, the changes and the stage that is named, and what is told.
OF_OTHERS = [
    ("a value alone of a pending stage", NO_ACTION, ["m gives=1"], "c", told(changed("c", "pending", "pending"), [], [], ["path of c pending stages 2", "c waits for m", "m open"])),
    ("a moment alone of a pending stage", NO_ACTION, ["m at=5"], "c", told(changed("c", "pending", "pending"), [], [], ["path of c pending stages 2", "c waits for m", "m open"])),
    (
        "a value and a moment of a pending stage",
        NO_ACTION,
        ["m at=5 gives=1"],
        "c",
        told(
            changed("c", "pending", "value:1 at 5"),
            [],
            [changed("m", "pending", "value:1 at 5"), changed("c", "pending", "value:1 at 5")],
            ["path of c at 5 stages 2", "c at 5 queued 0 ran 0 after m", "m at 5 pinned"],
        ),
    ),
    ("a moment and a value by two changes", NO_ACTION, ["m at=5", "m gives=1"], "m", told(changed("m", "pending", "value:1 at 5"), [], [changed("m", "pending", "value:1 at 5"), changed("c", "pending", "value:1 at 5")], ["path of m at 5 stages 1", "m at 5 pinned"])),
    ("a pending stage that stays so", PENDING, ["b runs=9"], "m", told(changed("m", "pending", "pending"), ["b later 7"], [changed("b", "value:1 at 2", "value:1 at 9")], ["path of m pending stages 1", "m open"])),
    ("a pending stage that fails", PENDING, ["m at=7 fails=X"], "m", told(changed("m", "pending", "bare:X at 7"), [], [changed("m", "pending", "bare:X at 7")], ["path of m at 7 stages 1", "m at 7 pinned"])),
    (
        "a timeout that acts before another end",
        AT_ONCE,
        ["s limit=0"],
        "s",
        told(changed("s", "value:9 at 50", "bare:java.util.concurrent.TimeoutException at 50"), [], [changed("s", "value:9 at 50", "bare:java.util.concurrent.TimeoutException at 50")], ["path of s at 50 stages 1", "s at 50 ended by orTimeout"]),
    ),
    ("a timeout that another end comes before", AT_ONCE, ["s limit=20"], "s", told(changed("s", "value:9 at 50", "value:9 at 50"), [], [], ["path of s at 50 stages 1", "s at 50 ended by complete"])),
    (
        "zeros in front",
        R,
        ["a runs=007"],
        "a",
        told(changed("a", "value:4 at 10", "value:4 at 7"), ["a earlier 3", "b earlier 3"], [changed("a", "value:4 at 10", "value:4 at 7"), changed("b", "value:5 at 15", "value:5 at 12")], ["path of a at 7 stages 1", "a at 7 queued 0 ran 7 created 0"]),
    ),
    ("zeros behind a minus", R, ["a gives=-007"], "a", told(changed("a", "value:4 at 10", "value:-7 at 10"), [], [changed("a", "value:4 at 10", "value:-7 at 10"), changed("b", "value:5 at 15", "value:-6 at 15")], ["path of a at 10 stages 1", "a at 10 queued 0 ran 10 created 0"])),
    ("a zero behind a minus", R, ["a gives=-0"], "a", told(changed("a", "value:4 at 10", "value:0 at 10"), [], [changed("a", "value:4 at 10", "value:0 at 10"), changed("b", "value:5 at 15", "value:1 at 15")], ["path of a at 10 stages 1", "a at 10 queued 0 ran 10 created 0"])),
    (
        "the largest value",
        R,
        ["a gives=9223372036854775807"],
        "a",
        told(
            changed("a", "value:4 at 10", "value:9223372036854775807 at 10"),
            [],
            [changed("a", "value:4 at 10", "value:9223372036854775807 at 10"), changed("b", "value:5 at 15", "value:-9223372036854775808 at 15")],
            ["path of a at 10 stages 1", "a at 10 queued 0 ran 10 created 0"],
        ),
    ),
]


def exactly(text):
    """The text as a pattern: the answer is not asked for as JSON once more."""
    return re.compile(re.escape(text).encode())


def with_limited(words, *more):
    return ["try", *more, "l.json", *words]


def tried_made():
    yield Case("try: half the time of a stage", ["try", "r.json", "a runs=50%"], HALF, err=rf'\A{TAKEN} "b": of the stages on which no other waits it completes last\n\Z')
    yield Case("try: of the stage that is named", ["try", "r.json", "a runs=50%", "--stage", "a"], HALF_OF_A, err=r"\A\Z")
    yield Case("try: options in front", ["try", "--stage=a", "--format", "text", "r.json", "a runs=50%"], exactly(HALF_OF_A), err=r"\A\Z")
    yield Case("try: from standard input", ["try", "-", "a runs=50%"], HALF, stdin=R)
    yield Case("try: it is not told which stage was taken", ["try", "--quiet", "r.json", "a runs=50%"], HALF, err=r"\A\Z")
    yield Case("try: 64 changes", ["try", "r.json", *["a runs=5"] * 64], HALF)
    yield Case("try: 65 changes", ["try", "r.json", *["a runs=5"] * 65], "", 2, err="CHANGE")
    yield Case("try: no change", ["try", "r.json"], "", 2, err="CHANGE")
    yield Case("try: no file", ["try"], "", 2, err="FILE")
    yield Case("try: a change in place of the file", ["try", "a runs=5"], "", 2, err="CHANGE")
    yield Case("try: a change that is no text", ["try", "r.json", b"a runs=\xff"], "", 2, err=r"not UTF-8 text")
    yield Case("try: a file that is not there", ["try", "none.json", "a runs=5"], "refused 41 ReadFault\n", 3, err=r"none\.json: No such file")
    yield Case("try: a mistaken recording", ["try", "-", "a runs=5"], "refused 70 JSON\n", 1, stdin="{", err=r"standard input: line 1")
    yield Case("try: a mistaken word comes before a mistaken recording", ["try", "-", "a"], "", 2, stdin="{", err=r"it assigns nothing")
    yield Case("try: a warning that ends it", ["try", "--strict", "-", "a runs=5"], "", 1, stdin=R.replace('"op"', '"queue":1,"op"', 1), err=r'nothing reads "queue"')
    yield Case("try: no stage of the name", ["try", "r.json", "a runs=5", "--stage", "c"], NO_STAGE, 1, err=r'no stage has the name "c"')
    yield Case("try: no stage of the name, as JSON", ["try", "r.json", "a runs=5", "--stage", "c", "--format", "json"], exactly('{"name":"NoStage","number":10,"reply":"refused"}\n'), 1)
    yield Case("try: a refused edit comes before a stage that is not there", ["try", "r.json", "x runs=5", "--stage", "c"], "refused 10 NoStage in 0\n", 1)
    yield Case("try: a refused edit as JSON", ["try", "--format", "json", "r.json", "a runs=5", "x runs=5"], exactly('{"edit":1,"name":"NoStage","number":10,"reply":"refused"}\n'), 1)
    yield Case("try: a refused timeout as JSON", ["try", "--format", "json", "r.json", "a limit=5"], exactly('{"edit":0,"name":"NotOneTimeout","number":22,"reply":"refused"}\n'), 1)
    yield Case("try: too many edits as JSON", ["try", "--format", "json", "r.json", *["a runs=5 at=5"] * 33], exactly('{"name":"ListSize","number":21,"reply":"refused"}\n'), 1)
    yield Case("try: a refused edit is not explained", ["try", "--quiet", "r.json", "x runs=5"], "refused 10 NoStage in 0\n", 1, err=r"\A\Z")
    yield Case("try: a word that is no change is told all the same", ["try", "--quiet", "r.json", "x"], "", 2, err=r"it assigns nothing")
    yield Case("try: times without an action", ["try", "-", "m at=5 gives=1", "m runs=5"], "refused 17 NoAction in 2\n", 1, stdin=NO_ACTION, err=r'stage "m" has no action that could take time')
    yield Case("try: no stage completes", ["try", "-", "m at=5"], "", 2, stdin=NO_ACTION, err=r"\Awhatif: standard input: --stage is wanted: none of the stages on which no other waits completes\n\Z")
    yield Case("try: two stages complete last", ["try", "-", "a runs=5"], "", 2, stdin=TIED, err=r"\Awhatif: standard input: --stage is wanted: of the stages on which no other waits several complete last\n\Z")
    yield Case("try: two stages complete last, quietly", ["try", "--quiet", "-", "a runs=5"], "", 2, stdin=TIED, err=r"--stage is wanted")
    yield Case("try: two stages complete last, as JSON", ["try", "--format", "json", "-", "a runs=5"], "", 2, stdin=TIED, err=r"--stage is wanted")
    yield Case(
        "try: pending stages don't count",
        ["try", "-", "b runs=9"],
        told(changed("a", "value:1 at 3", "value:1 at 3"), ["b later 7"], [changed("b", "value:1 at 2", "value:1 at 9")], ["path of a at 3 stages 1", "a at 3 queued 0 ran 3 created 0"]),
        stdin=PENDING,
        err=rf'\A{TAKEN} "a": of the stages on which no other waits it completes last\n\Z',
    )
    yield Case(
        "try: a stage on which another waits completes later",
        ["try", "-", "b runs=50%"],
        told(changed("first", "value:1 at 10", "value:1 at 10"), ["b earlier 50"], [changed("b", "value:2 at 100", "value:2 at 50")], ["path of first at 10 stages 2", "first at 10 queued 0 ran 0 after a", "a at 10 queued 0 ran 10 created 0"]),
        stdin=EITHER,
        err=rf'\A{TAKEN} "first": of the stages on which no other waits it completes last\n\Z',
    )
    yield Case("try: save", ["try", "--save", "r.json", "a runs=50% gives=1"], exactly(SAVED), err=r"\A\Z")
    yield Case("try: save, as JSON", ["try", "--save", "--format", "json", "r.json", "a runs=50% gives=1"], exactly(SAVED), err=r"\A\Z")
    yield Case("try: a refused edit, to save", ["try", "--save", "r.json", "x runs=5"], exactly("refused 10 NoStage in 0\n"), 1, err=r'no stage has the name "x"')
    yield Case("try: a refused edit, to save, as JSON", ["try", "--save", "--format", "json", "r.json", "x runs=5"], exactly('{"edit":0,"name":"NoStage","number":10,"reply":"refused"}\n'), 1)
    yield Case("try: a picture", ["try", "--draw", "r.json", "a runs=50%"], DRAWN, err=r"\A\Z")
    yield Case("try: a picture and a path", ["try", "--draw", "--stage", "b", "r.json", "a runs=50%"], DRAWN_WITH_PATH, err=r"\A\Z")
    yield Case("try: a picture of no stage", ["try", "--draw", "--stage", "c", "r.json", "a runs=5"], NO_STAGE, 1, err=r'no stage has the name "c"')
    yield Case("try: a picture of refused edits", ["try", "--draw", "r.json", "c runs=5"], "refused 10 NoStage in 0\n", 1)
    yield Case("try: a picture and save", ["try", "--draw", "--save", "r.json", "a runs=5"], "", 2, err="--draw")
    yield Case("try: save and a stage", ["try", "--save", "--stage", "a", "r.json", "a runs=5"], "", 2, err="--stage")
    for name, words, wanted in TOLD:
        yield Case(f"try: {name}", with_limited(words, "--stage", "h"), wanted, files={"l.json": LIMITED})
    for name, given, words, of, wanted in OF_OTHERS:
        yield Case(f"try: {name}", ["try", "-", *words, "--stage", of], wanted, stdin=given, err=r"\A\Z")
    for name, words, said in NO_CHANGES:
        yield Case(f"try: {name}", ["try", "r.json", *words], "", 2, err=said)
    for name, words, line, said in REFUSED:
        yield Case(f"try: {name}", with_limited(words), f"{line}\n", 1, err=rf"l\.json: .*{said}" if "ListSize" not in line else said, files={"l.json": LIMITED})
    for what, stdout, said in [("a full standard output", "full", "No space left"), ("a pipe that nobody reads", "gone", "")]:
        yield Case(f"try: {what}", ["try", "r.json", "a runs=5", "--stage", "a"], None, 3, err=said, stdout=stdout)
        yield Case(f"try: {what}, to save", ["try", "--save", "r.json", "a runs=5"], None, 3, err=said, stdout=stdout)
        yield Case(f"try: {what}, for a picture", ["try", "--draw", "r.json", "a runs=5"], None, 3, err=said, stdout=stdout)


def tried_cases():
    return map(with_r, tried_made())


# ---- held against scripts


def times(stage):
    return stage.get("queued", 0), stage.get("runs", 0)


def a_change(pick, stage):
    """A change of a stage, as a word and as its edits; the stage is what it then is."""
    name, parts, edits = stage["name"], [], []
    if pick.random() < 0.6:
        queued, runs = times(stage)
        given = {}
        for key, kept in (("queued", queued), ("runs", runs)):
            if pick.random() < 0.7:
                share = pick.choice([None, 0, 1, 33, 50, 99, 100, 250])
                given[key] = pick.choice([0, 1, 7, 80]) if share is None else kept * share // 100
                parts.append(f"{key}={given[key]}" if share is None else f"{key}={share}%")
        if given:
            edits.append({"do": "setTimes", "stage": name, "queued": given.get("queued", queued), "runs": given.get("runs", runs)})
            stage |= {"queued": edits[-1]["queued"], "runs": edits[-1]["runs"]}
    if pick.random() < 0.3:
        text, outcome = pick.choice([("gives=7", {"value": 7}), ("gives=null", {"value": None}), ("gives=-3", {"value": -3}), ("fails=com.shop.Down", {"bare": "com.shop.Down"})])
        parts.append(text)
        edits.append({"do": "pinResult", "stage": name, "result": outcome})
    if pick.random() < 0.2:
        tick = pick.randrange(90)
        parts.append(f"at={tick}")
        edits.append({"do": "pinMoment", "stage": name, "at": tick})
    ends = stage.get("ends", [])
    if pick.random() < 0.6 and (sum(it["do"] in TIMEOUTS for it in ends) == 1 or pick.random() < 0.3):
        if sum(it["do"] in TIMEOUTS for it in ends) == 1 and pick.random() < 0.7:
            delay = pick.randrange(120)
            parts.append(f"limit={delay}")
            ends = [{**it, "delay": delay} if it["do"] in TIMEOUTS else it for it in ends]
        else:
            parts.append("unlimited")
            ends = [it for it in ends if it["do"] not in TIMEOUTS]
        edits.append({"do": "setEnds", "stage": name, "ends": ends})
        stage["ends"] = ends
    if not parts:
        parts, edits = ["at=9"], [{"do": "pinMoment", "stage": name, "at": 9}]
    pick.shuffle(parts)
    return " ".join([name, *parts]), edits


def state_in(line):
    """The state in the first line of a report `one`."""
    return re.fullmatch(r"\S+ \S+ rank \d+ (.*)", line)[1]


def wrong(program, seed):
    """What is wrong with a trial of the recording of a seed, or nothing."""
    made = some(seed)
    text, pick = json.dumps(made), random.Random(f"tried {seed}")
    chosen = [pick.choice(made["stages"]) for _ in range(pick.choice([1, 1, 2, 4]))]
    words, edits = [], []
    for one in chosen:
        word, own = a_change(pick, one)
        words.append(word)
        edits += own
    name = pick.choice(made["stages"])["name"]
    asked = [{"version": 0, "what": "one", "stage": name}, {"version": 1, "what": "one", "stage": name}]
    asked += [{"session": 1, "what": "drift", "against": 0}, {"session": 1, "what": "changes", "against": 0}, {"session": 1, "what": "path", "stage": name}]
    steps = [step("open", session=1, version=0), step("edits", session=1, edits=edits)] + [step("report", **it) for it in asked]
    steps.append(step("report", version=1, what="recording"))
    files = {"r.json": text}
    script = run(program, Case("script", ["serve", "r.json"], None, stdin=lines(*steps), files=files, seconds=60)).out.decode().splitlines()
    if script[1].startswith("refused"):
        wanted, saved, status = lines(script[1]), lines(script[1]), 1
    else:
        first = f"{name} {state_in(script[2])} -> {state_in(script[7])}"
        at = next(it for it, line in enumerate(script) if line.startswith("recording of version"))
        wanted, saved, status = lines(first, *script[12:at]), lines(*script[at + 1 :]), 0
    for more, out in ((["--stage", name], wanted), (["--stage", name, "--format", "json"], None), (["--save"], saved)):
        came = run(program, Case("tried", ["try", *more, "r.json", *words], None, files=files, seconds=60))
        told_as = came.out.decode() if out is not None else text_of(came.out)[0]
        out = wanted if out is None else out
        if (came.status, told_as) != (status, out):
            return f"{words}, {' '.join(more)}: wanted {shown(out.encode())}, came {shown(told_as.encode())} with status {came.status}"
    return ""


def tried(program):
    """The name of each case, its complaint or nothing, and no refusal."""
    with concurrent.futures.ThreadPoolExecutor(LANES) as lanes:
        for seed, said in enumerate(lanes.map(lambda it: wrong(program, it), range(HOW_MANY))):
            yield f"changes made at random, {seed}, are tried as a script makes them", said, set()
