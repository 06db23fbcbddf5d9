"""`whatif slack`: how many ticks longer each stage may run before a stage completes otherwise; and the same of recordings made at
random, searched once more by scripts that let each stage run longer and ask what the stage comes to then."""
import concurrent.futures
import json
import random

from .answers import as_json, text_of
from .asking import Asking
from .cases import MOST_TICKS, NO_READ, R, lines, recording, stage, with_r
from .courses import timeout
from .limits import MOST_RECORDING, chain_of, filled
from .recomputed import some
from .run import CLOSED, LANES, Case, File, Pieces, Shut, run, shown
from .why import EITHER, FAILS, MISSING, NO_STAGE, TIMED_OUT, WAITS, example, help_of

OF_A = lines("slack of a at 10 stages 1", "a slack 0 start 0 latest 0")
OF_B = ["slack of b at 15 stages 2", "a slack 0 start 0 latest 0", "b slack 0 start 10 latest 10"]
TOLD_OF_B = lines(*OF_B)
UNREAD = R.replace('"op"', '"queue":1,"op"', 1)

HELP_OF_SLACK = help_of("""\
Prints how many ticks longer each stage may run before a stage completes otherwise

Usage: PROGRAM slack [OPTIONS] <FILE> [STAGE]

Arguments:
  <FILE>   the recording; - is standard input
  [STAGE]  the stage; where it is left out, the one that completes last of those on which no other waits

Options:
      --within <D>       print the stages alone that may run no more than D ticks longer, from 0 to 2^40
      --quiet            leave explanations and warnings out
      --strict           end with status 1 where there is a warning
      --format <FORMAT>  text for people, or json for programs: a line for each answer, which is one object [default: text] [possible values: text, json]
  -h, --help             Print help

Examples:
  whatif slack examples/late-reply.json reply
  whatif slack --within 20 examples/late-reply.json reply

The lines: docs/FORMATS.md, Reports.
""")


def timed(name, runs, action=0, **members):
    return stage("async", name, runs=runs, action=action, **members)


def both(name, sources, action=0, op="thenCombine", **members):
    return stage(op, name, sources=[*sources], action=action, **members)


# `both` completes at 10, and `one` may be as late.
TWO = recording(timed("one", 3), timed("other", 10), both("both", ["one", "other"], runs=2), form=2)


def passed_over(first, second):
    """The last stage gives 2 at 50, and 1 where `x`, which ends at 3, ends after `first` and no later than `second`."""
    return recording(
        *[timed("x", 3, 1), timed("y", first, 2), timed("k", second, 2), stage("applyToEither", "z", sources=["x", "y"], action=["arg", 0])],
        *[stage("applyToEither", "v", sources=["x", "k"], action=["arg", 0]), both("sum", ["z", "v"], ["if", ["eq", ["arg", 0], ["arg", 1]], 2, 1]), timed("clock", 50)],
        *[both("at-50", ["sum", "clock"], ["arg", 0]), both("last", ["at-50", "x"], ["arg", 0])],
        form=2,
    )


# What is told of the slacks of a stage of a recording.
TOLD = [
    ("no stage that has started", WAITS, "n", ["slack of n pending stages 0"]),
    ("a failure that was handed on", FAILS, "b", ["slack of b at 3 stages 1", "a slack 0 start 0 latest 0"]),
    ("an action that was cut off", TIMED_OUT, "a", ["slack of a at 9 stages 0"]),
    ("what another stage is faster than", EITHER, "e", ["slack of e at 4 stages 3", "x slack 0 start 0 latest 0", "e slack 0 start 3 latest 3", "y slack - start 0 latest -"]),
    ("two stages that are waited for", TWO, "both", ["slack of both at 12 stages 3", "other slack 0 start 0 latest 0", "both slack 0 start 10 latest 10", "one slack 7 start 0 latest 7"]),
    ("a stage that waits for no other", TWO, "one", ["slack of one at 3 stages 1", "one slack 0 start 0 latest 0"]),
    (
        "stages of the same slack by place",
        recording(stage("thenApply", "last", sources=["first"], runs=5, action=1), timed("late", 2), timed("first", 5), timed("early", 2), stage("allOf", "all", sources=["early", "last", "late"]), form=2),
        "all",
        ["slack of all at 10 stages 4", "last slack 0 start 5 latest 5", "first slack 0 start 0 latest 0", "late slack 8 start 0 latest 8", "early slack 8 start 0 latest 8"],
    ),
    (
        "a stage that stays pending",
        recording(timed("done", 3), stage("manual", "never"), both("waits", ["done", "never"]), form=2),
        "waits",
        ["slack of waits pending stages 1", "done slack - start 0 latest -"],
    ),
    (
        "a stage that would be pending no more",
        recording(timed("done", 3, ends=[timeout(9)]), stage("manual", "never"), stage("exceptionallyCompose", "saved", sources=["done"], inner=["never"], action=0), form=2),
        "saved",
        ["slack of saved at 3 stages 1", "done slack 0 start 0 latest 0"],
    ),
    (
        "a timeout",
        recording(timed("call", 3, 1, ends=[timeout(9)]), timed("clock", 20), both("both", ["call", "clock"], ["arg", 0]), form=2),
        "both",
        ["slack of both at 20 stages 3", "clock slack 0 start 0 latest 0", "both slack 0 start 20 latest 20", "call slack 6 start 0 latest 6"],
    ),
    # (`last` is another with 8 to 17 more ticks of `x`, and from 48 on)
    (
        "the least ticks at which it completes otherwise",
        passed_over(10, 20),
        "last",
        [
            *["slack of last at 50 stages 9", "clock slack 0 start 0 latest 0", "at-50 slack 0 start 50 latest 50", "last slack 0 start 50 latest 50", "x slack 7 start 0 latest 7"],
            *["z slack 47 start 3 latest 50", "v slack 47 start 3 latest 50", "sum slack 47 start 3 latest 50", "y slack - start 0 latest -", "k slack - start 0 latest -"],
        ],
    ),
    # (with 5 to 7 more ticks of `x`, which are between two that are tried, and from 48 on)
    (
        "ticks that are doubled over those at which it completes otherwise",
        passed_over(7, 10),
        "last",
        [
            *["slack of last at 50 stages 9", "clock slack 0 start 0 latest 0", "at-50 slack 0 start 50 latest 50", "last slack 0 start 50 latest 50", "x slack 47 start 0 latest 47"],
            *["z slack 47 start 3 latest 50", "v slack 47 start 3 latest 50", "sum slack 47 start 3 latest 50", "y slack - start 0 latest -", "k slack - start 0 latest -"],
        ],
    ),
    ("what is queued", recording(timed("a", 3, queued=2, created=1), form=2), "a", ["slack of a at 6 stages 1", "a slack 0 start 3 latest 3"]),
    ("a pinned moment", recording(timed("a", 5, pinMoment=9), form=2), "a", ["slack of a at 9 stages 0"]),
    ("a pinned result", recording(timed("a", 5, pinResult={"value": 3}), form=2), "a", ["slack of a at 5 stages 0"]),
    (
        "the longest slack",
        recording(timed("a", 0), timed("b", 0, created=MOST_TICKS - 1), both("c", ["a", "b"]), form=2),
        "c",
        [
            *[f"slack of c at {MOST_TICKS - 1} stages 3", f"b slack 0 start {MOST_TICKS - 1} latest {MOST_TICKS - 1}", f"c slack 0 start {MOST_TICKS - 1} latest {MOST_TICKS - 1}"],
            f"a slack {MOST_TICKS - 1} start 0 latest {MOST_TICKS - 1}",
        ],
    ),
    (
        "a slack that is longer than a recording may say",
        recording(timed("a", 0), timed("b", 1, created=MOST_TICKS), both("c", ["a", "b"]), form=2),
        "c",
        [f"slack of c at {MOST_TICKS + 1} stages 3", f"b slack 0 start {MOST_TICKS} latest {MOST_TICKS}", f"c slack 0 start {MOST_TICKS + 1} latest {MOST_TICKS + 1}", "a slack - start 0 latest -"],
    ),
    (
        "the longest durations",
        recording(timed("a", MOST_TICKS, created=MOST_TICKS, queued=MOST_TICKS), form=2),
        "a",
        [f"slack of a at {3 * MOST_TICKS} stages 1", f"a slack - start {2 * MOST_TICKS} latest -"],
    ),
    (
        "a tick less than the longest duration",
        recording(timed("a", MOST_TICKS - 1, created=MOST_TICKS, queued=MOST_TICKS), form=2),
        "a",
        [f"slack of a at {3 * MOST_TICKS - 1} stages 1", f"a slack 0 start {2 * MOST_TICKS} latest {2 * MOST_TICKS}"],
    ),
]
FAILED_AT_59 = ["request slack 58 start 0 latest 58", "session slack 58 start 2 latest 60", "basket slack 58 start 10 latest 68", "stock-south slack 58 start 24 latest 82"]
ON_THE_WAY = ["customer-cache slack 102 start 9 latest 111", "customer slack 102 start 11 latest 113"]
DATABASE, DISCOUNT = "customer-database slack 0 start 26 latest 26", "discount slack 0 start 114 latest 114"
# What is told of the stages of the late reply, whose page fails at 117 by what `stock-south` threw at 59.
LATE_REPLY = [
    ("reply", ["slack of reply at 117 stages 9", DATABASE, DISCOUNT, *FAILED_AT_59, "prices slack 68 start 22 latest 90", *ON_THE_WAY]),
    ("audit", ["slack of audit at 124 stages 10", DATABASE, DISCOUNT, "audit slack 0 start 119 latest 119", *FAILED_AT_59, "prices slack 68 start 22 latest 90", *ON_THE_WAY]),
    ("customer", ["slack of customer at 114 stages 5", DATABASE, "request slack 102 start 0 latest 102", "session slack 102 start 2 latest 104", *ON_THE_WAY]),
    ("stock-north", ["slack of stock-north at 121 stages 3", "request slack - start 0 latest -", "session slack - start 2 latest -", "basket slack - start 10 latest -"]),
    ("request", ["slack of request at 2 stages 1", "request slack 0 start 0 latest 0"]),
]

EACH_AS_JSON = (
    '{"count":3,"moment":4,"report":"slack","stage":"e","stages":[{"latest":0,"name":"x","slack":0,"start":0},{"latest":3,"name":"e","slack":0,"start":3},'
    '{"latest":null,"name":"y","slack":null,"start":0}],"version":0}\n'
)


def refused_words():
    for name, words, err in (
        ("without a file", [], f"(?s){MISSING}.*<FILE>"),
        ("of two stages", ["r.json", "a", "b"], "'b'"),
        ("with an unknown option", ["--nonsense", "r.json", "a"], "nonsense"),
        ("of a stage that is no text", ["r.json", b"\xff"], r"\S"),
        ("takes no --top", ["--top", "1", "r.json", "b"], "--top"),
        ("--within without a number", ["r.json", "b", "--within"], "--within <D>"),
        ("--within twice", ["--within", "1", "--within", "1", "r.json", "b"], "--within <D>"),
        ("--within x before a file that isn't there", ["--within", "x", "absent", "b"], "--within <D>"),
        *[(f"--within {it!r}", ["--within", it, "r.json", "b"], r"--within <D>|-1") for it in ("x", "", "-1", "1.5", " 1", "1 ", "1%", str(MOST_TICKS + 1), str(2**64))],
    ):
        yield Case(f"slack {name}", ["slack", *words], "", 2, err=err)
    yield Case("sweep takes no --within", ["sweep", "--within", "1", "r.json", "b"], "", 2, err="--within")


def of_files():
    yield Case("slack of a stage", ["slack", "r.json", "b"], TOLD_OF_B, err=r"\A\Z")
    yield Case("slack of a file's name after --", ["slack", "--", "r.json", "a"], OF_A)
    yield Case("slack of a file needs no standard input", ["slack", "r.json", "b"], TOLD_OF_B, stdin=CLOSED)
    yield Case("slack of standard input", ["slack", "-", "b"], TOLD_OF_B, stdin=R)
    yield Case("slack of standard input a byte at a time", ["slack", "-", "b"], TOLD_OF_B, stdin=Pieces(lambda: (bytes([it]) for it in R.encode())))
    yield Case("slack of a closed standard input", ["slack", "-", "b"], NO_READ, 3, stdin=CLOSED)
    yield Case("slack of a folder on standard input", ["slack", "-", "b"], NO_READ, 3, stdin=File("."))
    yield Case("slack of no file", ["slack", "absent", "b"], NO_READ, 3, err=r"\Awhatif: absent: No such file or directory\n\Z")
    yield Case("slack of a file that may not be read", ["slack", "shut", "b"], NO_READ, 3, files={"shut": Shut(R)})
    yield Case("slack of a refused recording", ["slack", "bad", "b"], "refused 70 JSON\n", 1, files={"bad": "["})
    yield Case("slack: the recording before the stage", ["slack", "bad", "zz"], "refused 19 Cycle\n", 1, files={"bad": recording(stage("copy", sources=["a"]))})
    yield Case("slack of a recording that is too long", ["slack", "-", "b"], "refused 72 TooLong\n", 1, stdin=lambda: filled(R, MOST_RECORDING + 1))
    yield from (Case(f"slack: no stage {it[:4]!r}", ["slack", "r.json", it], NO_STAGE, 1) for it in ("zz", "", "B", " b", "-", "n" * 70))
    yield Case("slack: a stage that is nearly there", ["slack", "r.json", "bb"], NO_STAGE, 1, err='did you mean "b"')
    yield Case("slack of a recording with a warning", ["slack", "-", "b"], TOLD_OF_B, stdin=UNREAD, err="nothing reads")
    yield Case("slack --quiet of a recording with a warning", ["slack", "--quiet", "-", "b"], TOLD_OF_B, stdin=UNREAD, err=r"\A\Z")
    yield Case("slack --strict of a recording with a warning", ["slack", "--strict", "-", "b"], "", 1, stdin=UNREAD, err="nothing reads")
    for where, err in (("full", r"\Awhatif: standard output: No space left on device\n\Z"), ("closed", r"\Awhatif: standard output: Bad file descriptor\n\Z"), ("gone", r"\A\Z")):
        yield Case(f"slack on a {where} standard output", ["slack", "r.json", "b"], "", 3, err=err, stdout=where)


def of_within():
    told = ["other slack 0 start 0 latest 0", "both slack 0 start 10 latest 10", "one slack 7 start 0 latest 7"]
    for most, count in ((0, 2), (6, 2), (7, 3), (8, 3), (MOST_TICKS, 3)):
        yield Case(f"slack --within {most}", ["slack", "--within", str(most), "-", "both"], lines(f"slack of both at 12 stages {count}", *told[:count]), stdin=TWO)
    yield Case("slack: --within at the end", ["slack", "-", "both", "--within=6"], lines("slack of both at 12 stages 2", *told[:2]), stdin=TWO)
    yield Case("slack --within of what has no end", ["slack", "--within", str(MOST_TICKS), "-", "e"], lines("slack of e at 4 stages 2", "x slack 0 start 0 latest 0", "e slack 0 start 3 latest 3"), stdin=EITHER)
    yield Case("slack --within 1 of no stage", ["slack", "--within", "1", "r.json", "zz"], NO_STAGE, 1)


def chain_told(stages):
    """The slack of the end of a chain: each stage's action takes one tick, and the first one's ten."""
    starts = [0, *range(10, 9 + stages)]
    return lines(f"slack of s{stages - 1} at {9 + stages} stages {stages}", *[f"s{at} slack 0 start {start} latest {start}" for at, start in enumerate(starts)])


def slack_made():
    yield from (Case(f"help of slack, by {' '.join(words)}", words, HELP_OF_SLACK) for words in (["slack", "--help"], ["slack", "-h"], ["help", "slack"]))
    yield from refused_words()
    yield from of_files()
    yield from of_within()
    for name, given, of, told in TOLD:
        yield Case(f"slack of {of}: {name}", ["slack", "-", of], lines(*told), stdin=given)
    yield Case("slack as JSON", ["slack", "--format", "json", "-", "e"], EACH_AS_JSON, stdin=EITHER)
    yield Case("slack as JSON of none", ["slack", "--format=json", "-", "n"], '{"count":0,"moment":null,"report":"slack","stage":"n","stages":[],"version":0}\n', stdin=WAITS)
    for of, told in LATE_REPLY:
        yield Case(f"slack of {of} of the late reply", ["slack", "late", of], lines(*told), files={"late": example("late-reply.json")})
    yield Case("slack of the end of a chain of 512 stages", ["slack", "large", "s511"], lambda: chain_told(512), files={"large": lambda: chain_of(512)}, seconds=60)
    yield Case("slack of a stage of a fan of 4,096", ["slack", "large", "s9"], lines("slack of s9 at 11 stages 2", "s0 slack 0 start 0 latest 0", "s9 slack 0 start 10 latest 10"), files={"large": lambda: chain_of(4096, 0)}, seconds=60)


def slack_cases():
    return map(with_r, slack_made())


# ---- once more, by scripts


def search(most):
    """Asks of ticks whether the target stays, and returns the most; none where it stays with as many as there may be."""
    if (yield most):
        return None
    ticks, past = 0, 1
    while past < most and (yield past):
        ticks, past = past, 2 * past
    step = ticks
    while step > 1:
        step //= 2
        if ticks + step < most and (yield ticks + step):
            ticks += step
    return ticks


def found(asking):
    """The slack of each stage that the target can wait for."""
    searches = {it: search(MOST_TICKS - asking.times[it]["runs"]) for it in asking.waited_for()}
    asked, slacks = {name: next(it) for name, it in searches.items()}, {}
    while asked:
        met = dict(zip(asked, asking.completions([(it, asking.times[it]["queued"], asking.times[it]["runs"] + ticks) for it, ticks in asked.items()])))
        for name in list(asked):
            try:
                asked[name] = searches[name].send(met[name] == asking.before)
            except StopIteration as end:
                slacks[name] = end.value
                del asked[name]
    return {name: slacks[name] for name in searches}


def slack_of(asking, slacks, within):
    """The object of a target, by the slack of each stage."""
    endless = MOST_TICKS + 1
    listed = [it for it in slacks if within is None or slacks[it] is not None and slacks[it] <= within]
    told = [
        {"latest": None if slacks[it] is None else asking.times[it]["start"] + slacks[it], "name": it, "slack": slacks[it], "start": asking.times[it]["start"]}
        for it in sorted(listed, key=lambda it: endless if slacks[it] is None else slacks[it])
    ]
    return {"count": len(told), "moment": asking.before[1], "report": "slack", "stage": asking.target, "stages": told, "version": 0}


HOW_MANY = 100


def wrong(program, seed):
    """What is wrong with what is told of two stages of the recording of a seed, or nothing; and the slacks that were found."""
    made, met = some(seed), set()
    text, pick = json.dumps(made), random.Random(f"slack {seed}")
    for target in {made["stages"][-1]["name"], pick.choice(made["stages"])["name"]}:
        asking = Asking(program, text, target)
        slacks = found(asking)
        met |= {*slacks.values()}
        for within in (None, 0, pick.choice([1, 5, 20])):
            wanted = slack_of(asking, slacks, within)
            words = ["slack", "-", target] + ([] if within is None else ["--within", str(within)])
            line = f"{as_json(wanted)}\n".encode()
            for form, out in (("text", text_of(line)[0].encode()), ("json", line)):
                came = run(program, Case("slack", [*words, "--format", form], None, stdin=text, seconds=60))
                if (came.status, came.out) != (0, out):
                    return f"{' '.join(words)} as {form}: wanted {shown(out)}, came {shown(came.out)} with status {came.status}", met
    return "", met


def slacks(program):
    """The name of each case, its complaint or nothing, and no refusal."""
    met = set()
    with concurrent.futures.ThreadPoolExecutor(LANES) as lanes:
        for seed, (said, of_seed) in enumerate(lanes.map(lambda it: wrong(program, it), range(HOW_MANY))):
            met |= of_seed
            yield f"slack in a recording made at random, {seed}, is as long as scripts say", said, set()
    kinds = {"none": 0 in met, "some": any(it for it in met if it), "no end": None in met}
    lacking = [it for it in kinds if not kinds[it]]
    yield "these recordings have every kind of slack", f"they lack {lacking}" if lacking else "", set()
