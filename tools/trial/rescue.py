"""`whatif rescue`: which single changes would have made a stage complete with a value; and the same of recordings made at random,
where each change is made once more by scripts that ask what the stage comes to then."""
import concurrent.futures
import json
import random

from .answers import as_json, text_of, tried_change, value
from .cases import MOST_TICKS, NO_READ, R, lines, recording, stage, with_r
from .courses import timeout
from .limits import MOST_RECORDING, filled
from .recomputed import TIMEOUTS, some
from .run import CLOSED, LANES, Case, File, Pieces, Shut, run, shown
from .why import FAILS, MISSING, NO_STAGE, TIMED_OUT, WAITS, example, help_of

SAVED_B = lines("rescue of b value:5 at 15: 2 of 2 changes", "a runs=0 -> value:5 at 5", "b runs=0 -> value:5 at 10")
NONE_OF_B = "rescue of b value:5 at 15: none needed\n"
UNREAD = R.replace('"op"', '"queue":1,"op"', 1)

HELP_OF_RESCUE = help_of("""\
Prints which single changes would have made a stage complete with a value, in time if a tick is given

Usage: PROGRAM rescue [OPTIONS] <FILE> [STAGE]

Arguments:
  <FILE>   the recording; - is standard input
  [STAGE]  the stage; where it is left out, the one that completes last of those on which no other waits

Options:
      --by <T>           the tick by which the stage is to have a value, from 0 to 2^40; where it is left out, any will do
      --as <V>           the value that stands in place of an exception, a whole number or null; where it is left out, null
      --top <N>          print the first N changes alone
      --quiet            leave explanations and warnings out
      --strict           end with status 1 where there is a warning
      --format <FORMAT>  text for people, or json for programs: a line for each answer, which is one object [default: text] [possible values: text, json]
  -h, --help             Print help

Examples:
  whatif rescue --as 7 examples/late-reply.json reply
  whatif rescue --by 100 --top 2 examples/late-reply.json customer

The lines: docs/FORMATS.md, Reports.
""")


def timed(name, runs, action=0, **members):
    return stage("async", name, runs=runs, action=action, **members)


def failing(name, exception="X", **members):
    return timed(name, 3, ["throw", exception], **members)


def both(name, sources, action=0, **members):
    return stage("thenCombine", name, sources=[*sources], action=action, **members)


def on_timeout(delay, at=0, to=7):
    return {"at": at, "do": "completeOnTimeout", "delay": delay, "value": to}


LATE = "bare:java.util.concurrent.TimeoutException"
# `slow` would have given 1 at 103, but for a timeout.
SLOW = recording(timed("slow", 100, 1, queued=3, ends=[timeout(60)]), form=2)
TWICE = recording(timed("slow", 20, 1, ends=[timeout(15), on_timeout(10, at=30)]), form=2)
SLOW_SAVED = [f"rescue of slow {LATE} at 60: 3 of 4 changes", "slow runs=0 -> value:1 at 3", "slow unlimited -> value:1 at 103", "slow limit=120 -> value:1 at 103"]
# What is told of a stage of a recording.
TOLD = [
    ("what was thrown", FAILS, "b", [], ["rescue of b wrapped:X at 3: 1 of 2 changes", "a gives=null -> value:null at 3"]),
    ("what was thrown, where it was", FAILS, "a", [], ["rescue of a wrapped:X at 3: 1 of 2 changes", "a gives=null -> value:null at 3"]),
    ("a number in its place", FAILS, "b", ["--as", "12"], ["rescue of b wrapped:X at 3: 1 of 2 changes", "a gives=12 -> value:12 at 3"]),
    ("a number below 0 in its place", FAILS, "b", ["--as", "-12"], ["rescue of b wrapped:X at 3: 1 of 2 changes", "a gives=-12 -> value:-12 at 3"]),
    ("the least number in its place", FAILS, "b", [f"--as={-2**63}"], ["rescue of b wrapped:X at 3: 1 of 2 changes", f"a gives={-2**63} -> value:{-2**63} at 3"]),
    ("the largest number in its place", FAILS, "b", ["--as", f"{2**63 - 1}"], ["rescue of b wrapped:X at 3: 1 of 2 changes", f"a gives={2**63 - 1} -> value:{2**63 - 1} at 3"]),
    ("null in its place", FAILS, "b", ["--as", "null"], ["rescue of b wrapped:X at 3: 1 of 2 changes", "a gives=null -> value:null at 3"]),
    ("a stage that waits for nobody", WAITS, "n", [], ["rescue of n pending: 0 of 0 changes"]),
    ("a timeout", SLOW, "slow", [], SLOW_SAVED),
    ("a timeout, in time", SLOW, "slow", ["--by", "103"], SLOW_SAVED),
    ("a timeout, too late", SLOW, "slow", ["--by", "102"], [f"rescue of slow {LATE} at 60: 1 of 4 changes", "slow runs=0 -> value:1 at 3"]),
    (
        "an action that was cut off",
        TIMED_OUT,
        "a",
        [],
        [f"rescue of a {LATE} at 9: 3 of 3 changes", "a runs=0 -> value:1 at 0", "a unlimited -> value:1 at 10", "a limit=18 -> value:1 at 10"],
    ),
    (
        "one of two timeouts",
        TWICE,
        "slow",
        [],
        [
            *[f"rescue of slow {LATE} at 15: 3 of 5 changes", "slow runs=0 -> value:1 at 0", "slow without orTimeout 15 set at 0 -> value:1 at 20"],
            "slow orTimeout 15 set at 0 -> 30 -> value:1 at 20",
        ],
    ),
    (
        "a call that cancels it",
        recording(timed("slow", 20, 1, ends=[{"at": 4, "do": "cancel"}, timeout(90)]), form=2),
        "slow",
        [],
        ["rescue of slow bare:java.util.concurrent.CancellationException at 4: 2 of 4 changes", "slow runs=0 -> value:1 at 0", "slow without cancel set at 4 -> value:1 at 20"],
    ),
    (
        "a call that fails it",
        recording(timed("slow", 20, 1, ends=[{"at": 4, "do": "completeExceptionally", "throws": "X"}]), form=2),
        "slow",
        [],
        ["rescue of slow bare:X at 4: 2 of 2 changes", "slow runs=0 -> value:1 at 0", "slow without completeExceptionally set at 4 -> value:1 at 20"],
    ),
    (
        "a value that comes late",
        recording(timed("slow", 20, 1, queued=5), timed("other", 9), both("last", ["slow", "other"], ["arg", 0], queued=1, runs=2), form=2),
        "last",
        ["--by", "27"],
        ["rescue of last value:1 at 28: 4 of 5 changes", "slow runs=0 -> value:1 at 12", "slow queued=0 -> value:1 at 23", "last runs=0 -> value:1 at 26", "last queued=0 -> value:1 at 27"],
    ),
    (
        "rescues of one moment by place",
        recording(both("last", ["b", "a"], runs=4), timed("a", 5), timed("b", 5), stage("handle", "all", sources=["last"], action=["if", ["failed"], 1, ["throw", "Y"]]), form=2),
        "all",
        ["--as", "3"],
        ["rescue of all wrapped:Y at 9: 1 of 4 changes", "all gives=3 -> value:3 at 9"],
    ),
    (
        "what another stage would hand on",
        recording(failing("a"), failing("b", "Y"), stage("anyOf", "any", sources=["b", "a"]), form=2),
        "any",
        ["--as", "8"],
        ["rescue of any wrapped:Y at 3: 1 of 4 changes", "b gives=8 -> value:8 at 3"],
    ),
    ("the longest delay", recording(stage("manual", "m", ends=[timeout(MOST_TICKS)]), form=2), "m", [], [f"rescue of m {LATE} at {MOST_TICKS}: 0 of 1 changes"]),
    ("a delay that can't be doubled", recording(stage("manual", "m", ends=[timeout(MOST_TICKS - 1)]), form=2), "m", [], [f"rescue of m {LATE} at {MOST_TICKS - 1}: 0 of 2 changes"]),
    ("a pinned exception", recording(timed("a", 5, pinResult={"bare": "X"}), form=2), "a", ["--as", "2"], ["rescue of a bare:X at 5: 1 of 2 changes", "a gives=2 -> value:2 at 5"]),
    ("a pinned moment", recording(failing("a", pinMoment=9), form=2), "a", ["--as", "2"], ["rescue of a wrapped:X at 9: 1 of 2 changes", "a gives=2 -> value:2 at 9"]),
]

STOCK, NORTH = "com.shop.StockServiceDown", "stock-north runs=0 -> value:5499 at 126"
# What is told of stages of the late reply, whose page fails at 117 by what `stock-south` threw at 59.
LATE_REPLY = [
    ("reply", [], [f"rescue of reply wrapped:{STOCK} at 117: 1 of 25 changes", NORTH]),
    ("reply", ["--as", "7"], [f"rescue of reply wrapped:{STOCK} at 117: 2 of 25 changes", NORTH, "stock-south gives=7 -> value:5499 at 126"]),
    ("reply", ["--as", "7", "--by", "125"], [f"rescue of reply wrapped:{STOCK} at 117: 0 of 25 changes"]),
    ("audit", [], [f"rescue of audit wrapped:{STOCK} at 124: 1 of 26 changes", "stock-north runs=0 -> value:5499 at 132"]),
    ("customer", [], ["rescue of customer value:17 at 114: none needed"]),
    ("customer", ["--by", "114"], ["rescue of customer value:17 at 114: none needed"]),
    (
        "customer",
        ["--by", "100"],
        [
            *["rescue of customer value:17 at 114: 3 of 8 changes", "customer-cache gives=null -> value:null at 11", "customer-database runs=0 -> value:17 at 26"],
            "customer-database queued=0 -> value:17 at 100",
        ],
    ),
    (
        "stock-north",
        [],
        [
            *[f"rescue of stock-north {LATE} at 121: 3 of 8 changes", "stock-north runs=0 -> value:12 at 24", "stock-north unlimited -> value:12 at 164"],
            "stock-north limit=200 -> value:12 at 164",
        ],
    ),
]
EACH_AS_JSON = (
    '{"by":30,"count":3,"moment":15,"outcome":{"bare":"java.util.concurrent.TimeoutException"},"report":"rescue","rescues":['
    '{"change":{"kind":"noTime"},"moment":0,"name":"slow","value":1},'
    '{"change":{"at":0,"delay":15,"do":"orTimeout","end":0,"kind":"withoutEnd","only":false},"moment":20,"name":"slow","value":1},'
    '{"change":{"at":0,"delay":15,"do":"orTimeout","end":0,"kind":"twiceTheDelay","longer":30,"only":false},"moment":20,"name":"slow","value":1}'
    '],"stage":"slow","tried":5,"version":0}\n'
)


def refused_words():
    for name, words, err in (
        ("without a file", [], f"(?s){MISSING}.*<FILE>"),
        ("of two stages", ["r.json", "a", "b"], "'b'"),
        ("with an unknown option", ["--nonsense", "r.json", "a"], "nonsense"),
        ("of a stage that is no text", ["r.json", b"\xff"], r"\S"),
        ("takes no --within", ["--within", "1", "r.json", "b"], "--within"),
        *[(f"{it} without a value", ["r.json", "b", it], it) for it in ("--by", "--as", "--top")],
        *[(f"{it} twice", [it, "1", it, "1", "r.json", "b"], it) for it in ("--by", "--as", "--top")],
        *[(f"--by {it!r}", ["--by", it, "r.json", "b"], r"--by <T>|-1") for it in ("x", "", "-1", "1.5", " 1", "1 ", "1%", str(MOST_TICKS + 1), str(2**64))],
        *[(f"--top {it!r}", ["--top", it, "r.json", "b"], r"--top <N>|-1") for it in ("x", "", "-1", "1.5")],
        *[
            (f"--as {it!r} before a file that isn't there", [f"--as={it}", "absent", "b"], r'\Awhatif: --as ".*" is no value; a whole number is wanted, or null\n\Z')
            for it in ("x", "", "NULL", "1.5", " 1", "1 ", "+1", "--1", "-", "null ")
        ],
        *[(f"--as {it}", [f"--as={it}", "r.json", "b"], r'\Awhatif: --as "-?\d+" is a number of more than 64 bits; a whole number is wanted, or null\n\Z') for it in (2**63, -(2**63) - 1)],
    ):
        yield Case(f"rescue {name}", ["rescue", *words], "", 2, err=err)


def of_files():
    yield Case("rescue of a stage", ["rescue", "r.json", "b"], NONE_OF_B, err=r"\A\Z")
    yield Case("rescue of a file's name after --", ["rescue", "--", "r.json", "b"], NONE_OF_B)
    yield Case("rescue of a file needs no standard input", ["rescue", "r.json", "b"], NONE_OF_B, stdin=CLOSED)
    yield Case("rescue of standard input", ["rescue", "-", "b"], NONE_OF_B, stdin=R)
    yield Case("rescue of standard input a byte at a time", ["rescue", "-", "b"], NONE_OF_B, stdin=Pieces(lambda: (bytes([it]) for it in R.encode())))
    yield Case("rescue of a closed standard input", ["rescue", "-", "b"], NO_READ, 3, stdin=CLOSED)
    yield Case("rescue of a folder on standard input", ["rescue", "-", "b"], NO_READ, 3, stdin=File("."))
    yield Case("rescue of no file", ["rescue", "absent", "b"], NO_READ, 3, err=r"\Awhatif: absent: No such file or directory\n\Z")
    yield Case("rescue of a file that may not be read", ["rescue", "shut", "b"], NO_READ, 3, files={"shut": Shut(R)})
    yield Case("rescue of a refused recording", ["rescue", "bad", "b"], "refused 70 JSON\n", 1, files={"bad": "["})
    yield Case("rescue: the recording before the stage", ["rescue", "bad", "zz"], "refused 19 Cycle\n", 1, files={"bad": recording(stage("copy", sources=["a"]))})
    yield Case("rescue of a recording that is too long", ["rescue", "-", "b"], "refused 72 TooLong\n", 1, stdin=lambda: filled(R, MOST_RECORDING + 1))
    yield from (Case(f"rescue: no stage {it[:4]!r}", ["rescue", "r.json", it], NO_STAGE, 1) for it in ("zz", "", "B", " b", "-", "n" * 70))
    yield Case("rescue: a stage that is nearly there", ["rescue", "r.json", "bb"], NO_STAGE, 1, err='did you mean "b"')
    yield Case("rescue of a recording with a warning", ["rescue", "-", "b"], NONE_OF_B, stdin=UNREAD, err="nothing reads")
    yield Case("rescue --quiet of a recording with a warning", ["rescue", "--quiet", "-", "b"], NONE_OF_B, stdin=UNREAD, err=r"\A\Z")
    yield Case("rescue --strict of a recording with a warning", ["rescue", "--strict", "-", "b"], "", 1, stdin=UNREAD, err="nothing reads")
    for where, err in (("full", r"\Awhatif: standard output: No space left on device\n\Z"), ("closed", r"\Awhatif: standard output: Bad file descriptor\n\Z"), ("gone", r"\A\Z")):
        yield Case(f"rescue on a {where} standard output", ["rescue", "r.json", "b"], "", 3, err=err, stdout=where)


def of_options():
    for most in (0, 1, 2, 3, 4, 2**64 - 1):
        yield Case(f"rescue --top {most}", ["rescue", "--top", str(most), "-", "slow"], lines(*SLOW_SAVED[: most + 1]), stdin=SLOW)
    yield Case("rescue: options at the end", ["rescue", "-", "slow", "--by=102", "--top=9", "--as=1"], lines(f"rescue of slow {LATE} at 60: 1 of 4 changes", SLOW_SAVED[1]), stdin=SLOW)
    yield Case("rescue --by the moment", ["rescue", "--by", "15", "r.json", "b"], NONE_OF_B)
    yield Case("rescue --by a tick before", ["rescue", "--by", "14", "r.json", "b"], SAVED_B)
    yield Case("rescue --by the last tick", ["rescue", "--by", str(MOST_TICKS), "r.json", "b"], NONE_OF_B)
    yield Case("rescue --by 0", ["rescue", "--by", "0", "r.json", "b"], "rescue of b value:5 at 15: 0 of 2 changes\n")
    yield Case("rescue --by 1 of no stage", ["rescue", "--by", "1", "r.json", "zz"], NO_STAGE, 1)


def rescue_made():
    yield from (Case(f"help of rescue, by {' '.join(words)}", words, HELP_OF_RESCUE) for words in (["rescue", "--help"], ["rescue", "-h"], ["help", "rescue"]))
    yield from refused_words()
    yield from of_files()
    yield from of_options()
    for name, given, of, words, told in TOLD:
        yield Case(f"rescue of {' '.join([of, *words])}: {name}", ["rescue", *words, "-", of], lines(*told), stdin=given)
    yield Case("rescue as JSON", ["rescue", "--format", "json", "--by", "30", "-", "slow"], EACH_AS_JSON, stdin=TWICE)
    yield Case("rescue as JSON of none", ["rescue", "--format=json", "-", "n"], '{"by":null,"count":0,"moment":null,"outcome":null,"report":"rescue","rescues":[],"stage":"n","tried":0,"version":0}\n', stdin=WAITS)
    for of, words, told in LATE_REPLY:
        yield Case(f"rescue of {' '.join([of, *words])} of the late reply", ["rescue", *words, "late", of], lines(*told), files={"late": example("late-reply.json")})


def rescue_cases():
    return map(with_r, rescue_made())


# ---- once more, by scripts


class Trials:
    """What a stage of a recording comes to where another one is changed, by the edits and `one` of scripts."""

    def __init__(self, program, text, target):
        self.program, self.text, self.target = program, text, target
        self.stages = {it["name"]: it for it in json.loads(text)["stages"]}
        self.times = {it["name"]: it for it in self.served([{"do": "report", "version": 0, "what": "times"}])[0]["stages"]}
        (self.before,) = self.served([self.asked(0)])
        self.struck = {it["name"]: at for at, it in self.ends() if it["fate"]["kind"] in ("struck", "cutOff")}
        self.origins = {it["name"] for it in self.commanded(["failures"])["stages"]}

    def served(self, steps):
        script = "".join(json.dumps(it) + "\n" for it in steps)
        out = run(self.program, Case("asked", ["serve", "--format", "json", "r.json"], None, stdin=script, files={"r.json": self.text}, seconds=120)).out
        return [told for told in map(json.loads, out.splitlines()) if "report" in told]

    def commanded(self, words):
        return json.loads(run(self.program, Case("asked", [*words, "--format", "json", "-"], None, stdin=self.text, seconds=60)).out)

    def asked(self, version=None):
        where = {"session": 1} if version is None else {"version": version}
        return {"do": "report", **where, "what": "one", "stage": self.target}

    def ends(self):
        """What came of each end, with its index among those of its stage."""
        met = {}
        for it in self.commanded(["ends"])["stages"]:
            yield met.get(it["name"], 0), it
            met[it["name"]] = met.get(it["name"], 0) + 1

    def waited_for(self):
        met, left = set(), [self.target]
        while left:
            name = left.pop()
            if name not in met:
                met.add(name)
                left += self.stages[name].get("sources", []) + self.stages[name].get("inner", [])
        return [it for it in self.stages if it in met]

    def ended(self, names):
        """Those of these stages that an end completed."""
        paths = self.served([{"do": "report", "version": 0, "what": "path", "stage": it} for it in names])
        return {name for name, path in zip(names, paths) if path["steps"][0]["cause"]["kind"] == "ended"}

    def changes_of(self, name, as_value, ended):
        """Each change of a stage that is tried, with the edit that makes it."""
        here, ends = self.times[name], self.stages[name].get("ends", [])

        def times(**other):
            return {"do": "setTimes", "session": 1, "stage": name, **{it: here[it] for it in ("queued", "runs")}, **other}

        def with_ends(made):
            return {"do": "setEnds", "session": 1, "stage": name, "ends": made}

        def told(at, kind):
            end = ends[at]
            is_only = end["do"] in TIMEOUTS and len([it for it in ends if it["do"] in TIMEOUTS]) == 1
            return {"at": end["at"], "delay": end.get("delay"), "do": end["do"], "end": at, "kind": kind, "only": is_only}

        def without(at):
            return told(at, "withoutEnd"), with_ends(ends[:at] + ends[at + 1 :])

        if here["runs"]:
            yield {"kind": "noTime"}, times(runs=0)
        if here["queued"]:
            yield {"kind": "notQueued"}, times(queued=0)
        undone = None
        if name in self.origins:
            if name in ended:
                undone = self.struck[name]
                yield without(undone)
            else:
                yield {"kind": "noFailure", "value": as_value}, {"do": "pinResult", "session": 1, "stage": name, "result": {"value": as_value}}
        waiting = [at for at, it in enumerate(ends) if it["do"] in TIMEOUTS]
        yield from (without(at) for at in waiting if at != undone)
        for at in waiting:
            longer = min(2 * ends[at]["delay"], MOST_TICKS)
            if longer > ends[at]["delay"]:
                change = told(at, "twiceTheDelay")
                yield {**{it: change[it] for it in ("at", "delay", "do", "end", "kind")}, "longer": longer, "only": change["only"]}, with_ends([*ends[:at], {**ends[at], "delay": longer}, *ends[at + 1 :]])

    def found(self, by, as_value):
        """The object that is told, with all rescues."""

        def replied(it):
            return it["outcome"] is not None and "value" in it["outcome"] and (by is None or it["moment"] <= by)

        trials = []
        if not replied(self.before):
            names = self.waited_for()
            ended = self.ended(names)
            trials = [(name, change, edit) for name in names for change, edit in self.changes_of(name, as_value, ended)]
        steps = [{"do": "open", "session": 1, "version": 0}]
        for _, _, edit in trials:
            steps += [edit, self.asked(), {"do": "undo", "session": 1}]
        came = self.served(steps) if trials else []
        assert len(came) == len(trials), (self.target, trials, came)
        saved = [
            {"change": change, "moment": it["moment"], "name": name, "value": it["outcome"]["value"]} for (name, change, _), it in zip(trials, came) if replied(it)
        ]
        saved.sort(key=lambda it: it["moment"])
        return {
            "by": by, "count": len(saved), "moment": self.before["moment"], "outcome": self.before["outcome"], "report": "rescue", "rescues": saved, "stage": self.target,
            "tried": len(trials), "version": 0,
        }


def assigned(change, name):
    """The change as a word of `try`, where it is one."""
    words = tried_change(change)
    return None if " " in words else f"{name} {words}"


HOW_MANY = 100


def wrong_try(program, text, told):
    """What is wrong with what `try` makes of the first rescue that it can make, or nothing."""
    for it in told["rescues"]:
        word = assigned(it["change"], it["name"])
        if word is not None:
            came = run(program, Case("try", ["try", "-", word, "--stage", told["stage"]], None, stdin=text, seconds=60)).out.decode()
            end = f" -> value:{value(it['value'])} at {it['moment']}"
            return "" if came.splitlines()[0].endswith(end) else f"try {word!r}: wanted {end!r}, came {came.splitlines()[0]!r}"
    return ""


def wrong(program, seed):
    """What is wrong with what is told of some stages of the recording of a seed, or nothing; and the kinds of changes that were told."""
    made, met = some(seed), set()
    text, pick = json.dumps(made), random.Random(f"rescue {seed}")
    limited = [it for it in made["stages"] if len([end for end in it.get("ends", []) if end["do"] in TIMEOUTS]) == 1]
    for target in {it["name"] for it in (made["stages"][-1], pick.choice(made["stages"]), pick.choice(limited or made["stages"]))}:
        trials = Trials(program, text, target)
        for by, as_value, most in ((None, None, None), (pick.randrange(60), 1, None), (pick.choice([0, 5, 200]), pick.choice([-3, 0, 2]), pick.choice([0, 1, 3]))):
            wanted = trials.found(by, as_value)
            met |= {it["change"]["kind"] for it in wanted["rescues"]} | {"only" for it in wanted["rescues"] if it["change"].get("only")}
            said = wrong_try(program, text, wanted)
            if said:
                return said, met
            if most is not None:
                wanted["rescues"] = wanted["rescues"][:most]
            words = ["rescue", "-", target, *([] if by is None else ["--by", str(by)]), *([] if as_value is None else ["--as", str(as_value)]), *([] if most is None else ["--top", str(most)])]
            line = f"{as_json(wanted)}\n".encode()
            for form, out in (("text", text_of(line)[0].encode()), ("json", line)):
                came = run(program, Case("rescue", [*words, "--format", form], None, stdin=text, seconds=60))
                if (came.status, came.out) != (0, out):
                    return f"{' '.join(words)} as {form}: wanted {shown(out)}, came {shown(came.out)} with status {came.status}", met
    return "", met


def rescues(program):
    """The name of each case, its complaint or nothing, and no refusal."""
    met = set()
    with concurrent.futures.ThreadPoolExecutor(LANES) as lanes:
        for seed, (said, of_seed) in enumerate(lanes.map(lambda it: wrong(program, it), range(HOW_MANY))):
            met |= of_seed
            yield f"rescues in a recording made at random, {seed}, are those of scripts", said, set()
    lacking = {"noTime", "notQueued", "noFailure", "withoutEnd", "twiceTheDelay", "only"} - met
    yield "these recordings have every kind of rescue", f"they lack {sorted(lacking)}" if lacking else "", set()
