"""The stage that `explain`, `sweep`, `slack`, `rescue` and `compare` are about where none is named: the one that completes last of
those on which no other waits, if exactly one does; and the same of recordings made at random, where it is looked for once more."""
import concurrent.futures
import json
import random

from .cases import NO_READ, R, lines, recording, stage, with_r
from .compare import OF_ITSELF, twin
from .rescue import NONE_OF_B
from .recomputed import some
from .run import CLOSED, LANES, Case, run, shown
from .slack import TOLD_OF_B
from .tried import EITHER, NO_ACTION, PENDING, TIED
from .why import EXPLAINED_B, NO_STAGE, SWEPT

NAMES = ("explain", "sweep", "slack", "rescue", "compare")
# What is told of R, whose stage b waits for the other one.
OF_B = {"explain": EXPLAINED_B, "sweep": SWEPT, "slack": TOLD_OF_B, "rescue": NONE_OF_B, "compare": OF_ITSELF}
UNREAD = R.replace('"op"', '"queue":1,"op"', 1)


def taken(stage, name="", file="r.json"):
    """What people are told of the stage that is taken, of `compare` by the name of the bad run's file."""
    of_file = f"{file}: " if name == "compare" else ""
    return rf'\Awhatif: {of_file}no STAGE is given, so this is about stage "{stage}": of the stages on which no other waits it completes last\n\Z'


def wanted(file, several):
    """What people are told where there is no such stage."""
    why = "of the stages on which no other waits several complete last" if several else "none of the stages on which no other waits completes"
    return rf"\Awhatif: {file}: STAGE is wanted: {why}\n\Z"


def files_of(name, *others):
    """The words for the recordings that a command reads, the last of them the one whose stage is taken."""
    return [*others, "r.json"] if name == "compare" else ["r.json"]


def of_one(name):
    """Where `r.json` is the recording, of `compare` both."""
    words = files_of(name, "r.json")
    yield Case(f"{name} without a stage", [name, *words], OF_B[name], err=taken("b", name))
    yield Case(f"{name} without a stage, after --", [name, "--", *words], OF_B[name], err=taken("b", name))
    yield Case(f"{name} without a stage needs no standard input", [name, *words], OF_B[name], err=taken("b", name), stdin=CLOSED)
    yield Case(f"{name} --quiet without a stage", [name, "--quiet", *words], OF_B[name], err=r"\A\Z")
    yield Case(f"{name} of the empty name is not without a stage", [name, *words, ""], NO_STAGE, 1)
    yield Case(f"{name} without a stage on a full standard output", [name, *words], "", 3, err="standard output: No space left on device", stdout="full")
    yield Case(f"{name} without a stage on a pipe that nobody reads", [name, *words], "", 3, err=taken("b", name), stdout="gone")


def of_input(name):
    """Where the recording, of `compare` the bad one, is read from standard input."""
    words = [*files_of(name, "r.json")[:-1], "-"]
    yield Case(f"{name} of standard input without a stage", [name, *words], OF_B[name], err=taken("b", name, "standard input"), stdin=R)
    yield Case(f"{name} of a closed standard input without a stage", [name, *words], NO_READ, 3, stdin=CLOSED)
    yield Case(f"{name} of a refused recording without a stage", [name, *words], "refused 70 JSON\n", 1, err=r"\Awhatif: standard input: ", stdin="[")
    yield Case(f"{name} of a circle without a stage", [name, *words], "refused 19 Cycle\n", 1, err=r"\Awhatif: standard input: ", stdin=recording(stage("copy", sources=["a"])))
    yield Case(f"{name} of a recording with a warning, without a stage", [name, *words], OF_B[name], err=r'(?s)nothing reads.*no STAGE is given, so this is about stage "b"', stdin=UNREAD)
    yield Case(f"{name} --strict of a recording with a warning, without a stage", [name, "--strict", *words], "", 1, err="nothing reads", stdin=UNREAD)
    for why, given, several in (("two stages complete last", TIED, True), ("no stage completes", NO_ACTION, False), ("there is no stage", recording(), False)):
        yield Case(f"{name} without a stage: {why}", [name, *words], "", 2, err=wanted("standard input", several), stdin=given)
        yield Case(f"{name} --quiet without a stage: {why}", [name, "--quiet", *words], "", 2, err=wanted("standard input", several), stdin=given)
        yield Case(f"{name} as JSON without a stage: {why}", [name, "--format", "json", *words], "", 2, err=wanted("standard input", several), stdin=given)


def last_stage_made():
    for name in NAMES:
        yield from of_one(name)
        yield from of_input(name)
    alone = lines("a async rank 0 value:1 at 3", "sources -", "inner -", "dependents -", "join returns 1", "blame -", "path of a at 3 stages 1", "a at 3 queued 0 ran 3 created 0")
    yield Case("explain without a stage: pending stages don't count", ["explain", "-"], alone, err=taken("a"), stdin=PENDING)
    yield Case("sweep without a stage: a stage that others wait for may complete later", ["sweep", "--top", "0", "-"], "sweep of first at 10 stages 2\n", err=taken("first"), stdin=EITHER)
    yield Case("slack --within without a stage", ["slack", "--within", "0", "r.json"], TOLD_OF_B, err=taken("b"))
    yield Case("rescue of standard input without a stage, with options", ["rescue", "--by", "0", "--top", "1", "-"], "rescue of b value:5 at 15: 0 of 2 changes\n", err=taken("b"), stdin=R)
    yield Case("rescue without a stage: the options before the file", ["rescue", "--as", "x", "absent"], "", 2, err=r'\Awhatif: --as "x" is no value')
    apart = {"good": recording(stage("async", "g", takes=3, action=0)), "bad": recording(stage("async", "b", takes=3, action=0))}
    yield Case("compare without a stage: it is one of the bad run", ["compare", "good", "bad"], NO_STAGE, 1, err=r'\Awhatif: bad: no STAGE is given, so this is about stage "b": .*\nwhatif: good: .*"b"', files=apart)
    yield Case("compare without a stage: two complete last in the good run", ["compare", "good", "r.json", "--format", "text"], None, err=taken("b", "compare"), files={"good": recording(stage("async", "a", takes=3, action=0), stage("async", "b", takes=3, action=0))})
    yield Case("compare without a stage: of two refused recordings the bad one is told", ["compare", "good", "bad"], "refused 19 Cycle\n", 1, err=r"\Awhatif: bad: ", files={"good": "[", "bad": recording(stage("copy", sources=["a"]))})
    yield Case("compare without a stage: a refused good recording", ["compare", "good", "r.json"], "refused 70 JSON\n", 1, err=r"(?s)no STAGE is given.*\nwhatif: good: ", files={"good": "["})


def last_stage_cases():
    return map(with_r, last_stage_made())


# ---- once more, of recordings made at random

HOW_MANY = 60


def last_of(program, made):
    """The name of the stage that is taken, or nothing; and whether one completes on which no other waits."""
    out = run(program, Case("report", ["report", "--format", "json", "r.json"], None, files={"r.json": json.dumps(made)}, seconds=60)).out
    waited_for = {feed for it in made["stages"] for feed in it.get("sources", []) + it.get("inner", [])}
    ends = [(it["moment"], it["name"]) for it in json.loads(out)["stages"] if it["moment"] is not None and it["name"] not in waited_for]
    latest = [name for moment, name in ends if moment == max(ends)[0]]
    return latest[0] if len(latest) == 1 else None, bool(ends)


def wrong(program, seed):
    """What is wrong with what is told of the recording of a seed where no stage is named, or nothing; and what was met."""
    made = some(seed)
    other = twin(random.Random(f"last stage {seed}"), made)
    last, some_end = last_of(program, made)
    files = {"r.json": json.dumps(made), "other": json.dumps(other)}
    for name in NAMES:
        for form in ("text", "json"):
            words = [name, "--format", form, *files_of(name, "other")]
            came = run(program, Case("left out", words, None, files=files, seconds=60))
            if last is None:
                told = run(program, Case("left out", [*words, "--quiet"], None, files=files, seconds=60))
                why = "several complete last" if some_end else "completes\n"
                if (came.status, came.out) != (2, b"") or why.encode() not in came.err or told != came:
                    return f"{' '.join(words)}: wanted status 2 and {why!r}, came {came}", "none"
                continue
            named = run(program, Case("named", [*words, last], None, files=files, seconds=60))
            if (came.status, came.out) != (named.status, named.out):
                return f"{' '.join(words)}: wanted what is told of {last}, {shown(named.out)}, came {shown(came.out)} with status {came.status}", last
            if f'about stage "{last}":'.encode() not in came.err:
                return f"{' '.join(words)}: the stage {last} isn't told of, but {came.err}", last
    return "", "one" if last else "several" if some_end else "none"


def last_stages(program):
    """The name of each case, its complaint or nothing, and no refusal."""
    met = set()
    with concurrent.futures.ThreadPoolExecutor(LANES) as lanes:
        for seed, (said, kind) in enumerate(lanes.map(lambda it: wrong(program, it), range(HOW_MANY))):
            met.add(kind)
            yield f"without a stage, a recording made at random, {seed}, is told of the last one", said, set()
    lacking = {"one", "several", "none"} - met
    yield "these recordings have every kind of last stage", f"they lack {sorted(lacking)}" if lacking else "", set()
