"""`whatif failures`: where each exception arose, which stages it reached, and which read it and didn't hand it on; and those of
them that `whatif explain` tells of, in recordings made at random."""
import concurrent.futures
import json
import random
import re

from .cases import R, lines, recording, stage, with_r
from .ends import of_whole
from .recomputed import some
from .run import LANES, Case, run, shown
from .why import example

NONE = "failures of version 0 failures 0\n"
# how many recordings made at random are explained
HOW_MANY = 200
NO_STAGE = "refused 10 NoStage\n"
TIMEOUT, CANCELLED = "java.util.concurrent.TimeoutException", "java.util.concurrent.CancellationException"


def after(op, name, *sources, **members):
    return stage(op, name, sources=[*sources], **members)


def failed(name="f", throws="X", **members):
    return stage("failed", name, throws=throws, **members)


def ended(name, do, at, **members):
    return stage("manual", name, ends=[{"at": at, "do": do, **members}])


NEVER = stage("manual", "never")

# What is told of the failures of a recording, by place.
TOLD = [
    ("no stages", recording(), []),
    ("no failure", R, []),
    (
        "each way in which one arises",
        recording(
            stage("async", "throws", takes=3, action=["throw", "com.shop.Refused"]),
            stage("async", "fine", takes=2, action=1),
            after("thenApply", "divides", "fine", action=["div", 1, 0]),
            after("thenApply", "adds-null", "fine", action=["add", None, 1]),
            after("thenCompose", "picks-none", "fine", inner=["never"], action=7),
            after("thenCompose", "picks-null", "fine", inner=["never"], takes=4, action=None),
            failed("given", "java.io.IOException", created=9),
            ended("told", "completeExceptionally", 5, throws="com.shop.Late"),
            ended("cancelled", "cancel", 6),
            ended("late", "orTimeout", 1, delay=6),
            stage("async", "pinned-bare", takes=8, action=1, pinResult={"bare": "com.shop.Pinned"}),
            stage("manual", "pinned-wrapped", pinResult={"wrapped": "com.shop.Pinned"}, pinMoment=4),
            NEVER,
        ),
        [
            *["throws com.shop.Refused at 3", "divides java.lang.ArithmeticException at 2", "adds-null java.lang.NullPointerException at 2", "picks-none java.lang.IndexOutOfBoundsException at 2"],
            *["picks-null java.lang.NullPointerException at 6", "given java.io.IOException at 9", "told com.shop.Late at 5", f"cancelled {CANCELLED} at 6", f"late {TIMEOUT} at 7"],
            *["pinned-bare com.shop.Pinned at 8", "pinned-wrapped com.shop.Pinned at 4"],
        ],
    ),
    (
        "a stage's own throw that stays bare",
        recording(stage("async", takes=3, action=["throw", "X"]), after("whenComplete", "w", "a", takes=2, action=None), wrap="literal"),
        ["a X at 3 reaches w; handled by -"],
    ),
    (
        "whom one reaches, by place",
        recording(
            after("copy", "last", "both"),
            after("thenCombine", "both", "one", "other", action=1),
            after("thenApply", "one", "f", action=1),
            after("whenComplete", "other", "f", takes=4, action=["throw", "Y"]),
            failed(),
            after("allOf", "all", "never-mind", "f"),
            after("anyOf", "any", "f", "all"),
            stage("completed", "never-mind", value=1),
        ),
        ["f X at 0 reaches last both one other all any; handled by -"],
    ),
    (
        "who handles one",
        recording(
            failed(),
            after("copy", "c", "f"),
            after("handle", "handles", "c", action=1),
            after("exceptionally", "excepts", "f", action=2),
            after("exceptionallyCompose", "recovers", "f", inner=["fine"], action=0),
            stage("completed", "fine", value=1),
            after("applyToEither", "looks-past", "fine", "f", action=1),
            after("thenCombine", "waits", "f", "never", action=1),
            after("thenApply", "keeps", "c", action=1, pinResult={"value": 3}),
            after("thenApply", "moves", "c", action=1, pinMoment=7),
            after("thenApply", "reads-nothing", "c", action=1, pinResult={"value": 3}, pinMoment=7),
            after("thenApply", "is-ended", "f", action=1, created=5, ends=[{"at": 5, "do": "complete", "value": 1}]),
            after("copy", "is-ended-before", "late", ends=[{"at": 5, "do": "complete", "value": 1}]),
            failed("late", "Y", created=9),
            NEVER,
        ),
        [
            # (the completion of `is-ended` by its operation comes first at its tick)
            "f X at 0 reaches c moves is-ended; handled by handles excepts recovers looks-past waits keeps",
            "late Y at 9 reaches -; handled by is-ended-before",
        ],
    ),
    (
        "a stage that fails by another exception",
        recording(
            failed("f", "X", created=4),
            failed("g", "Y", created=2),
            after("thenCombine", "both", "f", "g", action=1),
            after("handle", "again", "f", takes=1, action=["throw", "Z"]),
            after("exceptionally", "the-same", "f", action=["throw", "X"]),
            after("copy", "c", "f", pinResult={"bare": "P"}),
            after("anyOf", "any", "f", "g"),
            after("thenApply", "timed-out", "f", action=1, ends=[{"at": 0, "do": "orTimeout", "delay": 3}]),
        ),
        [
            *["f X at 4 reaches -; handled by both again the-same c any timed-out", "g Y at 2 reaches both any; handled by -", "again Z at 5 reaches -; handled by -"],
            *["the-same X at 4 reaches -; handled by -", "c P at 4 reaches -; handled by -", f"timed-out {TIMEOUT} at 3 reaches -; handled by -"],
        ],
    ),
    (
        "a stage that reads one by several ways is told once",
        recording(
            failed(),
            after("copy", "c", "f"),
            after("copy", "d", "c"),
            after("allOf", "again", "d", "f", "c", "f", "c"),
            after("anyOf", "any", "fine", "f", "c", "d", "f"),
            after("handle", "h", "again", action=1),
            stage("completed", "fine", value=1),
        ),
        ["f X at 0 reaches c d again; handled by any h"],
    ),
    (
        "a stage that reads several",
        recording(
            failed("f", "X"),
            failed("g", "Y", created=3),
            failed("h", "X", created=1),
            after("anyOf", "none", "fine", "f", "g", "h", "d"),
            after("allOf", "some", "g", "d", "f", "fine"),
            after("copy", "d", "g"),
            stage("completed", "fine", value=1),
        ),
        ["f X at 0 reaches some; handled by none", "g Y at 3 reaches d; handled by none some", "h X at 1 reaches -; handled by none"],
    ),
    (
        "inner stages",
        recording(
            failed(),
            stage("completed", "fine", value=1),
            after("thenCompose", "takes-over", "fine", inner=["g", "f"], action=["arg", 0]),
            after("thenCompose", "picks-another", "fine", inner=["f", "fine"], action=["arg", 0]),
            after("thenCompose", "picks-none", "fine", inner=["f"], action=["arg", 0]),
            after("thenCompose", "hands-on", "f", inner=["g"], action=0),
            after("exceptionallyCompose", "fails-again", "f", inner=["g"], action=0),
            after("exceptionallyCompose", "need-not", "fine", inner=["f"], action=0),
            after("thenCompose", "is-pinned", "fine", inner=["f"], action=0, pinResult={"value": 2}),
            failed("g", "Y"),
        ),
        [
            *["f X at 0 reaches takes-over hands-on; handled by fails-again is-pinned", "picks-none java.lang.IndexOutOfBoundsException at 0 reaches -; handled by -", "g Y at 0 reaches fails-again; handled by -"],
        ],
    ),
]
# Each of those that say no more has neither reached nor been handled by a stage.
NOBODY = " reaches -; handled by -"

# The late reply: a miss of a cache, a timeout, and the failure by which the reply failed.
LATE_REPLY = [
    "customer-cache com.shop.CacheMiss at 11 reaches -; handled by customer",
    f"stock-north {TIMEOUT} at 121 reaches -; handled by stock",
    "stock-south com.shop.StockServiceDown at 59 reaches stock delivery page audit reply; handled by -",
]
HANDED_ON = recording(stage("async", "x", takes=3, action=["throw", "com.shop.Refused"]), after("copy", "y", "x"), after("handle", "z", "y", action=1), failed("other", "Y", created=2))
HANDED_ON_TOLD = ["x com.shop.Refused at 3 reaches y; handled by z", "other Y at 2 reaches -; handled by -"]
X_AS_JSON = '{"exception":"com.shop.Refused","handled":["z"],"moment":3,"name":"x","reaches":["y"]}'
OTHER_AS_JSON = '{"exception":"Y","handled":[],"moment":2,"name":"other","reaches":[]}'


def report(*told):
    return lines(f"failures of version 0 failures {len(told)}", *[it if ";" in it else it + NOBODY for it in told])


def as_json(*told):
    return f'{{"report":"failures","stages":[{",".join(told)}],"version":0}}\n'


def failed_fan(stages):
    """A stage that fails, and all others after it."""
    return recording(failed("f"), *[after("copy", f"c{it}", "f") for it in range(1, stages)])


def fan_of_failures(stages):
    return report(f"f X at 0 reaches {' '.join(f'c{it}' for it in range(1, stages))}; handled by -")


def failed_chain(stages):
    """A stage that fails, and each after the one before it, by place from the last to the first; the last one handles it."""
    return recording(after("handle", "h", f"c{stages - 2}", action=1), *[after("copy", f"c{it}", f"c{it - 1}") for it in range(stages - 2, 0, -1)], failed("c0"))


def pairs(stages):
    """Stages that fail, each of which reaches another one that is looked past."""
    return recording(*[it for at in range(stages // 4) for it in (failed(f"f{at}"), after("copy", f"c{at}", f"f{at}"), stage("completed", f"v{at}", value=1), after("anyOf", f"a{at}", f"v{at}", f"c{at}"))])


def each_by_each(failing, readers):
    """Stages that fail, each of which is read by all of the others, which look past them."""
    names = [f"f{it}" for it in range(failing)]
    return recording(stage("completed", "v", value=1), *map(failed, names), *[after("anyOf", f"a{it}", "v", *names) for it in range(readers)])


# (where a pass went over all stages for each failure, or a chain of blame for each stage, these would take hours)
LARGE = [
    ("a fan of 65,536 stages", lambda: failed_fan(65_536), lambda: fan_of_failures(65_536)),
    ("a chain of 65,536 stages", lambda: failed_chain(65_536), lambda: report(f"c0 X at 0 reaches {' '.join(f'c{it}' for it in range(65_534, 0, -1))}; handled by h")),
    ("65,536 stages, of which each fourth fails", lambda: pairs(65_536), lambda: report(*[f"f{it} X at 0 reaches c{it}; handled by a{it}" for it in range(16_384)])),
    ("1,023 stages that 1,000 others have read", lambda: each_by_each(1_023, 1_000), lambda: report(*[f"f{it} X at 0 reaches -; handled by {' '.join(f'a{at}' for at in range(1_000))}" for it in range(1_023)])),
]


def of_an_origin():
    files = {"h.json": HANDED_ON}
    for stage_name, told in (("x", HANDED_ON_TOLD[:1]), ("other", HANDED_ON_TOLD[1:]), ("y", []), ("z", [])):
        yield Case(f"failures --origin {stage_name}", ["failures", "--origin", stage_name, "h.json"], report(*told), files=files)
    yield Case("failures --origin=x", ["failures", "--origin=x", "h.json"], report(*HANDED_ON_TOLD[:1]), files=files)
    yield Case("failures: --origin at the end", ["failures", "h.json", "--origin", "x"], report(*HANDED_ON_TOLD[:1]), files=files)
    yield Case("failures --origin of standard input", ["failures", "--origin", "x"], report(*HANDED_ON_TOLD[:1]), stdin=HANDED_ON)
    yield Case("failures --origin of -", ["failures", "-", "--origin", "x"], report(*HANDED_ON_TOLD[:1]), stdin=HANDED_ON)
    yield Case("failures --origin as JSON", ["failures", "--origin", "x", "--format", "json", "h.json"], as_json(X_AS_JSON), files=files)
    yield Case("failures --origin as JSON, of no failure", ["failures", "--origin", "y", "--format", "json", "h.json"], as_json(), files=files)
    yield Case("failures: --origin without a stage", ["failures", "h.json", "--origin"], "", 2, err="--origin <STAGE>", files=files)
    yield Case("failures: --origin twice", ["failures", "--origin", "x", "--origin", "y", "h.json"], "", 2, err="--origin <STAGE>", files=files)
    yield from (Case(f"failures: no stage {it[:4]!r}", ["failures", "--origin", it, "h.json"], NO_STAGE, 1, files=files) for it in ("zz", "", "X", " x", "x ", "-", "x\n", "n" * 70, "é"))
    yield Case("failures: no stage, and the one that is meant", ["failures", "--origin", "othr", "h.json"], NO_STAGE, 1, err=r'\Awhatif: h.json: no stage has the name "othr"; did you mean "other"\?\n\Z', files=files)
    yield Case("failures: no stage, quietly", ["failures", "--quiet", "--origin", "othr", "h.json"], NO_STAGE, 1, err=r"\A\Z", files=files)
    yield Case("failures: no stage in a recording of none", ["failures", "--origin", "a"], NO_STAGE, 1, stdin=recording())
    yield Case("failures: the recording before the stage", ["failures", "--origin", "zz"], "refused 19 Cycle\n", 1, stdin=recording(stage("copy", sources=["a"])))
    yield Case("failures of no stage on a full standard output", ["failures", "--origin", "zz", "h.json"], "", 3, stdout="full", files=files)
    yield Case("failures --origin on a full standard output", ["failures", "--origin", "x", "h.json"], "", 3, stdout="full", files=files)


def failures_made():
    yield from of_whole("failures", NONE)
    for name, given, told in TOLD:
        yield Case(f"failures of {name}", ["failures"], report(*told), stdin=given)
    yield Case("failures as JSON", ["failures", "--format", "json"], as_json(X_AS_JSON, OTHER_AS_JSON), stdin=HANDED_ON)
    yield Case("failures as JSON of none", ["failures", "--format=json", "r.json"], as_json())
    yield Case("failures of the late reply", ["failures", "late"], report(*LATE_REPLY), files={"late": example("late-reply.json")})
    yield Case("failures of a stage of the late reply", ["failures", "--origin", "stock-south", "late"], report(LATE_REPLY[2]), files={"late": example("late-reply.json")})
    yield from of_an_origin()
    for name, given, told in LARGE:
        yield Case(f"failures of {name}", ["failures", "large"], told, files={"large": given}, seconds=60)


def explained_wrong(program, seed):
    """What is wrong with the failures that `explain` tells of, of a stage of the recording of a seed, or nothing."""
    made = some(seed)
    name = random.Random(f"explained {seed}").choice(made["stages"])["name"]
    files = {"r.json": json.dumps(made)}
    all_lines, failure_lines, came = (run(program, Case("explained", [*words, "r.json", *more], None, files=files, seconds=60)).out.decode().splitlines() for words, more in ((["report"], []), (["failures"], []), (["explain"], [name])))
    state = next(line for line in all_lines[1:] if line.split()[0] == name)
    moment = re.search(r" at (\d+)$", state)
    begin = next(at for at, line in enumerate(came) if line.startswith("path of ")) + 1
    end = next((at for at, line in enumerate(came) if line.startswith("failures of ")), len(came))
    path = {line.split()[0] for line in came[begin:end]}
    told = []
    for line in failure_lines[1:]:
        origin, at, reached, handled = re.fullmatch(r"(\S+) \S+ at (\d+) reaches (.*); handled by (.*)", line).groups()
        if path & {origin, *reached.split(), *handled.split()} and (moment is None or int(at) <= int(moment[1])):
            told.append(line)
    fails = re.search(r" (bare|wrapped):\S+ at \d+$", state)
    wanted = [f"failures of version 0 failures {len(told)}", *told] if told and not fails else []
    return "" if came[end:] == wanted else f"{name}: wanted {wanted}, came {shown(chr(10).join(came).encode())}"


def explained(program):
    """The name of each case, its complaint or nothing, and no refusal."""
    with concurrent.futures.ThreadPoolExecutor(LANES) as lanes:
        for seed, said in enumerate(lanes.map(lambda it: explained_wrong(program, it), range(HOW_MANY))):
            yield f"the failures that explain tells of, {seed}", said, set()


def failures_cases():
    return map(with_r, failures_made())
