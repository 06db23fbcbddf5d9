"""`whatif ends`: what came of each timeout, and of each call that completes or cancels a stage."""
from .cases import MOST_TICKS, NO_READ, R, lines, recording, stage, with_r
from .courses import CUT, timeout
from .limits import MOST_RECORDING, filled
from .run import CLOSED, Case, File, Pieces, Shut
from .why import example

NONE = "ends of version 0 ends 0\n"
UNREAD = R.replace('"op"', '"queue":1,"op"', 1)
CYCLE = recording(stage("copy", sources=["a"]))


def call(at, do="cancel", **members):
    return {"at": at, "do": do, **members}


def complete(at):
    return call(at, "complete", value=1)


def async_of(name, *ends, **members):
    return stage("async", name, **{"queued": 5, "runs": 100, "action": 1, **members}, ends=[*ends])


def after(op, name, sources, *ends, **members):
    return stage(op, name, sources=sources, **members, ends=[*ends])


# Of these `works` completes at 10, `fails` fails at 10, and `never` is pending.
SOURCES = [stage("async", "works", runs=10, action=1), stage("async", "fails", runs=10, action=["throw", "X"]), stage("manual", "never")]
RUNS = {"queued": 2, "runs": 30, "action": 0}

# What is told of the ends of a recording: of each end, in their order.
TOLD = [
    ("no stages", recording(), []),
    ("no end", R, []),
    # (a source that completes at 10, and actions that are triggered by it, start at 15 and end at 115)
    (
        "what was cut off",
        CUT,
        [
            *["before-its-trigger orTimeout 9 at 9 struck", "at-its-trigger cancel at 10 struck, cut off after 0 of its 100"],
            *["while-queued orTimeout 8 at 13 struck, cut off after 0 of its 100", "at-its-start complete at 15 struck, cut off after 0 of its 100"],
            *["while-it-runs orTimeout 500 at 500 not reached by 460", "while-it-runs completeOnTimeout 38 at 40 struck, cut off after 25 of its 100"],
            *["a-tick-before-its-end completeExceptionally at 114 struck, cut off after 99 of its 100", "at-its-end orTimeout 115 at 115 not reached by 0"],
            *["picked orTimeout 200 at 200 struck", "picked-too-late orTimeout 20 at 20 struck, cut off after 5 of its 20"],
        ],
    ),
    # (each action starts at 5 by its operation, and would end at 105)
    (
        "stages with pins",
        recording(
            async_of("result", timeout(50), pinResult={"value": 7}),
            async_of("result-kept", timeout(105), complete(106), pinResult={"bare": "X"}),
            async_of("moment", timeout(39), complete(40), call(41), pinMoment=40),
            async_of("moment-kept", complete(40), timeout(40), call(45), pinMoment=40),
            async_of("both", timeout(50), pinResult={"value": 3}, pinMoment=60),
            async_of("both-kept", timeout(70), call(60), pinResult={"value": 3}, pinMoment=60),
            async_of("after-its-end", timeout(300), pinMoment=400),
            stage("manual", "one-pin", pinMoment=5, ends=[complete(9)]),
            form=2,
        ),
        [
            *["result orTimeout 50 at 50 struck, cut off after 45 of its 100", "result-kept orTimeout 105 at 105 not reached by 0", "result-kept complete at 106 too late by 1"],
            *["moment orTimeout 39 at 39 struck, cut off after 34 of its 100", "moment complete at 40 too late by 1", "moment cancel at 41 too late by 2"],
            *["moment-kept complete at 40 too late by 0", "moment-kept orTimeout 40 at 40 not reached by 0", "moment-kept cancel at 45 too late by 5"],
            *["both orTimeout 50 at 50 struck, cut off after 45 of its 100", "both-kept orTimeout 70 at 70 not reached by 10", "both-kept cancel at 60 too late by 0"],
            *["after-its-end orTimeout 300 at 300 struck", "one-pin complete at 9 struck"],
        ],
    ),
    (
        "ends at one tick",
        recording(
            stage("manual", "m", ends=[call(30), complete(30), timeout(30), timeout(10, at=20), timeout(29)]),
            stage("manual", "n", ends=[call(30), complete(30), {"at": 20, "do": "completeOnTimeout", "delay": 10, "value": None}]),
        ),
        [
            *["m cancel at 30 too late by 1", "m complete at 30 too late by 1", "m orTimeout 30 at 30 not reached by 1", "m orTimeout 10 at 30 not reached by 1", "m orTimeout 29 at 29 struck"],
            *["n cancel at 30 struck", "n complete at 30 too late by 0", "n completeOnTimeout 10 at 30 not reached by 0"],
        ],
    ),
    (
        "stages of one source",
        recording(
            *SOURCES,
            after("thenApply", "handed-on", ["fails"], complete(20), **RUNS),
            after("thenApply", "before", ["fails"], timeout(9), **RUNS),
            after("thenApply", "waits", ["never"], timeout(20), **RUNS),
            after("exceptionally", "unneeded", ["works"], timeout(15), **RUNS),
            after("exceptionally", "needed", ["fails"], timeout(20), **RUNS),
            after("handle", "handles", ["fails"], timeout(20), **RUNS),
            after("whenComplete", "watches", ["works"], timeout(42), **RUNS),
            after("copy", "copied", ["works"], timeout(12)),
            form=2,
        ),
        [
            *["handed-on complete at 20 too late by 10", "before orTimeout 9 at 9 struck", "waits orTimeout 20 at 20 struck", "unneeded orTimeout 15 at 15 not reached by 5"],
            *["needed orTimeout 20 at 20 struck, cut off after 8 of its 30", "handles orTimeout 20 at 20 struck, cut off after 8 of its 30"],
            *["watches orTimeout 42 at 42 not reached by 0", "copied orTimeout 12 at 12 not reached by 2"],
        ],
    ),
    (
        "stages of several sources",
        recording(
            *SOURCES,
            after("thenCombine", "one-is-pending", ["works", "never"], timeout(20), **RUNS),
            after("thenAcceptBoth", "both", ["works", "works"], timeout(20), **RUNS),
            after("runAfterBoth", "one-failed", ["works", "fails"], timeout(20), **RUNS),
            after("applyToEither", "either", ["never", "works"], complete(15), **RUNS),
            after("acceptEither", "failed-first", ["fails", "works"], complete(15), **RUNS),
            after("allOf", "all", ["works", "fails"], call(10)),
            after("anyOf", "any", ["never"], call(3)),
            form=2,
        ),
        [
            *["one-is-pending orTimeout 20 at 20 struck", "both orTimeout 20 at 20 struck, cut off after 8 of its 30", "one-failed orTimeout 20 at 20 not reached by 10"],
            *["either complete at 15 struck, cut off after 3 of its 30", "failed-first complete at 15 too late by 5", "all cancel at 10 too late by 0", "any cancel at 3 struck"],
        ],
    ),
    (
        "stages whose function picks",
        recording(
            *SOURCES,
            after("thenCompose", "picks", ["works"], timeout(25), inner=["never"], **RUNS),
            after("thenCompose", "has-picked", ["works"], timeout(42), inner=["never"], **RUNS),
            after("thenCompose", "throws", ["works"], timeout(25), inner=["never"], **{**RUNS, "action": ["throw", "Y"]}),
            after("exceptionallyCompose", "recovers", ["fails"], timeout(15), inner=["never"], **RUNS),
            after("exceptionallyCompose", "need-not", ["works"], timeout(15), inner=["never"], **RUNS),
            form=2,
        ),
        [
            *["picks orTimeout 25 at 25 struck, cut off after 13 of its 30", "has-picked orTimeout 42 at 42 struck", "throws orTimeout 25 at 25 struck, cut off after 13 of its 30"],
            *["recovers orTimeout 15 at 15 struck, cut off after 3 of its 30", "need-not orTimeout 15 at 15 not reached by 5"],
        ],
    ),
    (
        "stages without a source",
        recording(
            async_of("at-its-creation", call(20), created=20),
            async_of("queued-alone", timeout(10), queued=30, runs=0),
            async_of("no-time", call(0), queued=0, runs=0),
            stage("completed", "c", value=1, created=4, ends=[complete(4), timeout(0, at=4)]),
            stage("failed", "f", throws="X", ends=[call(5)]),
            async_of("inventory-1", timeout(250, at=68), created=68, queued=4, runs=664),
            form=2,
        ),
        [
            *["at-its-creation cancel at 20 struck, cut off after 0 of its 100", "queued-alone orTimeout 10 at 10 struck, cut off after 0 of its 0", "no-time cancel at 0 too late by 0"],
            *["c complete at 4 too late by 0", "c orTimeout 0 at 4 not reached by 0", "f cancel at 5 too late by 5", "inventory-1 orTimeout 250 at 318 struck, cut off after 246 of its 664"],
        ],
    ),
    ("what takes its time in form 1", recording(stage("async", takes=10, action=1, ends=[timeout(9), timeout(11)])), ["a orTimeout 9 at 9 struck, cut off after 9 of its 10", "a orTimeout 11 at 11 not reached by 2"]),
    (
        "the latest ends",
        recording(
            stage("manual", created=MOST_TICKS, ends=[timeout(MOST_TICKS, at=MOST_TICKS)]),
            async_of("b", timeout(MOST_TICKS, at=MOST_TICKS), created=MOST_TICKS, queued=MOST_TICKS, runs=MOST_TICKS),
            async_of("c", timeout(MOST_TICKS, at=MOST_TICKS), queued=0, runs=0),
            form=2,
        ),
        [
            *[f"a orTimeout {MOST_TICKS} at {2 * MOST_TICKS} struck", f"b orTimeout {MOST_TICKS} at {2 * MOST_TICKS} struck, cut off after 0 of its {MOST_TICKS}"],
            f"c orTimeout {MOST_TICKS} at {2 * MOST_TICKS} not reached by {2 * MOST_TICKS}",
        ],
    ),
]

# One of each fate, and its object.
EACH = recording(
    stage("manual", "m", ends=[timeout(7), complete(9)]), async_of("n", timeout(250, at=68), {"at": 68, "do": "completeOnTimeout", "delay": 500, "value": 3}, created=68, queued=4, runs=664), form=2
)
EACH_AS_JSON = (
    '{"report":"ends","stages":[{"delay":7,"do":"orTimeout","fate":{"kind":"struck"},"moment":7,"name":"m"},{"delay":null,"do":"complete","fate":{"by":2,"kind":"tooLate"},"moment":9,"name":"m"},'
    '{"delay":250,"do":"orTimeout","fate":{"kind":"cutOff","of":664,"ran":246},"moment":318,"name":"n"},'
    '{"delay":500,"do":"completeOnTimeout","fate":{"by":250,"kind":"notReached"},"moment":568,"name":"n"}],"version":0}\n'
)


def most_ends(stages):
    """Stages of 16 ends, of which the last one strikes."""
    ends = [call(it) for it in range(16, 0, -1)]
    return recording(*[stage("manual", f"m{it}", ends=ends) for it in range(stages)])


def most_told(stages):
    told = [f"cancel at {it} too late by {it - 1}" for it in range(16, 1, -1)] + ["cancel at 1 struck"]
    return lines(f"ends of version 0 ends {16 * stages}", *[f"m{at} {it}" for at in range(stages) for it in told])


def of_whole(name, told):
    """What a command that reports on a whole recording does with its words, files, and standard input and output; of R it tells this."""
    yield Case(f"{name} of a file", [name, "r.json"], told)
    yield Case(f"{name} of a file needs no standard input", [name, "r.json"], told, stdin=CLOSED)
    yield Case(f"{name} of standard input", [name], told, stdin=R)
    yield Case(f"{name} of -", [name, "-"], told, stdin=R)
    yield Case(f"{name} of standard input a byte at a time", [name], told, stdin=Pieces(lambda: (bytes([it]) for it in R.encode())))
    yield Case(f"{name} of a file's name after --", [name, "--", "r.json"], told)
    yield Case(f"{name} of a file that is called -", [name, "./-"], told, stdin=CLOSED, files={"-": R})
    yield Case(f"{name} of two files", [name, "r.json", "s.json"], "", 2, err="s.json")
    yield Case(f"{name} with an unknown option", [name, "--nonsense", "r.json"], "", 2, err="nonsense")
    yield Case(f"{name} takes no --top", [name, "--top", "1", "r.json"], "", 2, err="--top")
    yield Case(f"{name}: a form that isn't there", [name, "--format", "svg", "r.json"], "", 2, err="possible values: text, json")
    yield Case(f"{name} of a closed standard input", [name], NO_READ, 3, stdin=CLOSED)
    yield Case(f"{name} of a folder on standard input", [name, "-"], NO_READ, 3, stdin=File("."))
    yield Case(f"{name} of no file", [name, "absent"], NO_READ, 3, err=r"\Awhatif: absent: No such file or directory\n\Z")
    yield Case(f"{name} of the empty name", [name, ""], NO_READ, 3)
    yield Case(f"{name} of a folder", [name, "folder"], NO_READ, 3, files={"folder": None})
    yield Case(f"{name} of a file that may not be read", [name, "shut"], NO_READ, 3, files={"shut": Shut(R)})
    yield Case(f"{name} of a refused recording", [name], "refused 70 JSON\n", 1, stdin="[", err="standard input: ")
    yield Case(f"{name} of a cycle", [name], "refused 19 Cycle\n", 1, stdin=CYCLE)
    yield Case(f"{name} of a recording that is too long", [name], "refused 72 TooLong\n", 1, stdin=lambda: filled(R, MOST_RECORDING + 1))
    yield Case(f"{name} of a recording with a warning", [name], told, stdin=UNREAD, err="nothing reads")
    yield Case(f"{name} --quiet of a recording with a warning", [name, "--quiet"], told, stdin=UNREAD, err=r"\A\Z")
    yield Case(f"{name} --strict of a recording with a warning", [name, "--strict"], "", 1, stdin=UNREAD, err="nothing reads")
    yield Case(f"{name} --strict where there is no warning", [name, "--strict", "r.json"], told, err=r"\A\Z")
    yield Case(f"{name} of a trace", [name], "refused 71 Shape stages\n", 1, stdin='{"resourceSpans":[]}', err="whatif import makes a recording of it")
    for where, err in (("full", r"\Awhatif: standard output: No space left on device\n\Z"), ("closed", r"\Awhatif: standard output: Bad file descriptor\n\Z"), ("gone", r"\A\Z")):
        yield Case(f"{name} on a {where} standard output", [name, "r.json"], "", 3, err=err, stdout=where)


def ends_made():
    yield from of_whole("ends", NONE)
    yield Case("ends takes no stage", ["ends", "--origin", "a", "r.json"], "", 2, err="--origin")
    for name, given, told in TOLD:
        yield Case(f"ends of {name}", ["ends"], lines(f"ends of version 0 ends {len(told)}", *told), stdin=given)
    yield Case("ends as JSON", ["ends", "--format", "json"], EACH_AS_JSON, stdin=EACH)
    yield Case("ends as JSON of none", ["ends", "--format=json", "r.json"], '{"report":"ends","stages":[],"version":0}\n')
    yield Case("ends of the late reply", ["ends", "late"], lines("ends of version 0 ends 1", "stock-north orTimeout 100 at 121 struck, cut off after 97 of its 140"), files={"late": example("late-reply.json")})
    yield Case("ends of 65,536 stages of 16 each", ["ends", "large"], lambda: most_told(65_536), files={"large": lambda: most_ends(65_536)}, seconds=60)


def ends_cases():
    return map(with_r, ends_made())
