"""More input made to break the program: several faults at once, the latest moments, what never ends, and the limits by each command."""
import os
import select
import subprocess
import tempfile
import threading

from .cases import MOST_TICKS, NO_READ, OPEN, R, deep, lines, recording, slowly, stage, step, with_r
from .limits import MOST_LINE, MOST_RECORDING, MOST_SCRIPT, MOST_STAGES, NO_DO, SCRIPTS, chain_of, cycle_of, head, versions, versions_answers
from .run import Case, Pieces, Sparse, shown

TOO_LONG = "refused 72 TooLong\n"
CYCLE = "refused 19 Cycle\n"

# Two faults of one stage, of which the one of the lesser row is told; a cycle is looked for last.
OF_ALL_OF = {
    "11 NameTaken at 1": {"name": "a"},
    "13 Arity at 1": {"inner": ["a"]},
    "14 NoSource at 1": {"sources": ["zz"]},
    "15 Limit at 1": {"created": MOST_TICKS + 1},
    "16 EndBeforeCreated at 1": {"created": 5, "ends": [{"do": "cancel", "at": 4}]},
    "17 NoAction at 1": {"takes": 1},
    "19 Cycle": {"sources": ["b"]},
}
OF_THEN_APPLY = {
    "12 BadName at 1": {"name": "-x"},
    "13 Arity at 1": {"sources": []},
    "14 NoSource at 1": {"inner": [], "sources": ["zz"]},
    "15 Limit at 1": {"pinMoment": MOST_TICKS + 1},
    "16 EndBeforeCreated at 1": {"created": 5, "ends": [{"do": "cancel", "at": 4}]},
    "20 Expr at 1": {"action": deep(33)},
    "19 Cycle": {"sources": ["b"]},
}


def both(one, other):
    """The members of both; sources of both, and of what has none or too few nothing else."""
    made = {**one, **other}
    if "sources" in one and "sources" in other:
        made["sources"] = one["sources"] + other["sources"] if one["sources"] else []
    if made.get("created") == 5 and MOST_TICKS + 1 in (one.get("created"), other.get("created")):
        made["created"] = MOST_TICKS + 1
    return made


def pairs():
    for op, faults in (("allOf", OF_ALL_OF), ("thenApply", OF_THEN_APPLY)):
        told = [*faults]
        for at, first in enumerate(told):
            for second in told[at + 1 :]:
                made = both(faults[first], faults[second])
                if op == "thenApply" and len(made.get("sources", "a")) > 1:
                    continue  # (two sources are a fault by themselves)
                members = {"name": "b", "op": op, "sources": ["a"], **({"action": 0} if op == "thenApply" else {}), **made}
                yield Case(f"{op} of {first} and {second}", ["report"], f"refused {first}\n", 1, stdin=recording(stage("manual"), members))


# The members of a recording and of a stage, and of each step, in the order in which they are read; all of them are wrong from some one on.
OF_RECORDING = {"form": 1, "wrap": "computed"}
OF_STAGE = {"name": "a", "op": "async", "sources": [], "inner": [], "created": 0}
OF_FORM = {1: {"takes": 0}, 2: {"queued": 0, "runs": 0}}
LAST_OF_STAGE = {"action": 0, "pinResult": None, "pinMoment": None, "ends": []}
EDITS = {
    "pinResult": {"stage": "a", "result": None},
    "pinMoment": {"stage": "a", "at": None},
    "setTakes": {"stage": "a", "takes": 1},
    "setTimes": {"stage": "a", "queued": 1, "runs": 1},
    "setAction": {"stage": "a", "action": 1},
    "setEnds": {"stage": "a", "ends": []},
    "add": {"new": {}},
    "remove": {"stage": "a"},
    "rewire": {"stage": "a", "sources": [], "inner": []},
}
OF_STEPS = [
    ("open", {"session": 1, "version": 0}),
    *[(name, {"session": 1}) for name in ("head", "undo", "close")],
    *[(name, {"session": 1, "base": 0, **members}) for name, members in EDITS.items()],
    ("edits", {"session": 1, "base": 0, "edits": []}),
    *[("report", {"version": 0, "what": what}) for what in ("all", "times")],
    *[("report", {who: 0, "what": what, "stage": "a"}) for what in ("one", "blame", "path", "sweep") for who in ("version", "session")],
    *[("report", {"version": 0, "what": what, "against": 0}) for what in ("changes", "drift")],
]


def wrong_from(members):
    """Each member's name, and the members with that one and the later ones wrong."""
    for at, name in enumerate(members):
        yield name, {it: value if place < at else True for place, (it, value) in enumerate(members.items())}


def shapes():
    for name, wrong in wrong_from(OF_RECORDING):
        yield Case(f"{name} and later members wrong", ["report"], f"refused 71 Shape {name}\n", 1, stdin=recording(5, **wrong))
    for form, times in OF_FORM.items():
        for name, wrong in wrong_from({**OF_STAGE, **times, **LAST_OF_STAGE}):
            yield Case(f"form {form}, {name} and later members wrong", ["report"], f"refused 71 Shape {name}\n", 1, stdin=recording(wrong, {}, form=form))
    steps = [(step(do, **wrong), name) for do, members in OF_STEPS for name, wrong in wrong_from(members)]
    of_lists = [({"do": do, **wrong}, name) for do, members in EDITS.items() for name, wrong in wrong_from(members)]
    steps += [(step("edits", session=1, base=0, edits=[{"do": "remove", "stage": "zz"}, it, 5]), name) for it, name in of_lists]
    answers = lines(*[f"refused 71 Shape {name}" for _, name in steps])
    yield Case("steps of which members are wrong from some one on", ["serve", "r.json"], answers, stdin=lines(*[it for it, _ in steps]))
    yield Case("many: steps of which members are wrong from some one on", ["many", "r.json", "s"], lines("script 1") + answers + lines("log 0"), files={"s": lines(*[it for it, _ in steps])})


def takes_a(**members):
    return step("setTakes", **{"session": 1, "base": 0, "stage": "a", "takes": 1, **members})


# Recordings and scripts with several faults.
ORDER = [
    Case("a fault of a stage before those of later ones", ["report"], "refused 20 Expr at 0\n", 1, stdin=recording(stage("async", action=deep(33)), stage("manual"))),
    Case("no JSON before a wrong shape", ["report"], "refused 70 JSON\n", 1, stdin='{"form":3,"stages":[5]'),
    Case("too long before no JSON", ["report"], TOO_LONG, 1, stdin=lambda: "[" * (MOST_RECORDING + 1)),
    Case("no JSON before the stage that isn't there", ["explain", "-", "zz"], "refused 70 JSON\n", 1, stdin=R[:-1]),
    Case(
        "steps with several faults",
        ["serve", "r.json"],
        lines("opened 1 at 0", "committed 1", "refused 71 Shape takes", "refused 21 ListSize", "refused 52 NoVersion", "refused 10 NoStage", "refused 15 Limit")
        + lines("refused 51 NoSession", "refused 53 Moved 1", "refused 51 NoSession", "refused 10 NoStage", "refused 57 BadSession", "refused 50 SessionOpen")
        + lines("refused 51 NoSession", "refused 52 NoVersion", "refused 10 NoStage", "refused 52 NoVersion"),
        stdin=lines(
            *[OPEN, takes_a(), step("edits", session=9, base=9, edits=[{"do": "setTakes", "stage": "a"}] * 65), step("edits", session=9, base=9, edits=[{"do": "remove", "stage": "zz"}] * 65)],
            *[takes_a(session=9, base=9, stage="zz"), takes_a(session=9, stage="zz", takes=MOST_TICKS + 1), takes_a(session=9, takes=MOST_TICKS + 1), takes_a(session=9), takes_a()],
            *['{"do":"remove","session":9,"stage":"zz"}', '{"do":"remove","session":1,"stage":"zz"}', step("open", session=0, version=9), step("open", session=1, version=9)],
            *[step("report", what="one", session=9, stage="zz"), step("report", what="one", version=9, stage="zz"), step("report", what="one", version=0, stage="zz")],
            step("report", what="changes", session=1, against=9),
        ),
    ),
]


def full_sessions():
    """With as many sessions as may be: one that is open, a number that is none, and a version that isn't there."""
    steps = [step("open", session=it, version=0) for it in range(1, 1025)] + [step("open", session=it, version=9) for it in (7, 0, 1025)]
    return lines(*steps), lines(*[f"opened {it} at 0" for it in range(1, 1025)], "refused 50 SessionOpen", "refused 57 BadSession", "refused 58 TooManySessions")


def full_versions():
    """With as many versions as may be, what is told before that."""
    more = [takes_a(session=9, base=65_536), takes_a(session=9, stage="zz"), takes_a(session=9), takes_a(), takes_a(base=65_535), step("undo", session=1), step("head", session=1)]
    told = ["refused 52 NoVersion", "refused 10 NoStage", "refused 51 NoSession", "refused 53 Moved 65535", "refused 55 Full", "undone 65534", "head 65534"]
    return versions() + lines(*more), versions_answers() + lines(*told)


# How often each script of the limits asks the table of versions; those that aren't named, never.
ENTRIES = {"a step of 65,536 bytes": 1, "session 2^32 - 1": 1, "open of 65536": 1, "open of 65535": 1, "1,024 sessions and one more": 1030, "64 edits": 2, "65 edits": 1, "1,025 sources": 2, "edits at the ends of the limits": 27}


def many_of(name, script, answers, entries, **more):
    """The script by `many`, alone."""
    return Case(f"many: {name}", ["many", "r.json", "s"], lambda: b"script 1\n" + made(answers) + lines(f"log {entries}").encode(), files={"s": script}, **more)


def made(answers):
    answers = answers() if callable(answers) else answers
    return answers.encode() if isinstance(answers, str) else answers


def at_the_limits():
    yield Case("1,024 sessions are open", ["serve", "r.json"], full_sessions()[1], stdin=full_sessions()[0])
    yield from (many_of(name, script, answers, ENTRIES.get(name, 0)) for name, script, answers in SCRIPTS)
    # (the entries: the opening, each commit that was tried, and what is asked of a session; edits that the base refuses aren't there)
    yield many_of("65,536 versions, and more", lambda: full_versions()[0], lambda: full_versions()[1], 1 + MOST_STAGES + 1 + 5, seconds=60)
    scripts = [f"s{it}" for it in range(64)]
    opened = [range(16 * it + 1, 16 * it + 17) for it in range(64)]
    yield Case(
        "many: 1,024 sessions of 64 scripts",
        ["many", "r.json", *scripts],
        "".join(lines(f"script {at + 1}", *[f"opened {it} at 0" for it in numbers]) for at, numbers in enumerate(opened)) + lines("log 1024"),
        files={name: lines(*[step("open", session=it, version=0) for it in numbers]) for name, numbers in zip(scripts, opened)},
    )
    yield Case("many: a script a byte at a time", ["many", "r.json", "/dev/stdin"], lines("script 1", "opened 1 at 0", "head 0", "log 2"), stdin=Pieces(lambda: slowly(lines(OPEN, step("head", session=1)))))


def fan_explained(stages):
    dependents = " ".join(f"s{it}" for it in range(1, stages))
    return lines("s0 async rank 0 value:4 at 10", "sources -", "inner -", f"dependents {dependents}", "join returns 4", "blame -", "path of s0 at 10 stages 1", "s0 at 10 queued 0 ran 10 created 0")


def fan_failed(stages):
    changes = [f"s{it} value:5 at 11 -> wrapped:X at 10" for it in range(1, stages)]
    return lines("script 1", "opened 1 at 0", "committed 1", f"changes of version 1 from 0 touched {stages}", "s0 value:4 at 10 -> bare:X at 10", *changes, "log 2")


FAILED = lines(OPEN, step("pinResult", session=1, base=0, stage="s0", result={"bare": "X"}), step("report", version=1, what="changes"))

# The greatest recordings by each command.
LARGE = [
    Case("explain of the beginning of a fan of 65,536 stages", ["explain", "large", "s0"], lambda: fan_explained(MOST_STAGES), files={"large": lambda: chain_of(MOST_STAGES, 0)}),
    Case("explain of a cycle of 65,536 stages", ["explain", "large", "s0"], CYCLE, 1, files={"large": lambda: cycle_of(MOST_STAGES)}),
    Case("many: a cycle of 65,536 stages", ["many", "large", "s"], CYCLE, 1, files={"large": lambda: cycle_of(MOST_STAGES), "s": OPEN}),
    Case("serve of 65,537 stages", ["serve", "large"], "refused 15 Limit at 65536\n", 1, files={"large": lambda: chain_of(MOST_STAGES + 1)}),
    Case("many: four workers, each stage of a fan of 65,536 touched", ["many", "--workers", "4", "large", "s"], lambda: fan_failed(MOST_STAGES), files={"large": lambda: chain_of(MOST_STAGES, 0), "s": FAILED}),
]


def latest(stages):
    """A chain in which each action runs as long as it may, from the latest creation on: of rank K, completion is at 2^41 + K * 2^40."""
    return recording(stage("async", "s0", created=MOST_TICKS, takes=MOST_TICKS, action=0), *[stage("thenRun", f"s{it}", sources=[f"s{it - 1}"], takes=MOST_TICKS, action=0) for it in range(1, stages)])


def latest_report(stages):
    return lines(head(stages), f"s0 async rank 0 value:0 at {2 * MOST_TICKS}", *[f"s{it} thenRun rank {it} value:null at {(it + 2) * MOST_TICKS}" for it in range(1, stages)])


M = MOST_TICKS
OF_FORM_2 = {"created": M, "queued": M, "runs": M, "action": 0}
THREE = recording(stage("async", "s0", **OF_FORM_2), *[stage("thenRun", f"s{it}", sources=[f"s{it - 1}"], **OF_FORM_2) for it in (1, 2)], form=2)
LATEST = [
    Case("the latest moments of form 1", ["report", "large"], lambda: latest_report(MOST_STAGES), files={"large": lambda: latest(MOST_STAGES)}, seconds=60),
    Case("the latest end", ["report"], lines(head(1), f"a manual rank 0 bare:java.util.concurrent.TimeoutException at {2 * M}"), stdin=recording(stage("manual", created=M, ends=[{"do": "orTimeout", "at": M, "delay": M}]))),
    Case("explain of the latest moments", ["explain", "-", "s2"], stdin=THREE, out=lines(f"s2 thenRun rank 2 value:null at {7 * M}", "sources s1", "inner -", "dependents -", "join returns null", "blame -")
         + lines(f"path of s2 at {7 * M} stages 3", f"s2 at {7 * M} queued {M} ran {M} after s1", f"s1 at {5 * M} queued {M} ran {M} after s0", f"s0 at {3 * M} queued {M} ran {M} created {M}")),
    Case(
        "reports of the latest moments",
        ["serve", "three"],
        lines("times of version 0 stages 3", *[f"s{it} start {(2 + 2 * it) * M} queued {M} runs {M}" for it in range(3)])
        + lines(f"sweep of s2 at {7 * M} stages 3", *[f"s{it} sooner {2 * M} -> value:null at {5 * M}" for it in range(3)], "opened 1 at 0", "committed 1")
        + lines("drift of version 1 from 0 moved 3", *[f"s{it} earlier {2 * M}" for it in range(3)])
        + lines("drift of version 0 against 1 moved 3", *[f"s{it} later {2 * M}" for it in range(3)]),
        files={"three": THREE},
        stdin=lines(
            *[step("report", version=0, what="times"), step("report", version=0, what="sweep", stage="s2"), OPEN, step("setTimes", session=1, stage="s0", queued=0, runs=0)],
            *[step("report", version=1, what="drift"), step("report", version=0, what="drift", against=1)],
        ),
    ),
]

# What never ends, or is longer than any disk.
NEVER = [
    Case("report of a file without an end", ["report", "/dev/zero"], TOO_LONG, 1),
    Case("explain of a file without an end", ["explain", "/dev/zero", "b"], TOO_LONG, 1),
    Case("serve of a file without an end", ["serve", "/dev/zero"], TOO_LONG, 1, stdin=OPEN),
    Case("many: a recording without an end", ["many", "/dev/zero", "s"], TOO_LONG, 1, files={"s": OPEN}),
    Case("report of 2^40 bytes", ["report", "large"], TOO_LONG, 1, files={"large": Sparse(2**40)}),
]


def long_cases():
    def told(script):
        return rf"\Awhatif: {script}: it has more than 1073741823 bytes\n\Z"

    return [
        Case("many: a script without an end", ["many", "r.json", "/dev/zero"], NO_READ, 3, err=told("/dev/zero"), shell="ulimit -v 131072;", seconds=120),
        Case("many: a script of 2^30 bytes", ["many", "r.json", "s"], NO_READ, 3, err=told("s"), files={"s": Sparse(MOST_SCRIPT)}, shell="ulimit -v 131072;", seconds=120),
        Case("many: a script of 2^30 - 1 bytes", ["many", "r.json", "s"], lines("script 1") + TOO_LONG + lines("log 0"), files={"s": Sparse(MOST_SCRIPT - 1)}, shell="ulimit -v 131072;", seconds=120),
    ]


def hostile(is_long):
    made_cases = [*pairs(), *shapes(), *ORDER, *at_the_limits(), *LARGE, *LATEST, *NEVER, *(long_cases() if is_long else [])]
    return [with_r(Case(**{**vars(it), "name": f"hostile: {it.name}"})) for it in made_cases]


# ---- memory that stays as it is

MARK, MARKED = b'{"do":"head","session":1}\n', b"refused 51 NoSession\n"
MOST_GROWTH = 300  # kilobytes; the kernel counts by some 64 pages for each processor, and what 30,000 lines leave behind would be more
# A line, and what is answered to it.
KEPT_NOTHING_OF = [
    ("refused lines", b"{}\n", NO_DO.encode()),
    ("lines that are no JSON", b"[\n", b"refused 70 JSON\n"),
    ("empty lines", b"\n\r\n", b""),
    ("long lines", b"[" * MOST_LINE + b"\n", b"refused 70 JSON\n"),
    ("lines that are too long", b"x" * (2 * MOST_LINE) + b"\n", TOO_LONG.encode()),
    ("refused edits", takes_a(stage="zz").encode() + b"\n", b"refused 10 NoStage\n"),
    ("reports", step("report", version=0, what="drift").encode() + b"\n", b"drift of version 0 from - moved 0\n"),
]


def peak(child):
    """The most kilobytes that the program has held so far."""
    with open(f"/proc/{child.pid}/status", encoding="utf-8") as file:
        return next(int(it.split()[1]) for it in file if it.startswith("VmHWM"))


def asked(child, line, answer, count):
    """Gives the line so often and then a mark; what is wrong with the answers, or nothing."""
    at_once = max(1, 65_536 // len(line))
    pieces = [line * at_once] * (count // at_once) + [line * (count % at_once) + MARK]
    writer = threading.Thread(target=lambda: [child.stdin.write(it) for it in pieces] and child.stdin.flush(), daemon=True)
    writer.start()
    wanted, tail = len(answer) * count + len(MARKED), b""
    while wanted > 0:
        ready, _, _ = select.select([child.stdout], [], [], 10)
        piece = os.read(child.stdout.fileno(), min(wanted, 1 << 20)) if ready else b""
        if not piece:
            return f"{wanted} bytes didn't come after {shown(tail)}"
        wanted, tail = wanted - len(piece), (tail + piece)[-100:]
    writer.join()
    return "" if tail.endswith(answer + MARKED) else f"the answers end with {shown(tail)}"


def growth(program, path, line, answer, few, count):
    child = subprocess.Popen([program, "serve", path], stdin=subprocess.PIPE, stdout=subprocess.PIPE, stderr=subprocess.DEVNULL)
    try:
        # (the second time the first mark is explained, and what is made but once has been made)
        said = asked(child, line, answer, few) or asked(child, line, answer, few)
        before = peak(child)
        said = said or asked(child, line, answer, count)
        more = peak(child) - before
    finally:
        child.kill()
        child.wait()
    return said or (f"{count} lines more take {more} KB more than {before}" if more > MOST_GROWTH else "")


def memory_kept(program, is_long):
    """The name of each case, and its complaint or nothing."""
    with tempfile.TemporaryDirectory(prefix="try-program-") as folder:
        path = os.path.join(folder, "r.json")
        with open(path, "w", encoding="utf-8") as file:
            file.write(R)
        for name, line, answer in KEPT_NOTHING_OF:
            few, most = (20, 2000) if len(line) >= MOST_LINE else (30_000, 1_000_000)
            yield f"hostile: nothing is kept of {name}", growth(program, path, line, answer, few, most if is_long else few), set()
        if is_long:
            _, line, answer = KEPT_NOTHING_OF[0]
            yield "hostile: nothing is kept of 10 million refused lines", growth(program, path, line, answer, 30_000, 10_000_000), set()
