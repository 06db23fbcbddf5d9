"""`export`: the version that a script makes last, as a recording; and that this is read back, for the recordings and the scripts
of the other tables, and for scripts that are made at random."""
import concurrent.futures
import glob
import json
import os
import random
import re

from . import cases, shapes, why
from .cases import NO_READ, OPEN, R, lines, recording, slowly, stage, step, with_r
from .limits import AT_LIMITS, MOST_STAGES, chain_of, versions
from .mistakes import UNREAD, begins, told
from .readme import read
from .run import CLOSED, LANES, Case, Pieces, Shut, first_difference, run, shown

SEEDS = 60


def written(*stages, wrap="computed"):
    """A recording as it is written, of the lines of its stages."""
    return f'{{"form":2,"wrap":"{wrap}","stages":[' + ",".join(f"\n{it}" for it in stages) + "\n]}\n"


def edit(do, **members):
    return step(do, session=1, **members)


A = '{"name":"a","op":"async","runs":10,"action":4}'
B = '{"name":"b","op":"thenApply","sources":["a"],"runs":5,"action":["add",["arg",0],1]}'
UNCHANGED = written(A, B)

# A stage of each operation, as it is given, and its line.
OPERATIONS = [
    (stage("manual", "m"), '{"name":"m","op":"manual"}'),
    (stage("completed", "c", value=None), '{"name":"c","op":"completed","value":null}'),
    (stage("completed", "d", value=-(2**63), created=2), f'{{"name":"d","op":"completed","value":{-2**63},"created":2}}'),
    (stage("failed", "f", throws="a.B$C_1"), '{"name":"f","op":"failed","throws":"a.B$C_1"}'),
    (stage("supplyAsync", "s", action=None), '{"name":"s","op":"async","action":null}'),
    (stage("async", "t", takes=1, action=7), '{"name":"t","op":"async","runs":1,"action":7}'),
    (stage("thenApplyAsync", "u", sources=["s"], action=0), '{"name":"u","op":"thenApply","sources":["s"],"action":0}'),
    (stage("thenAccept", "v", sources=["s"], action=0), '{"name":"v","op":"thenAccept","sources":["s"],"action":0}'),
    (stage("thenRunAsync", "w", sources=["s"], action=0), '{"name":"w","op":"thenRun","sources":["s"],"action":0}'),
    (stage("copy", "x", sources=["s"]), '{"name":"x","op":"copy","sources":["s"]}'),
    (stage("handleAsync", "h", sources=["f"], action=0), '{"name":"h","op":"handle","sources":["f"],"action":0}'),
    (stage("whenCompleteAsync", "i", sources=["f"], action=0), '{"name":"i","op":"whenComplete","sources":["f"],"action":0}'),
    (stage("exceptionally", "j", sources=["f"], action=0), '{"name":"j","op":"exceptionally","sources":["f"],"action":0}'),
    (stage("thenComposeAsync", "k", sources=["s"], inner=["c", "d", "c"], action=0), '{"name":"k","op":"thenCompose","sources":["s"],"inner":["c","d","c"],"action":0}'),
    (stage("exceptionallyCompose", "l", sources=["f"], inner=[], action=0), '{"name":"l","op":"exceptionallyCompose","sources":["f"],"action":0}'),
    (stage("thenCombine", "n", sources=["t", "s"], action=0), '{"name":"n","op":"thenCombine","sources":["t","s"],"action":0}'),
    (stage("thenAcceptBothAsync", "o", sources=["s", "s"], action=0), '{"name":"o","op":"thenAcceptBoth","sources":["s","s"],"action":0}'),
    (stage("runAfterBoth", "p", sources=["s", "t"], action=0), '{"name":"p","op":"runAfterBoth","sources":["s","t"],"action":0}'),
    (stage("applyToEither", "q", sources=["s", "t"], action=0), '{"name":"q","op":"applyToEither","sources":["s","t"],"action":0}'),
    (stage("acceptEitherAsync", "r", sources=["s", "t"], action=0), '{"name":"r","op":"acceptEither","sources":["s","t"],"action":0}'),
    (stage("runAfterEither", "y", sources=["s", "t"], action=0), '{"name":"y","op":"runAfterEither","sources":["s","t"],"action":0}'),
    (stage("allOf", "z"), '{"name":"z","op":"allOf"}'),
    (stage("anyOf", "Z.-_9", sources=["z", "m", "y"]), '{"name":"Z.-_9","op":"anyOf","sources":["z","m","y"]}'),
]
# Each kind of expression, and its text.
EXPRESSIONS = [
    (0, "0"),
    (-5, "-5"),
    (2**63 - 1, "9223372036854775807"),
    (None, "null"),
    (["arg", 1], '["arg",1]'),
    (["sub", ["mul", 2, ["arg", 0]], ["div", -1, None]], '["sub",["mul",2,["arg",0]],["div",-1,null]]'),
    (["lt", ["eq", 1, 2], ["add", 3, 4]], '["lt",["eq",1,2],["add",3,4]]'),
    (["if", ["isnull", ["arg", 0]], ["throw", "X.Y"], 1], '["if",["isnull",["arg",0]],["throw","X.Y"],1]'),
    (["if", ["failed"], ["iswrapped"], ["causeis", "a_b$c"]], '["if",["failed"],["iswrapped"],["causeis","a_b$c"]]'),
]
ENDS = [
    {"do": "complete", "at": 1, "value": -7},
    {"do": "complete", "at": 0, "value": None},
    {"do": "completeExceptionally", "at": 2, "throws": "E"},
    {"do": "cancel", "at": 3},
    {"do": "orTimeout", "at": 4, "delay": 5},
    {"do": "completeOnTimeout", "at": 6, "delay": 0, "value": 8},
]
ENDS_TEXT = (
    '[{"at":1,"do":"complete","value":-7},{"at":0,"do":"complete","value":null},{"at":2,"do":"completeExceptionally","throws":"E"},{"at":3,"do":"cancel"},'
    '{"at":4,"do":"orTimeout","delay":5},{"at":6,"do":"completeOnTimeout","delay":0,"value":8}]'
)
FOUR = recording(stage("manual", "x"), stage("completed", "c", value=-3), stage("copy", "k", sources=["c"]), stage("allOf", "s", sources=["k", "c", "k"]))

# A recording, steps about it, and what is written.
WRITTEN = [
    ("no step", R, [], UNCHANGED),
    ("no stage", recording(), [], written()),
    ("the literal mode", recording(stage("async", action=["throw", "X"]), wrap="literal"), [], written('{"name":"a","op":"async","action":["throw","X"]}', wrap="literal")),
    ("each operation", recording(*[it for it, _ in OPERATIONS]), [], written(*[it for _, it in OPERATIONS])),
    *[(f"the expression {text}", R, [OPEN, edit("setAction", stage="a", action=it)], written('{"name":"a","op":"async","runs":10,"action":' + text + "}", B)) for it, text in EXPRESSIONS],
    (
        "members that have their default",
        recording(stage("async", sources=[], inner=[], created=0, queued=0, runs=0, action=1, pinResult=None, pinMoment=None, ends=[]), form=2),
        [],
        written('{"name":"a","op":"async","action":1}'),
    ),
    (
        "all members of a stage",
        recording(stage("manual", "m"), stage("thenCompose", "t", ends=[{"value": 0, "delay": 0, "do": "completeOnTimeout", "at": 9}], pinMoment=8, pinResult={"wrapped": "X"}, action=0, runs=7, queued=6, created=5, inner=["m"], sources=["m"]), form=2),
        [],
        written('{"name":"m","op":"manual"}', '{"name":"t","op":"thenCompose","sources":["m"],"inner":["m"],"created":5,"queued":6,"runs":7,"action":0,"pinResult":{"wrapped":"X"},"pinMoment":8,"ends":[{"at":9,"do":"completeOnTimeout","delay":0,"value":0}]}'),
    ),
    (
        "members that nothing reads, and labels",
        recording(stage("manual", pinResult={"value": 1, "x-by": "me"}, span="7", **{"x-service": "shop", "$id": 3}), trace="7a", unit="us"),
        [],
        written('{"name":"a","op":"manual","pinResult":{"value":1}}'),
    ),
    ("a source that stands later", recording(stage("copy", "b", sources=["a"]), stage("manual")), [], written('{"name":"b","op":"copy","sources":["a"]}', '{"name":"a","op":"manual"}')),
    ("a name in another writing", '{"stages":[{"op":"manual","name":"\\u0061"}]}', [], written('{"name":"a","op":"manual"}')),
    ("times", R, [OPEN, edit("setTimes", stage="a", queued=3, runs=7)], written('{"name":"a","op":"async","queued":3,"runs":7,"action":4}', B)),
    ("no times", R, [OPEN, edit("setTakes", stage="a", takes=0)], written('{"name":"a","op":"async","action":4}', B)),
    ("a pinned null, and a moment that is 0", R, [OPEN, edit("pinResult", stage="a", result={"value": None}), edit("pinMoment", stage="a", at=0)], written(A[:-1] + ',"pinResult":{"value":null},"pinMoment":0}', B)),
    ("a bare pin", R, [OPEN, edit("pinResult", stage="b", result={"bare": "X"})], written(A, B[:-1] + ',"pinResult":{"bare":"X"}}')),
    ("a pin that is removed", R, [OPEN, edit("pinResult", stage="b", result={"wrapped": "X"}), edit("pinMoment", stage="b", at=3), edit("pinResult", stage="b", result=None)], written(A, B[:-1] + ',"pinMoment":3}')),
    ("each end", R, [OPEN, edit("setEnds", stage="a", ends=ENDS)], written(A[:-1] + f',"ends":{ENDS_TEXT}}}', B)),
    ("ends that are removed", R, [OPEN, edit("setEnds", stage="a", ends=ENDS), edit("setEnds", stage="a", ends=[])], UNCHANGED),
    (
        "a stage that is removed, and one that is added",
        FOUR,
        [OPEN, edit("remove", stage="x"), edit("add", new=stage("thenApplyAsync", "n", sources=["s"], created=9, queued=1, action=["arg", 0]))],
        written('{"name":"c","op":"completed","value":-3}', '{"name":"k","op":"copy","sources":["c"]}', '{"name":"s","op":"allOf","sources":["k","c","k"]}', '{"name":"n","op":"thenApply","sources":["s"],"created":9,"queued":1,"action":["arg",0]}'),
    ),
    (
        "the last stage is removed, and its name comes again",
        R,
        [OPEN, edit("remove", stage="b"), edit("add", new=stage("manual", "m")), edit("edits", edits=[{"do": "remove", "stage": "m"}, {"do": "add", "new": stage("copy", "b", sources=["a"])}])],
        written(A, '{"name":"b","op":"copy","sources":["a"]}'),
    ),
    ("all stages are removed", R, [OPEN, edit("remove", stage="b"), edit("remove", stage="a")], written()),
    ("other sources", R, [OPEN, edit("add", new=stage("manual", "m")), edit("rewire", stage="b", sources=["m"], inner=[])], written(A, B.replace('["a"]', '["m"]'), '{"name":"m","op":"manual"}')),
    ("what was undone", R, [OPEN, edit("setTakes", stage="a", takes=1), step("undo", session=1)], written(A.replace("10", "1"), B)),
    (
        "the version of the greatest number, whose session is closed",
        R,
        [OPEN, step("open", session=2, version=0), edit("setTakes", stage="a", takes=1), step("setTakes", session=2, stage="a", takes=2), step("close", session=2), step("open", session=3, version=1), step("head", session=1)],
        written(A.replace("10", "2"), B),
    ),
    ("reports, and lines that are blank", R, ["", step("report", version=0, what="all"), "\r", step("report", version=0, what="recording"), OPEN, edit("setTakes", stage="b", takes=0), ""], written(A, B.replace('"runs":5,', ""))),
]
REFUSED_AND_NOT = lines(OPEN, edit("setTakes", stage="aa", takes=3), edit("setTakes", stage="a", takes=3), step("head", session=7))
TOLD = told('whatif: line 2: stage "aa": no stage has the name "aa"; did you mean "a"?', "whatif: line 4: session 7 is not open: open it first")
A_TAKES_3 = written(A.replace("10", "3"), B)


def exported(name, out, status=0, err="", words=(), script="", **how):
    """An export of R by a script."""
    files = {"r.json": R, "s": script, **how.pop("files", {})}
    return Case(f"export: {name}", ["export", *(words or ["r.json", "s"])], out, status, err, files=files, **how)


CASES = [
    exported("nothing is told", UNCHANGED, err=r"\A\Z", script=lines(OPEN)),
    exported("refused steps", A_TAKES_3, err=TOLD, script=REFUSED_AND_NOT),
    exported("the last line without its end", A_TAKES_3, err=TOLD, script=REFUSED_AND_NOT[:-1]),
    exported("steps that are all refused", UNCHANGED, err=r"(?s)\Awhatif: line 1: column 1: .*\nwhatif: line 3: do is missing.*\n\Z", script="x\n\n{}\n"),
    exported("refused steps, quietly", A_TAKES_3, err=r"\A\Z", words=["--quiet", "r.json", "s"], script=REFUSED_AND_NOT),
    exported("refused steps, strictly", "", 5, told('whatif: line 2: stage "aa": no stage has the name "aa"; did you mean "a"?'), ["--strict", "r.json", "s"], REFUSED_AND_NOT),
    exported("refused steps, strictly and quietly", "", 5, r"\A\Z", ["r.json", "--strict", "s", "--quiet"], REFUSED_AND_NOT),
    exported("a last step that is refused, strictly", "", 5, begins("whatif: line 2: session 7 is not open"), ["--strict", "r.json", "s"], lines(OPEN) + step("head", session=7)),
    exported("a refused step, strictly, where nothing can be written", "", 5, words=["--strict", "r.json", "s"], script=REFUSED_AND_NOT, stdout="full"),
    exported("no step is refused, strictly", A_TAKES_3, err=r"\A\Z", words=["--strict", "r.json", "s"], script=lines(OPEN, edit("setTakes", stage="a", takes=3))),
    exported("a warning of a step, strictly", A_TAKES_3, err=begins('whatif: line 2: warning: stage "a": nothing reads "tick"'), words=["--strict", "r.json", "s"], script=lines(OPEN, edit("setTakes", stage="a", takes=3, tick=1))),
    exported("a warning of the recording", re.compile(rb'\{"form":2,(.*\n)*'), err=told('whatif: warning: stage "tax": nothing reads "queue"; did you mean "queued"?'), files={"r.json": UNREAD}),
    exported("a warning of the recording, strictly", "", 1, begins("whatif: warning: "), ["--strict", "r.json", "s"], files={"r.json": UNREAD}),
    exported("a refused recording", "refused 71 Shape stages\n", 1, r"\Awhatif: r.json: stages is missing[^\n]*\nwhatif: the recording is refused, so no step was read\n\Z", files={"r.json": "{}"}, script=REFUSED_AND_NOT),
    exported("a refused recording, quietly", "refused 19 Cycle\n", 1, r"\A\Z", ["--quiet", "r.json", "s"], files={"r.json": recording(stage("copy", sources=["a"]))}),
    exported("the recording before the script", "refused 70 JSON\n", 1, words=["bad", "absent"], files={"bad": "["}),
    exported("no recording", NO_READ, 3, told("whatif: absent: No such file or directory"), ["absent", "s"]),
    exported("no script", NO_READ, 3, told("whatif: absent: No such file or directory"), ["r.json", "absent"]),
    exported("no script, quietly", NO_READ, 3, r"\A\Z", ["--quiet", "r.json", "absent"]),
    exported("the empty name as a script", NO_READ, 3, words=["r.json", ""]),
    exported("a folder as the recording", NO_READ, 3, words=["folder", "s"], files={"folder": None}),
    exported("a folder as the script", NO_READ, 3, words=["r.json", "folder"], files={"folder": None}),
    exported("a script that may not be read", NO_READ, 3, words=["r.json", "shut"], files={"shut": Shut(OPEN)}),
    exported("a script that opens and can't be read", NO_READ, 3, words=["r.json", "/proc/self/mem"]),
    exported("- as the recording is a file", NO_READ, 3, words=["-", "s"], stdin=R),
    exported("- as the script is a file", NO_READ, 3, words=["r.json", "-"], stdin=OPEN),
    exported("a script that is called -", A_TAKES_3, words=["r.json", "-"], files={"-": REFUSED_AND_NOT}, stdin=CLOSED),
    exported("names after --", UNCHANGED, words=["--", "r.json", "s"]),
    exported("a closed standard input", UNCHANGED, stdin=CLOSED),
    exported("a script a byte at a time", A_TAKES_3, err=TOLD, words=["r.json", "/dev/stdin"], stdin=Pieces(lambda: slowly(REFUSED_AND_NOT))),
    *[exported(f"on a {name} standard output", "", 3, stdout=name) for name in ("full", "closed", "gone")],
    exported("a refused recording on a full standard output", "", 3, files={"r.json": "["}, stdout="full"),
    exported("no file", "", 2, f"(?s){why.MISSING}.*<FILE>.*<SCRIPT>", ["--quiet"]),
    exported("a recording alone", "", 2, f"(?s){why.MISSING}.*<SCRIPT>", ["r.json"]),
    exported("two scripts", "", 2, "'s2'", ["r.json", "s", "s2"]),
    exported("an unknown option", "", 2, "nonsense", ["--nonsense", "r.json", "s"]),
    exported("it has one form alone", "", 2, "--format", ["--format", "json", "r.json", "s"]),
    exported("a name that is no text", "", 2, r"\S", ["r.json", b"\xff"]),
    exported("the command line before the file", "", 2, "'more'", ["absent", "s", "more"]),
    exported("help on a full standard output", "", 3, words=["--help"], stdout="full"),
    exported("a recording without an end", "refused 72 TooLong\n", 1, words=["/dev/zero", "s"]),
]


def chain_written(stages):
    first = '{"name":"s0","op":"async","runs":10,"action":4}'
    return written(first, *[f'{{"name":"s{it}","op":"thenApply","sources":["s{it - 1}"],"runs":1,"action":["add",["arg",0],1]}}' for it in range(1, stages)])


LARGE = [
    exported("a chain of 65,536 stages", lambda: chain_written(MOST_STAGES), files={"r.json": lambda: chain_of(MOST_STAGES)}, seconds=60),
    # (the step of number K pins the moment K - 1, and makes version K; the last one finds no room)
    exported("65,536 versions", written(A, B[:-1] + f',"pinMoment":{MOST_STAGES - 2}}}'), script=versions, seconds=60),
    exported("65,536 versions and one more, strictly", "", 5, words=["--strict", "r.json", "s"], script=versions, seconds=60),
]
NEVER = exported("a script without an end", NO_READ, 3, words=["r.json", "/dev/zero"], shell="ulimit -v 131072;", seconds=120)


def export_cases(is_long):
    made = [Case(f"export: {name}", ["export", "given", "s"], out, err=r"\A\Z", files={"given": given, "s": lines(*steps)}) for name, given, steps, out in WRITTEN]
    return [with_r(it) for it in [*made, *CASES, *LARGE, *([NEVER] if is_long else [])]]


# ---- what is written of a recording, by the rule of docs/FORMATS.md


def as_json(content):
    return json.dumps(content, separators=(",", ":"), ensure_ascii=False)


def operation(name):
    """The name without Async at its end."""
    return "async" if name in ("async", "supplyAsync") else name.removesuffix("Async")


def some(name, content):
    return {name: content} if content else {}


def without_others(content, names):
    return {name: content[name] for name in names if name in content}


def end_of(end):
    further = {"complete": ["value"], "completeExceptionally": ["throws"], "orTimeout": ["delay"], "completeOnTimeout": ["delay", "value"]}
    return without_others(end, ["at", "do", *further.get(end["do"], [])])


def stage_of(given, form):
    op = operation(given["op"])
    made = {"name": given["name"], "op": op}
    made |= without_others(given, {"completed": ["value"], "failed": ["throws"]}.get(op, []))
    made |= some("sources", given.get("sources")) | some("inner", given.get("inner")) | some("created", given.get("created"))
    made |= some("queued", given.get("queued")) | some("runs", given.get("runs")) if form == 2 else some("runs", given.get("takes"))
    made |= without_others(given, ["action"])
    if given.get("pinResult") is not None:
        made["pinResult"] = without_others(given["pinResult"], ["value", "bare", "wrapped"])
    if given.get("pinMoment") is not None:
        made["pinMoment"] = given["pinMoment"]
    return made | some("ends", [end_of(it) for it in given.get("ends", [])])


def as_written(text):
    """The text of a recording that is taken."""
    given = json.loads(text)
    return written(*[as_json(stage_of(it, given.get("form", 1))) for it in given["stages"]], wrap=given.get("wrap", "computed")).encode()


# ---- what is written is read back


def ran(program, words, files, stdin=b""):
    """What a command prints; it is an error where the status isn't 0."""
    answer = run(program, Case("export", words, None, files=files, stdin=stdin, seconds=60))
    if answer.status != 0:
        raise ValueError(f"{words[0]} has status {answer.status} and prints {shown(answer.out)}, standard error {shown(answer.err)}")
    return answer.out


def differ(what, wanted, came):
    at = first_difference(wanted, came)
    return f"{what}: wanted {shown(wanted, at)}, came {shown(came, at)}" if wanted != came else ""


def again(program, came):
    """What is wrong where what was written is written once more."""
    return differ("written once more", came, ran(program, ["export", "r.json", "s"], {"r.json": came, "s": ""}))


def of_recording(program, text):
    """What is wrong with a recording as it is written, or nothing."""
    files = {"r.json": text, "s": ""}
    came = ran(program, ["export", "--quiet", "r.json", "s"], files)
    said = differ("what is written", as_written(text), came) or again(program, came)
    return said or differ("its report", ran(program, ["report", "r.json"], files), ran(program, ["report"], {}, came))


def of_script(program, text, script):
    """What is wrong with the last version of a script as it is written, or nothing."""
    script = script.encode() if isinstance(script, str) else script
    script += b"" if script.endswith(b"\n") or not script else b"\n"
    files = {"r.json": text, "s": script}
    answers = ran(program, ["serve", "--quiet", "r.json"], files, script)
    last = max(map(int, re.findall(rb"(?m)^committed (\d+)$", answers)), default=0)
    asked = lines(step("report", version=last, what="recording"), step("report", version=last, what="all")).encode()
    reports = ran(program, ["serve", "--quiet", "r.json"], files, script + asked).removeprefix(answers)
    came = ran(program, ["export", "--quiet", "r.json", "s"], files)
    # (but for the number of the version and of its parent)
    read_back = re.sub(rb"\Aversion 0 parent - ", b"", ran(program, ["report"], {}, came))
    meant = b"recording of version %d lines %d\n" % (last, came.count(b"\n")) + came
    said = differ("the report of the version as a recording", meant, reports[: len(meant)])
    return said or differ("its stages", re.sub(rb"\Aversion \d+ parent (\d+|-) ", b"", reports[len(meant) :]), read_back) or again(program, came)


SOURCES = {0: ["async", "manual", "completed", "failed"], 1: ["thenApply", "thenRun", "copy", "handle", "whenComplete", "exceptionally", "thenCompose", "exceptionallyCompose"], 2: ["thenCombine", "runAfterBoth", "applyToEither", "acceptEither"]}
WITHOUT_ACTION = ("manual", "completed", "failed", "copy", "allOf", "anyOf")
NAMES = [it["name"] for it, _ in OPERATIONS] + ["new-1", "new-2", "new-3", "new-4"]


def some_action(rng, depth=3):
    if depth == 0 or rng.random() < 0.3:
        return rng.choice([None, -1, 0, 1, 7, -(2**63), ["arg", 0], ["arg", 1], ["failed"], ["iswrapped"], ["causeis", "X"], ["throw", "Y"]])
    word = rng.choice(["add", "sub", "mul", "div", "lt", "eq", "if", "isnull"])
    return [word, *[some_action(rng, depth - 1) for _ in range({"if": 3, "isnull": 1}.get(word, 2))]]


def some_stage(rng):
    count = rng.choice([0, 1, 1, 2, 3])
    op = rng.choice(SOURCES.get(count, ["allOf", "anyOf"]))
    made = stage(op, rng.choice(NAMES), sources=[rng.choice(NAMES) for _ in range(count)])
    if op.endswith("ompose"):
        made["inner"] = [rng.choice(NAMES) for _ in range(rng.randrange(3))]
    if op not in WITHOUT_ACTION:
        made |= {"queued": rng.choice([0, 0, 3]), "runs": rng.choice([0, 5, 2**40]), "action": some_action(rng)}
    made |= {"completed": {"value": rng.choice([None, -4, 9])}, "failed": {"throws": "F"}}.get(op, {})
    return made | rng.choice([{}, {}, {"created": rng.randrange(3)}, {"pinMoment": 0, "pinResult": {"bare": "P"}}, {"ends": [{"at": 4, "do": "orTimeout", "delay": rng.randrange(9)}]}])


def some_edit(rng):
    """An edit that may well be refused."""
    do = rng.choice(["pinResult", "pinMoment", "setTakes", "setTimes", "setAction", "setEnds", "add", "add", "add", "remove", "remove", "rewire"])
    if do == "add":
        return {"do": do, "new": some_stage(rng)}
    further = {
        "pinResult": {"result": rng.choice([None, {"value": None}, {"value": -1}, {"bare": "X"}, {"wrapped": "X"}])},
        "pinMoment": {"at": rng.choice([None, 0, 12])},
        "setTakes": {"takes": rng.randrange(3)},
        "setTimes": {"queued": rng.randrange(3), "runs": rng.randrange(3)},
        "setAction": {"action": some_action(rng)},
        "setEnds": {"ends": rng.sample(ENDS, rng.randrange(3))},
        "rewire": {"sources": [rng.choice(NAMES) for _ in range(rng.choice([1, 1, 2]))], "inner": []},
    }
    return {"do": do, "stage": rng.choice(NAMES), **further.get(do, {})}


def some_script(seed):
    """A script made at random, about a recording with each operation."""
    rng = random.Random(seed)
    for _ in range(60):
        kind = rng.random()
        if kind < 0.05:
            yield step("undo", session=1)
        elif kind < 0.2:
            yield step("edits", session=1, edits=[some_edit(rng) for _ in range(rng.randrange(1, 4))])
        else:
            made = some_edit(rng)
            yield step(made.pop("do"), session=1, **made)


def scripts(top):
    """Each script: its name, the recording that it is about, and its text."""
    for name, steps, *_ in [*cases.SCRIPTS, *why.SCRIPTS, ("edits at the ends of the limits", [OPEN, *[it for it, _ in AT_LIMITS]])]:
        yield f"after the script: {name}", R, lines(*steps)
    for path in sorted(glob.glob(os.path.join(top, "examples", "*.json"))):
        for script in sorted(glob.glob(path.removesuffix(".json") + "*.script")):
            yield f"after examples/{os.path.basename(script)}", read(top, path), read(top, script)
    every = recording(*[it for it, _ in OPERATIONS])
    for seed in range(SEEDS):
        yield f"after the random script {seed}", every, lines(OPEN, *some_script(seed))


FIXED = lines("reply thenApply rank 7 value:5499 at 73", "sources page", "inner -", "dependents -", "join returns 5499", "blame -", "path of reply at 73 stages 8") + lines(
    *["reply at 73 queued 0 ran 1 after page", "page at 72 queued 1 ran 7 after delivery", "delivery at 64 queued 0 ran 4 after stock", "stock at 60 queued 0 ran 1 after stock-south"],
    *["stock-south at 59 queued 3 ran 35 after basket", "basket at 21 queued 2 ran 11 after session", "session at 8 queued 0 ran 6 after request", "request at 2 queued 0 ran 2 created 0"],
)


def fixed(program, top):
    """What is told of the late reply in the version that its script made last, opened again, and shown in docs/TOUR.md."""
    files = {"r.json": read(top, "examples/late-reply.json"), "s": read(top, "examples/late-reply-why.script")}
    came = ran(program, ["export", "r.json", "s"], files)
    unshown = "" if f"```\n{FIXED}```\n" in read(top, "docs/TOUR.md") else "docs/TOUR.md doesn't show it"
    return differ("explained", FIXED.encode(), ran(program, ["explain", "-", "reply"], {}, came)) or unshown


def exports(top, program):
    """The name of each case, its complaint or nothing, and no refusal."""
    made = [(f"read back: {name}", lambda text=text: of_recording(program, text)) for name, text, number in shapes.recordings(top) if number is None]
    made += [(f"read back {name}", lambda text=text, script=script: of_script(program, text, script)) for name, text, script in scripts(top)]
    made.append(("the fixed late reply, opened again", lambda: fixed(program, top)))

    def told_of(case):
        try:
            return case[1]()
        except ValueError as error:
            return str(error)

    with concurrent.futures.ThreadPoolExecutor(LANES) as lanes:
        for (name, _), said in zip(made, lanes.map(told_of, made)):
            yield name, said, set()
