"""What the program does with each kind of command line, file, recording and step: one small case for each."""
import dataclasses
import json
import re
import time

from .run import CLOSED, Case, File, Pieces, Shut

# The refusals that the program can print. Each has a case in which it is wanted, or the trial fails.
PRINTED = [*range(10, 23), 41, *range(50, 56), 57, 58, 70, 71, 72, *range(80, 88), 90]
# Those that needn't come, or can't, and why.
SELDOM_PRINTED = {35: "only where no thread can be started; scripts may then be run one after another instead"}
NEVER_PRINTED = {
    1: "stands inside 20",
    2: "stands inside 20",
    30: "an edit that takes more than 65,536 places is refused before, by 15",
    40: "what can't be written isn't written",
    56: "each base is looked up in the one table that the program has",
    60: "each client is given back when its script has ended",
    61: "each entry of the log is one of a client's",
}

R = '{"stages":[{"name":"a","op":"async","takes":10,"action":4},{"name":"b","op":"thenApply","sources":["a"],"takes":5,"action":["add",["arg",0],1]}]}'
FIRST_RUN = "version 0 parent - mode computed stages 2\na async rank 0 value:4 at 10\nb thenApply rank 1 value:5 at 15\n"
MOST_TICKS = 2**40
NO_READ = "refused 41 ReadFault\n"
SOME_TEXT = re.compile(rb"(?s).*\S.*")


def lines(*texts):
    return "".join(f"{it}\n" for it in texts)


def stage(op, name="a", **members):
    return {"name": name, "op": op, **members}


def recording(*stages, **members):
    return json.dumps({**members, "stages": stages})


def step(do, **members):
    return json.dumps({"do": do, **members})


OPEN = step("open", session=1, version=0)


# What output is written to that takes none, and what is said of it: nothing where nobody reads any more.
UNWRITTEN = [
    ("a full standard output", "full", r"\Awhatif: standard output: No space left on device\n\Z"),
    ("a closed standard output", "closed", r"\Awhatif: standard output: Bad file descriptor\n\Z"),
    ("a pipe that nobody reads", "gone", r"\A\Z"),
]

# The command line.
COMMAND_LINES = [
    Case("help is printed", ["--help"], re.compile(rb"(?s).*report.*serve.*")),
    Case("help of report is printed", ["report", "--help"], re.compile(rb"(?s).*FILE.*")),
    Case("help of serve is printed", ["serve", "--help"], re.compile(rb"(?s).*FILE.*")),
    Case("help by -h", ["-h"], SOME_TEXT),
    Case("help by its subcommand", ["help"], re.compile(rb"(?s).*report.*serve.*")),
    Case("help of serve by the subcommand of help", ["help", "serve"], re.compile(rb"(?s).*FILE.*")),
    Case("help of what isn't there", ["help", "nonsense"], "", 2, err="nonsense"),
    Case("no word", [], "", 2, err=r"\S"),
    Case("an unknown subcommand", ["nonsense"], "", 2, err="nonsense"),
    Case("an unknown option", ["--nonsense"], "", 2, err="nonsense"),
    Case("an unknown option of report", ["report", "--nonsense"], "", 2, err="nonsense"),
    Case("report of two files", ["report", "r.json", "r.json"], "", 2, err=r"\S"),
    Case("serve of no file", ["serve"], "", 2, err="FILE"),
    Case("serve of two files", ["serve", "r.json", "r.json"], "", 2, err=r"\S"),
    Case("a subcommand that is no text", [b"\xff\xfe"], "", 2, err=r"\S"),
    Case("a file's name that is no text", ["report", b"r\xff.json"], "", 2, err=r"\S"),
    Case("the command line is looked at before the file", ["serve", "absent", "more"], "", 2, err=r"\S"),
    *[
        Case(f"{name} on {told}", words, "", 3, err=err, stdout=stdout)
        for name, words in (("help", ["--help"]), ("the version", ["--version"]), ("help of report", ["report", "--help"]))
        for told, stdout, err in UNWRITTEN
    ],
    *[
        Case(f"{name} on {told} error", words, "", 2, shell=f"exec 2>{where};")
        for name, words in (("a wrong word", ["nonsense"]), ("a subcommand that is no text", [b"\xff\xfe"]))
        for told, where in (("a closed standard", "&-"), ("a full standard", "/dev/full"))
    ],
    Case("a file's name after --", ["report", "--", "r.json"], FIRST_RUN),
]

# Files, standard input and standard output.
FILES = [
    Case("report of a file", ["report", "r.json"], FIRST_RUN),
    Case("report of standard input", ["report"], FIRST_RUN, stdin=R),
    Case("report of standard input a byte at a time", ["report"], FIRST_RUN, stdin=Pieces(lambda: (bytes([it]) for it in R.encode()))),
    Case("report of a file needs no standard input", ["report", "r.json"], FIRST_RUN, stdin=CLOSED),
    Case("report of no file", ["report", "absent"], NO_READ, 3),
    Case("report of the empty name", ["report", ""], NO_READ, 3),
    Case("report of a name below a file", ["report", "r.json/x"], NO_READ, 3),
    Case("report of a name that is too long", ["report", "x" * 300], NO_READ, 3),
    Case("report of a folder", ["report", "folder"], NO_READ, 3, files={"folder": None}),
    Case("report of a file that may not be read", ["report", "shut"], NO_READ, 3, files={"shut": Shut(R)}),
    Case("report of a file that opens and can't be read", ["report", "/proc/self/mem"], NO_READ, 3),
    Case("report of a closed standard input", ["report"], NO_READ, 3, stdin=CLOSED),
    Case("report of a folder on standard input", ["report"], NO_READ, 3, stdin=File(".")),
    *[
        Case(f"{words[0]} on {told}", words, "", 3, err=err, stdout=stdout, files={"s": OPEN, "warned": R.replace("{", '{"stage":1,', 1)})
        for words in (["report", "r.json"], ["explain", "r.json", "a"], ["sweep", "r.json", "b"], ["slack", "r.json", "b"], ["rescue", "r.json", "b"], ["compare", "r.json", "r.json", "b"], ["draw", "r.json"], ["page", "r.json", "--stage", "b"], ["check", "warned"], ["export", "r.json", "s"])
        for told, stdout, err in UNWRITTEN
    ],
    Case("report of many stages on a pipe that nobody reads", ["report"], "", 3, err=r"\A\Z", stdout="gone", stdin=lambda: recording(*(stage("manual", name=f"m{it}") for it in range(5000)))),
    Case("a refused recording on a full standard output", ["report"], "", 3, err=r"\Awhatif: standard input: there are no bytes[^\n]*\nwhatif: standard output: No space left on device\n\Z", stdout="full"),
    Case("a refused recording on a full standard output, quietly", ["report", "--quiet"], "", 3, err=r"\A\Z", stdout="full"),
    Case("a refused recording on a pipe that nobody reads", ["report"], "", 3, err=r"\Awhatif: standard input: there are no bytes[^\n]*\n\Z", stdout="gone"),
    Case("a read fault on a closed standard output", ["report", "absent"], "", 3, err=r"\Awhatif: absent: No such file or directory\nwhatif: standard output: Bad file descriptor\n\Z", stdout="closed"),
    Case("serve of no file", ["serve", "absent"], NO_READ, 3),
    Case("serve of a folder", ["serve", "folder"], NO_READ, 3, files={"folder": None}),
    Case("serve of a file that may not be read", ["serve", "shut"], NO_READ, 3, files={"shut": Shut(R)}),
    Case("serve of a closed standard input", ["serve", "r.json"], NO_READ, 3, err=r"\Awhatif: standard input: Bad file descriptor\n\Z", stdin=CLOSED),
    Case("serve of a folder on standard input", ["serve", "r.json"], NO_READ, 3, err=r"\Awhatif: standard input: Is a directory\n\Z", stdin=File(".")),
    Case("serve of a folder on standard input, quietly", ["serve", "--quiet", "r.json"], NO_READ, 3, err=r"\A\Z", stdin=File(".")),
    Case("export of a folder as a script", ["export", "r.json", "folder"], NO_READ, 3, err=r"\Awhatif: folder: Is a directory\n\Z", files={"folder": None}),
    Case("export of no script", ["export", "r.json", "absent"], NO_READ, 3, err=r"\Awhatif: absent: No such file or directory\n\Z"),
    Case("serve refuses the recording before it reads a step", ["serve", "bad"], "refused 70 JSON\n", 1, stdin=CLOSED, files={"bad": "["}),
    Case("serve of no step", ["serve", "r.json"], ""),
    Case("serve of no step writes nothing", ["serve", "r.json"], "", stdout="full"),
    *[Case(f"serve on {told}", ["serve", "r.json"], "", 3, err=err, stdin=lines(OPEN), stdout=stdout) for told, stdout, err in UNWRITTEN],
    Case("a script whose steps are all refused is done", ["serve", "r.json"], "refused 71 Shape do\n", stdin="{}"),
]

# Recordings that are refused, and the line.
REFUSED = [
    ("no byte", "", "70 JSON"),
    ("a beginning alone", '{"stages":[', "70 JSON"),
    ("a byte order mark", "\ufeff" + R, "70 JSON"),
    ("bytes that are no UTF-8", R.encode().replace(b'"b"', b'"\xff"'), "70 JSON"),
    ("bytes that are no UTF-8 in a member that nobody reads", b'{"x":"\xff","stages":[]}', "70 JSON"),
    ("a lone surrogate", R.replace('"b"', '"\\ud800"'), "70 JSON"),
    ("a tab in a name", R.replace('"b"', '"b\t"'), "70 JSON"),
    ("two values", R + R, "70 JSON"),
    ("a comma too many", '{"stages":[],}', "70 JSON"),
    ("an array", "[]", "71 Shape recording"),
    ("null", "null", "71 Shape recording"),
    ("a third form", recording(form=3), "71 Shape form"),
    ("form null", recording(form=None), "71 Shape form"),
    ("form before wrap", recording(form=3, wrap=1), "71 Shape form"),
    ("another wrap", recording(wrap="other"), "71 Shape wrap"),
    ("no stages", "{}", "71 Shape stages"),
    ("stages null", '{"stages":null}', "71 Shape stages"),
    ("a stage that is no object", recording(5, {"name": 1}), "71 Shape stages"),
    ("stages in their order", recording({"name": 1}, 5), "71 Shape name"),
    ("no name", recording({"op": "manual"}), "71 Shape name"),
    ("no operation", recording({"name": "a"}), "71 Shape op"),
    ("an unknown operation", recording(stage("onErrorReturn")), "71 Shape op"),
    ("an operation that has no Async", recording(stage("copyAsync")), "71 Shape op"),
    ("completed without a value", recording(stage("completed")), "71 Shape value"),
    ("failed without an exception", recording(stage("failed")), "71 Shape throws"),
    ("an exception's name that is none", recording(stage("failed", throws="a b")), "71 Shape throws"),
    ("CompletionException as an exception", recording(stage("failed", throws="java.util.concurrent.CompletionException")), "71 Shape throws"),
    ("sources null", recording(stage("allOf", sources=None)), "71 Shape sources"),
    ("a source that is no name", recording(stage("allOf", sources=[1])), "71 Shape sources"),
    ("an inner stage that is no name", recording(stage("allOf", inner=[1])), "71 Shape inner"),
    ("created null", recording(stage("manual", created=None)), "71 Shape created"),
    ("takes null", recording(stage("manual", takes=None)), "71 Shape takes"),
    ("takes in form 2", recording(stage("async", takes=1, action=0), form=2), "71 Shape takes"),
    ("takes null in form 2", recording(stage("async", takes=None, action=0), form=2), "71 Shape takes"),
    ("queued below 0", recording(stage("async", queued=-1, action=0), form=2), "71 Shape queued"),
    ("runs below 0", recording(stage("async", runs=-1, action=0), form=2), "71 Shape runs"),
    ("an unknown expression", recording(stage("async", action=["nonsense"])), "71 Shape action"),
    ("a third argument", recording(stage("async", action=["arg", 2])), "71 Shape action"),
    ("an operand too many", recording(stage("async", action=["add", 1, 2, 3])), "71 Shape action"),
    ("a throw of no exception", recording(stage("async", action=["throw", ""])), "71 Shape action"),
    ("a pin of no outcome", recording(stage("manual", pinResult={})), "71 Shape pinResult"),
    ("a pin of two outcomes", recording(stage("manual", pinResult={"value": 1, "bare": None})), "71 Shape pinResult"),
    ("a pinned moment below 0", recording(stage("manual", pinMoment=-1)), "71 Shape pinMoment"),
    ("ends null", recording(stage("manual", ends=None)), "71 Shape ends"),
    ("an end without its moment", recording(stage("manual", ends=[{"do": "cancel"}])), "71 Shape ends"),
    ("an unknown end", recording(stage("manual", ends=[{"do": "stop", "at": 1}])), "71 Shape ends"),
    ("an end without its delay", recording(stage("manual", ends=[{"do": "orTimeout", "at": 1}])), "71 Shape ends"),
    ("all members before the first fault of the graph", recording(stage("manual", ""), stage("manual", 1)), "71 Shape name"),
    ("a name twice", recording(stage("manual"), stage("manual")), "11 NameTaken at 1"),
    ("a name twice in another writing", '{"stages":[{"name":"a","op":"manual"},{"name":"\\u0061","op":"manual"}]}', "11 NameTaken at 1"),
    ("the empty name", recording(stage("manual", "")), "12 BadName at 0"),
    ("a name that begins with -", recording(stage("manual"), stage("manual", "-x")), "12 BadName at 1"),
    ("a name of other letters", recording(stage("manual", "é")), "12 BadName at 0"),
    ("a source too few", recording(stage("thenApply", action=0)), "13 Arity at 0"),
    ("a source too many", recording(stage("manual"), stage("async", "b", sources=["a"], action=0)), "13 Arity at 1"),
    ("inner stages where none are picked", recording(stage("manual"), stage("copy", "b", sources=["a"], inner=["a"])), "13 Arity at 1"),
    ("an action missing", recording(stage("async")), "13 Arity at 0"),
    ("an action too many", recording(stage("manual", action=None)), "13 Arity at 0"),
    ("a source that no stage has", recording(stage("manual"), stage("copy", "b", sources=["zz"])), "14 NoSource at 1"),
    ("an inner stage that no stage has", recording(stage("manual"), stage("thenCompose", "b", sources=["a"], inner=["zz"], action=0)), "14 NoSource at 1"),
    ("created above the limit", recording(stage("manual", created=MOST_TICKS + 1)), "15 Limit at 0"),
    ("takes above the limit, of no action", recording(stage("manual", takes=MOST_TICKS + 1)), "15 Limit at 0"),
    ("queued above the limit", recording(stage("async", queued=MOST_TICKS + 1, action=0), form=2), "15 Limit at 0"),
    ("a pinned moment above the limit", recording(stage("manual", pinMoment=MOST_TICKS + 1)), "15 Limit at 0"),
    ("an end above the limit", recording(stage("manual", ends=[{"do": "cancel", "at": MOST_TICKS + 1}])), "15 Limit at 0"),
    ("a delay above the limit", recording(stage("manual", ends=[{"do": "orTimeout", "at": 2**64 - 1, "delay": 2**64 - 1}])), "15 Limit at 0"),
    ("an end before the stage is made", recording(stage("manual", created=5, ends=[{"do": "cancel", "at": 4}])), "16 EndBeforeCreated at 0"),
    ("a duration of no action", recording(stage("manual", takes=1)), "17 NoAction at 0"),
    ("a queue of no action", recording(stage("manual", queued=1), form=2), "17 NoAction at 0"),
    ("a stage that waits for itself", recording(stage("thenApply", sources=["a"], action=0)), "19 Cycle"),
    ("two stages that wait for each other", recording(stage("copy", sources=["b"]), stage("copy", "b", sources=["a"])), "19 Cycle"),
    ("a stage that may pick itself", recording(stage("completed", value=1), stage("thenCompose", "b", sources=["a"], inner=["b"], action=0)), "19 Cycle"),
    ("every fault of a stage before the cycle", recording(stage("copy", sources=["a"]), stage("manual", "b", takes=1)), "17 NoAction at 1"),
]

# Recordings that are taken, and the report.
TAKEN = [
    ("no stage", recording(), lines("version 0 parent - mode computed stages 0")),
    ("members that nobody reads", '{"x":[{}],"stages":[],"form":2,"wrap":"literal","stages":[]}', lines("version 0 parent - mode literal stages 0")),
    ("the last of two members of one name counts", '{"stages":5,"stages":[]}', lines("version 0 parent - mode computed stages 0")),
    (
        "a pending stage, one that waits for it, and a throw",
        recording(stage("manual", "m"), stage("thenApply", "n", sources=["m"], action=["throw", "X"]), stage("async", takes=3, action=["throw", "X"])),
        lines("version 0 parent - mode computed stages 3", "m manual rank 0 pending", "n thenApply rank 1 pending", "a async rank 0 wrapped:X at 3"),
    ),
    (
        "a throw in the literal mode",
        recording(stage("async", action=["throw", "X"]), stage("copy", "b", sources=["a"]), wrap="literal"),
        lines("version 0 parent - mode literal stages 2", "a async rank 0 bare:X at 0", "b copy rank 1 wrapped:X at 0"),
    ),
    (
        "names with Async are printed without it",
        recording(stage("supplyAsync", action=-7), stage("thenApplyAsync", "b", sources=["a"], action=["div", ["arg", 0], 2])),
        lines("version 0 parent - mode computed stages 2", "a async rank 0 value:-7 at 0", "b thenApply rank 1 value:-3 at 0"),
    ),
    (
        "a stage may wait for a later one",
        recording(stage("copy", "b", sources=["a"]), stage("completed", value=None, created=MOST_TICKS)),
        lines("version 0 parent - mode computed stages 2", f"b copy rank 1 value:null at {MOST_TICKS}", f"a completed rank 0 value:null at {MOST_TICKS}"),
    ),
    (
        "queued and runs of form 2; form 1 doesn't read them",
        recording(stage("async", queued=2, runs=3, action=4), form=2),
        lines("version 0 parent - mode computed stages 1", "a async rank 0 value:4 at 5"),
    ),
    ("queued in form 1 is not read", recording(stage("async", queued="x", action=4)), lines("version 0 parent - mode computed stages 1", "a async rank 0 value:4 at 0")),
    (
        "a timeout at 9 before the completion at 10",
        recording(stage("async", takes=10, action=1, ends=[{"do": "orTimeout", "at": 0, "delay": 9}])),
        lines("version 0 parent - mode computed stages 1", "a async rank 0 bare:java.util.concurrent.TimeoutException at 9"),
    ),
    (
        "a completion at 10 before the timeout at 10",
        recording(stage("async", takes=10, action=1, ends=[{"do": "orTimeout", "at": 0, "delay": 10}])),
        lines("version 0 parent - mode computed stages 1", "a async rank 0 value:1 at 10"),
    ),
    (
        "the least long divided by -1, and by 0",
        recording(stage("async", action=["div", -(2**63), -1]), stage("async", "b", action=["div", 1, 0])),
        lines("version 0 parent - mode computed stages 2", f"a async rank 0 value:{-2**63} at 0", "b async rank 0 wrapped:java.lang.ArithmeticException at 0"),
    ),
]


def deep(depth):
    """An expression of that depth."""
    made = 0
    for _ in range(depth - 1):
        made = ["add", made, 0]
    return made


def on_a(do, **members):
    return step(do, session=1, base=0, stage="a", **members)


# Scripts about R: steps, and the answers.
SCRIPTS = [
    (
        "each report of the run and of one with a failure",
        [
            OPEN,
            step("pinResult", session=1, stage="a", result={"bare": "X"}),
            *[step("report", version=version, what=what) for version in (0, 1) for what in ("all", "changes", "drift", "times")],
            *[step("report", version=version, what=what, stage="b") for version in (0, 1) for what in ("one", "blame")],
        ],
        "opened 1 at 0\ncommitted 1\n" + FIRST_RUN + lines(
            "changes of version 0 from - touched 0",
            "drift of version 0 from - moved 0",
            "times of version 0 stages 2",
            "a start 0 queued 0 runs 10",
            "b start 10 queued 0 runs 5",
            "version 1 parent 0 mode computed stages 2",
            "a async rank 0 bare:X at 10",
            "b thenApply rank 1 wrapped:X at 10",
            "changes of version 1 from 0 touched 2",
            "a value:4 at 10 -> bare:X at 10",
            "b value:5 at 15 -> wrapped:X at 10",
            "drift of version 1 from 0 moved 1",
            "b earlier 5",
            "times of version 1 stages 2",
            "a start - queued 0 runs 10",
            "b start - queued 0 runs 5",
            "b thenApply rank 1 value:5 at 15",
            "sources a",
            "inner -",
            "dependents -",
            "join returns 5",
            "blame -",
            "b thenApply rank 1 wrapped:X at 10",
            "sources a",
            "inner -",
            "dependents -",
            "join throws java.util.concurrent.CompletionException cause X",
            "blame b a",
        ),
    ),
    (
        "each edit",
        [
            OPEN,
            step("pinMoment", session=1, stage="a", at=3),
            step("pinMoment", session=1, stage="a", at=None),
            step("pinResult", session=1, stage="a", result={"value": 7}),
            step("pinResult", session=1, stage="a", result=None),
            step("setTakes", session=1, stage="a", takes=20),
            step("setTimes", session=1, stage="a", queued=1, runs=2),
            step("setAction", session=1, stage="a", action=6),
            step("setEnds", session=1, stage="b", ends=[{"do": "cancel", "at": 4}]),
            step("add", session=1, new=stage("thenRun", "c", sources=["b"], takes=7, action=0)),
            step("rewire", session=1, stage="c", sources=["a"], inner=[]),
            step("remove", session=1, stage="b"),
            step("edits", session=1, edits=[{"do": "add", "new": stage("manual", "b")}, {"do": "rewire", "stage": "c", "sources": ["b"], "inner": []}]),
            step("report", version=12, what="all"),
            step("report", version=12, what="changes"),
            step("report", version=12, what="one", stage="b"),
        ],
        lines("opened 1 at 0", *[f"committed {it}" for it in range(1, 13)]) + lines(
            "version 12 parent 11 mode computed stages 3",
            "a async rank 0 value:6 at 3",
            "c thenRun rank 1 pending",
            "b manual rank 0 pending",
            "changes of version 12 from 11 touched 2",
            "b absent -> pending",
            "c value:null at 10 -> pending",
            "b manual rank 0 pending",
            "sources -",
            "inner -",
            "dependents c",
            "join waits",
        ),
    ),
    (
        "a base that has moved, and a step back",
        [
            OPEN,
            step("head", session=1),
            step("head", session=1),
            on_a("setTakes", takes=20),
            step("setTakes", session=1, base=0, stage="b", takes=1),
            step("undo", session=1),
            step("setTakes", session=1, base=0, stage="b", takes=1),
            step("report", version=2, what="all"),
        ],
        lines("opened 1 at 0", "head 0", "head 0", "committed 1", "refused 53 Moved 1", "undone 0", "committed 2")
        + lines("version 2 parent 0 mode computed stages 2", "a async rank 0 value:4 at 10", "b thenApply rank 1 value:5 at 11"),
    ),
    (
        "refusals of sessions",
        [
            *[step("open", session=2, version=0), step("undo", session=2), step("close", session=2), step("undo", session=2)],
            *[step("open", session=it, version=0) for it in (2, 2, 0, 65536)],
            step("open", session=3, version=9),
            step("head", session=0),
            step("close", session=65536),
            step("setTakes", session=4, stage="zz", takes=1),
            step("setTakes", session=4, base=0, stage="zz", takes=1),
            step("setTakes", session=4, base=0, stage="a", takes=1),
            step("setTakes", session=4, base=5, stage="zz", takes=1),
            step("report", version=5, what="all"),
            step("report", version=5, what="one", stage="zz"),
            step("report", version=0, what="one", stage="zz"),
            step("report", version=0, what="blame", stage="zz"),
        ],
        lines("opened 2 at 0", "refused 54 AtBottom", "closed 2", "refused 51 NoSession")
        + lines("opened 2 at 0", "refused 50 SessionOpen", "refused 57 BadSession", "refused 57 BadSession", "refused 52 NoVersion")
        + lines("refused 51 NoSession", "refused 51 NoSession", "refused 51 NoSession", "refused 10 NoStage", "refused 51 NoSession", "refused 52 NoVersion")
        + lines("refused 52 NoVersion", "refused 52 NoVersion", "refused 10 NoStage", "refused 10 NoStage"),
    ),
    (
        "refusals of edits",
        [
            OPEN,
            on_a("rewire", sources=["a"], inner=[]),
            step("rewire", session=1, base=0, stage="b", sources=[], inner=[]),
            step("rewire", session=1, base=0, stage="b", sources=["zz"], inner=[]),
            step("rewire", session=1, base=0, stage="b", sources=["b"], inner=[]),
            step("remove", session=1, base=0, stage="zz"),
            on_a("remove"),
            *[step("add", session=1, base=0, new=it) for it in (stage("manual"), stage("manual", ""), stage("async", "c", action=deep(33)))],
            step("add", session=1, base=0, new=stage("manual", "c", created=5, ends=[{"do": "cancel", "at": 4}])),
            step("add", session=1, base=0, new=stage("manual", "c", takes=1)),
            step("add", session=1, base=0, new=stage("copy", "c", sources=["c"])),
            on_a("setTakes", takes=MOST_TICKS + 1),
            on_a("setTakes", takes=MOST_TICKS),
            step("add", session=1, new=stage("manual", "m")),
            step("setTakes", session=1, stage="m", takes=0),
            step("setAction", session=1, stage="m", action=0),
        ],
        lines("opened 1 at 0", "refused 13 Arity", "refused 13 Arity", "refused 14 NoSource", "refused 19 Cycle", "refused 10 NoStage", "refused 18 InUse b")
        + lines("refused 11 NameTaken", "refused 12 BadName", "refused 20 Expr", "refused 16 EndBeforeCreated", "refused 17 NoAction", "refused 14 NoSource")
        + lines("refused 15 Limit", "committed 1", "committed 2", "refused 17 NoAction", "refused 17 NoAction"),
    ),
    (
        "refusals of edits in a list tell the edit's index",
        [
            OPEN,
            *[
                step("edits", session=1, base=0, edits=it)
                for it in (
                    [],
                    [{"do": "setTakes", "stage": "a", "takes": 1}, {"do": "setTakes", "stage": "zz", "takes": 1}],
                    [{"do": "add", "new": stage("copy", "c", sources=["b"])}, {"do": "remove", "stage": "b"}],
                    [{"do": "rewire", "stage": "b", "sources": ["b"], "inner": []}],
                    [{"do": "setAction", "stage": "a", "action": deep(33)}],
                    [{"do": "add", "new": stage("manual", "t")}, {"do": "remove", "stage": "t"}],
                )
            ],
            step("report", version=0, what="one", stage="a"),
            step("report", version=1, what="changes"),
        ],
        lines("opened 1 at 0", "refused 21 ListSize", "refused 10 NoStage in 1", "refused 18 InUse c in 1", "refused 19 Cycle", "refused 20 Expr in 0", "committed 1")
        + lines("a async rank 0 value:4 at 10", "sources -", "inner -", "dependents b", "join returns 4", "changes of version 1 from 0 touched 0"),
    ),
    (
        "lines that are no step",
        ["{}", '{"do":"head"}', "[", "", "\r", "5", '{"do":"nonsense"}', '{"do":"head","session":-1}', "\ufeff{}", " ", "{}\r", '{"do":1,"do":"head","session":1}'],
        lines("refused 71 Shape do", "refused 71 Shape session", "refused 70 JSON", "refused 71 Shape step", "refused 71 Shape do", "refused 71 Shape session")
        + lines("refused 70 JSON", "refused 70 JSON", "refused 71 Shape do", "refused 51 NoSession"),
    ),
    (
        "steps with a member missing or wrong",
        [
            step("open", session=1),
            step("report", version=0),
            step("report", version=0, what="nonsense"),
            step("report", version=0, what="one"),
            step("setTakes", session=1, base=None, stage="a", takes=1),
            step("setTakes", session=1, takes=1),
            step("setTakes", session=1, stage="a"),
            step("setTimes", session=1, stage="a", queued=1),
            step("pinResult", session=1, stage="a"),
            step("pinMoment", session=1, stage="a"),
            step("setAction", session=1, stage="a"),
            step("setEnds", session=1, stage="a"),
            step("add", session=1),
            step("add", session=1, new=5),
            step("add", session=1, new={"name": "c"}),
            step("add", session=1, new=stage("async", "c", takes=1, queued=1, action=0)),
            step("rewire", session=1, stage="a", sources=[]),
            step("edits", session=1),
            step("edits", session=1, edits=[5]),
            step("edits", session=1, edits=[{"do": "head"}]),
            step("edits", session=1, edits=[{"do": "remove"}]),
        ],
        lines(*[f"refused 71 Shape {it}" for it in "version what what stage base stage takes runs result at action ends new new op takes inner edits edits do stage".split()]),
    ),
]


def slowly(text, pause=0.001):
    """The bytes one by one, each with time for the program to read it."""
    for it in text.encode():
        yield bytes([it])
        time.sleep(pause)


# Several scripts at once.
SESSION_1 = lines(*SCRIPTS[2][1][:7])
SESSION_1_ANSWERS = lines(*SCRIPTS[2][2].splitlines()[:7])
MANY = [
    Case("many: help is printed", ["many", "--help"], re.compile(rb"(?s).*FILE.*")),
    Case("many: one script", ["many", "r.json", "s"], lines("script 1") + SESSION_1_ANSWERS + lines("log 7"), files={"s": SESSION_1}),
    Case("many: an empty script", ["many", "r.json", "s"], lines("script 1", "log 0"), files={"s": ""}),
    Case(
        "many: scripts in the order of the command line",
        ["many", "--workers", "16", "r.json", "s2", "s1"],
        lines("script 1", "opened 2 at 0", "head 0", "script 2", "opened 3 at 0") + FIRST_RUN + lines("refused 71 Shape do", "log 3"),
        files={
            "s1": lines(step("open", session=3, version=0), step("report", version=0, what="all"), "{}"),
            "s2": lines(step("open", session=2, version=0), step("head", session=2)),
        },
    ),
    Case(
        "many: an edit without a base has two entries, a report none",
        ["many", "r.json", "s"],
        lines("script 1", "opened 1 at 0", "committed 1") + lines("changes of version 1 from 0 touched 1", "a value:4 at 10 -> value:4 at 10", "log 3"),
        files={"s": lines(OPEN, step("pinResult", session=1, stage="a", result={"value": 4}), step("report", version=1, what="changes"))},
    ),
    Case("many: a refused edit has no entry", ["many", "r.json", "s"], lines("script 1", "opened 1 at 0", "refused 10 NoStage", "log 1"), files={"s": lines(OPEN, step("remove", session=1, base=0, stage="zz"))}),
    Case("many: 64 scripts", ["many", "r.json", *["s"] * 64], lines(*[f"script {it}" for it in range(1, 65)], "log 0"), files={"s": ""}),
    Case("many: 65 scripts", ["many", "r.json", *["s"] * 65], "", 2, err=r"\S", files={"s": ""}),
    Case("many: no script", ["many", "r.json"], "", 2, err=r"\S"),
    Case("many: no file", ["many"], "", 2, err=r"\S"),
    *[Case(f"many: --workers {it!r}", ["many", "--workers", it, "r.json", "s"], "", 2, err=r"\S", files={"s": ""}) for it in ("0", "17", "x", "", "-1", "1.5", "4294967297")],
    Case("many: --workers without a number", ["many", "r.json", "s", "--workers"], "", 2, err=r"\S", files={"s": ""}),
    Case("many: the command line before the file", ["many", "--workers", "0", "absent", "s"], "", 2, err=r"\S"),
    Case("many: a name that is no text", ["many", "r.json", b"\xff"], "", 2, err=r"\S"),
    Case("many: no recording", ["many", "absent", "s"], NO_READ, 3, files={"s": ""}),
    Case("many: the recording before the scripts", ["many", "bad", "absent"], "refused 70 JSON\n", 1, files={"bad": "["}),
    Case("many: no such script", ["many", "r.json", "s", "absent"], NO_READ, 3, err=r"\Awhatif: absent: No such file or directory\n\Z", files={"s": SESSION_1}),
    Case("many: a script that may not be read", ["many", "r.json", "shut"], NO_READ, 3, files={"shut": Shut("{}")}),
    Case("many: a script that opens and can't be read", ["many", "r.json", "s", "/proc/self/mem"], NO_READ, 3, err=r"\Awhatif: /proc/self/mem: Input/output error\n\Z", files={"s": "{}"}),
    Case("many: a folder as a script", ["many", "r.json", "s", "folder", "s"], NO_READ, 3, err=r"\Awhatif: folder: Is a directory\n\Z", files={"folder": None, "s": "{}"}),
    Case("many: a folder as a script, quietly", ["many", "--quiet", "r.json", "folder"], NO_READ, 3, err=r"\A\Z", files={"folder": None}),
    *[Case(f"many: on {told}", ["many", "r.json", "s"], "", 3, err=err, stdout=stdout, files={"s": OPEN}) for told, stdout, err in UNWRITTEN],
    *[
        Case(
            f"many: no thread can be started, {it} workers",
            ["many", "--workers", str(it), "r.json", "s"],
            re.compile((lines("script 1") + SESSION_1_ANSWERS + lines("log 7") + "|refused 35 NoThread\n").encode()),
            (0, 4),
            files={"s": SESSION_1},
            shell="ulimit -u 0;",
            nobody=True,
        )
        for it in (1, 4)
    ],
    Case("many: needs no standard input", ["many", "r.json", "s"], lines("script 1", "refused 71 Shape do", "log 0"), stdin=CLOSED, files={"s": "{}"}),
]


def with_r(case):
    """The case, with the recording R beside its own files."""
    return dataclasses.replace(case, files={"r.json": R, **case.files})


def cases(has_many):
    made = [*COMMAND_LINES, *FILES]
    made += [Case(f"recording refused: {name}", ["report"], f"refused {line}\n", 1, stdin=given) for name, given, line in REFUSED]
    made += [Case(f"recording: {name}", ["report"], wanted, stdin=given) for name, given, wanted in TAKEN]
    made += [Case(f"script: {name}", ["serve", "r.json"], wanted, stdin=lines(*steps)) for name, steps, wanted in SCRIPTS]
    made += [
        Case(f"script a byte at a time: {name}", ["serve", "r.json"], wanted, stdin=Pieces(lambda steps=steps: slowly(lines(*steps))))
        for name, steps, wanted in SCRIPTS[2:3]
    ]
    made += MANY if has_many else []
    return [with_r(it) for it in made]
