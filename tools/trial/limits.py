"""The ends of the limits, and input made to break the program."""
import json
import re

from .cases import FIRST_RUN, MOST_TICKS, NO_READ, OPEN, R, deep, lines, recording, stage, step, with_r
from .run import Case, File, Pieces, Sparse

MOST_STAGES = 65_536
MOST_LINE = 65_536
MOST_RECORDING = 67_108_864
MOST_SCRIPT = 2**30


def head(stages):
    return f"version 0 parent - mode computed stages {stages}"


def one(state, op="async"):
    """The report of one stage `a`."""
    return lines(head(1), f"a {op} rank 0 {state}")


def wide(nodes):
    """An expression of so many nodes, of little depth, that gives 0."""
    if nodes < 3:
        return 0 if nodes == 1 else ["isnull", 0]
    left = (nodes - 1) // 2
    return ["add", wide(left), wide(nodes - 1 - left)]


def nested(depth):
    """A JSON text of so many brackets about a 0."""
    return '["isnull",' * depth + "0" + "]" * depth


def async_with(action_text):
    return '{"stages":[{"name":"a","op":"async","action":%s}]}' % action_text


# Recordings of one stage or a few: refused, with the line, or taken, with the report.
MANY_SOURCES = [stage("completed", "z", value=1), stage("allOf", sources=["z"] * 1024)]
RECORDINGS = [
    ("an action nested 128 deep", async_with(nested(128)), "70 JSON"),
    ("a 128th open bracket", async_with(nested(125)), "70 JSON"),
    ("127 open brackets", async_with(nested(124)), "20 Expr at 0"),
    ("a 128th open bracket in a member that nobody reads", '{"stages":[],"x":%s}' % ("[" * 127 + "]" * 127), "70 JSON"),
    ("a million open brackets", "[" * 1_000_000, "70 JSON"),
    ("created -1", recording(stage("async", created=-1, action=0)), "71 Shape created"),
    ("created -0", '{"stages":[{"name":"a","op":"manual","created":-0}]}', "71 Shape created"),
    ("created 2^64", recording(stage("manual", created=2**64)), "71 Shape created"),
    ("created 2^64 - 1", recording(stage("manual", created=2**64 - 1)), "15 Limit at 0"),
    ("takes 1.0", recording(stage("async", takes=1.0, action=0)), "71 Shape takes"),
    ("takes 1e3", '{"stages":[{"name":"a","op":"async","takes":1e3,"action":0}]}', "71 Shape takes"),
    ("an action of 2^63", recording(stage("async", action=2**63)), "71 Shape action"),
    ("an action of -2^63 - 1", recording(stage("async", action=-(2**63) - 1)), "71 Shape action"),
    ("a number of 300 digits that nobody reads", '{"stages":[],"x":%s}' % ("9" * 300), lines(head(0))),
    ("an action of 2^63 - 1", recording(stage("async", action=2**63 - 1)), one(f"value:{2**63 - 1} at 0")),
    ("an action of -2^63", recording(stage("async", action=-(2**63))), one(f"value:{-(2**63)} at 0")),
    ("an operand of 2^63", recording(stage("async", action=["add", 2**63, 1])), "71 Shape action"),
    ("256 nodes", recording(stage("async", action=wide(256))), one("value:0 at 0")),
    ("257 nodes", recording(stage("async", action=wide(257))), "20 Expr at 0"),
    ("depth 32", recording(stage("async", action=deep(32))), one("value:0 at 0")),
    ("depth 33", recording(stage("async", action=deep(33))), "20 Expr at 0"),
    ("a name of 64 letters", recording(stage("manual", "n" * 64)), lines(head(1), f"{'n' * 64} manual rank 0 pending")),
    ("a name of 65 letters", recording(stage("manual", "n" * 65)), "12 BadName at 0"),
    ("a name of a million letters", recording(stage("manual", "n" * 1_000_000)), "12 BadName at 0"),
    ("an exception of 128 letters", recording(stage("failed", throws="X" * 128)), one(f"bare:{'X' * 128} at 0", "failed")),
    ("an exception of 129 letters", recording(stage("failed", throws="X" * 129)), "71 Shape throws"),
    ("created 2^40", recording(stage("async", created=MOST_TICKS, action=0)), one(f"value:0 at {MOST_TICKS}")),
    ("created 2^40 + 1", recording(stage("async", created=MOST_TICKS + 1, action=0)), "15 Limit at 0"),
    ("created, queued and runs 2^40", recording(stage("async", created=MOST_TICKS, queued=MOST_TICKS, runs=MOST_TICKS, action=0), form=2), one(f"value:0 at {3 * MOST_TICKS}")),
    ("16 ends", recording(stage("manual", ends=[{"do": "cancel", "at": 9 - it % 2} for it in range(16)])), one("bare:java.util.concurrent.CancellationException at 8", "manual")),
    ("17 ends", recording(stage("manual", ends=[{"do": "cancel", "at": 9}] * 17)), "15 Limit at 0"),
    ("allOf of 1,024 sources", recording(*MANY_SOURCES), lines(head(2), "z completed rank 0 value:1 at 0", "a allOf rank 1 value:null at 0")),
    ("allOf of 1,025 sources", recording(MANY_SOURCES[0], stage("allOf", sources=["z"] * 1025)), "15 Limit at 1"),
    ("allOf of 1,025 sources, of which one is no stage", recording(MANY_SOURCES[0], stage("allOf", sources=["z"] * 1024 + ["zz"])), "14 NoSource at 1"),
    ("1,024 inner stages", recording(MANY_SOURCES[0], stage("thenCompose", sources=["z"], inner=["z"] * 1024, action=1023)), lines(head(2), "z completed rank 0 value:1 at 0", "a thenCompose rank 1 value:1 at 0")),
    ("1,025 inner stages", recording(MANY_SOURCES[0], stage("thenCompose", sources=["z"], inner=["z"] * 1025, action=1)), "15 Limit at 1"),
]


def chain_of(stages, top=None, **of_root):
    """A chain; or a fan, where `top` is the one stage that the others wait for."""
    root = {"name": "s0", "op": "async", "takes": 10, "action": 4, **of_root}
    for_each = (stage("thenApply", f"s{it}", sources=[f"s{it - 1 if top is None else top}"], takes=1, action=["add", ["arg", 0], 1]) for it in range(1, stages))
    return recording(root, *for_each)


def chain_report(stages):
    return lines(head(stages), "s0 async rank 0 value:4 at 10", *[f"s{it} thenApply rank {it} value:{4 + it} at {10 + it}" for it in range(1, stages)])


def fan_report(stages):
    return lines(head(stages), "s0 async rank 0 value:4 at 10", *[f"s{it} thenApply rank 1 value:5 at 11" for it in range(1, stages)])


def cycle_of(stages):
    return recording(*[stage("copy", f"s{it}", sources=[f"s{it - 1 if it else stages - 1}"]) for it in range(stages)])


def longest(stages):
    """A chain in which each action is queued and runs as long as it may, from the latest creation on."""
    root = stage("async", "s0", created=MOST_TICKS, queued=MOST_TICKS, runs=MOST_TICKS, action=0)
    rest = [stage("thenRun", f"s{it}", sources=[f"s{it - 1}"], queued=MOST_TICKS, runs=MOST_TICKS, action=0) for it in range(1, stages)]
    return recording(root, *rest, form=2)


def longest_report(stages):
    rest = [f"s{it} thenRun rank {it} value:null at {(3 + 2 * it) * MOST_TICKS}" for it in range(1, stages)]
    return lines(head(stages), f"s0 async rank 0 value:0 at {3 * MOST_TICKS}", *rest)


def each_touched():
    """A failure at the beginning of a chain as long as may be, its blame at the end, and what can't be added."""
    last = MOST_STAGES - 1
    steps = [
        OPEN,
        step("pinResult", session=1, stage="s0", result={"bare": "X"}),
        step("report", version=1, what="blame", stage=f"s{last}"),
        step("report", version=1, what="changes"),
        step("rewire", session=1, base=1, stage="s1", sources=[f"s{last}"], inner=[]),
        step("add", session=1, base=1, new=stage("manual", "more")),
        step("remove", session=1, base=1, stage=f"s{last}"),
        step("add", session=1, base=2, new=stage("manual", "more")),
    ]
    return lines(*steps)


def each_touched_answers():
    last = MOST_STAGES - 1
    blame = "blame " + " ".join(f"s{it}" for it in range(last, -1, -1))
    changes = [f"s{it} value:{4 + it} at {10 + it} -> wrapped:X at 10" for it in range(1, MOST_STAGES)]
    touched = f"changes of version 1 from 0 touched {MOST_STAGES}"
    refusals = ["refused 19 Cycle", "refused 15 Limit", "committed 2", "refused 15 Limit"]
    return lines("opened 1 at 0", "committed 1", blame, touched, "s0 value:4 at 10 -> bare:X at 10", *changes, *refusals)


def named(stages):
    """Stages whose names are as long as may be, and differ at their ends alone."""
    return recording(*[stage("manual", f"{it:n>64}") for it in range(stages)])


def named_report(stages):
    return lines(head(stages), *[f"{it:n>64} manual rank 0 pending" for it in range(stages)])


def woven(stages):
    """Stages that each wait for as many as may be: those just before it."""
    return recording(stage("completed", "s0", value=1), *[stage("allOf", f"s{it}", sources=[f"s{of}" for of in range(max(0, it - 1024), it)]) for it in range(1, stages)])


def woven_report(stages):
    return lines(head(stages), "s0 completed rank 0 value:1 at 0", *[f"s{it} allOf rank {it} value:null at 0" for it in range(1, stages)])


def filled(text, size):
    return text + " " * (size - len(text))


# Large recordings.
LARGE = [
    ("a chain of 65,536 stages", lambda: chain_of(MOST_STAGES), lambda: chain_report(MOST_STAGES), 0),
    ("a fan of 65,536 stages", lambda: chain_of(MOST_STAGES, 0), lambda: fan_report(MOST_STAGES), 0),
    ("a cycle of 65,536 stages", lambda: cycle_of(MOST_STAGES), "refused 19 Cycle\n", 1),
    ("65,537 stages", lambda: chain_of(MOST_STAGES + 1), "refused 15 Limit at 65536\n", 1),
    ("a cycle of 65,537 stages", lambda: cycle_of(MOST_STAGES + 1), "refused 15 Limit at 65536\n", 1),
    ("65,536 stages of one name", lambda: recording(*[stage("manual")] * MOST_STAGES), "refused 11 NameTaken at 1\n", 1),
    ("65,536 names of 64 letters", lambda: named(MOST_STAGES), lambda: named_report(MOST_STAGES), 0),
    ("1,280 stages of up to 1,024 sources", lambda: woven(1280), lambda: woven_report(1280), 0),
    ("the latest moments that there are", lambda: longest(MOST_STAGES), lambda: longest_report(MOST_STAGES), 0),
    ("67,108,864 bytes", lambda: filled(R, MOST_RECORDING), FIRST_RUN, 0),
    ("67,108,865 bytes", lambda: filled(R, MOST_RECORDING + 1), "refused 72 TooLong\n", 1),
]

TOO_LONG = "refused 72 TooLong\n"
NO_DO = "refused 71 Shape do\n"


def sessions():
    numbers = [*range(1, 1025), 1025, 1025]
    numbers[-2:] = [65535, 0]
    steps = [step("open", session=it, version=0) for it in numbers]
    steps += [step("close", session=1), step("open", session=65535, version=0), step("head", session=1), step("open", session=1, version=0)]
    answers = [f"opened {it} at 0" for it in range(1, 1025)] + ["refused 58 TooManySessions", "refused 57 BadSession"]
    answers += ["closed 1", "opened 65535 at 0", "refused 51 NoSession", "refused 58 TooManySessions"]
    return lines(*steps), lines(*answers)


def edits_of(count):
    return step("edits", session=1, base=0, edits=[{"do": "setTakes", "stage": "a", "takes": it} for it in range(count)])


def versions():
    """As many versions as may be, and one more."""
    return lines(OPEN, *[step("pinMoment", session=1, base=it, stage="b", at=it) for it in range(MOST_STAGES)], step("head", session=1))


def versions_answers():
    return lines("opened 1 at 0", *[f"committed {it}" for it in range(1, MOST_STAGES)], "refused 55 Full", f"head {MOST_STAGES - 1}")


# Edits at the ends of the limits and past them, and what is answered to each.
AT_LIMITS = [
    (step("add", session=1, new=stage("allOf", "c", sources=["a"] * 1024)), "committed 1"),
    (step("rewire", session=1, stage="c", sources=["a"] * 1025, inner=[]), "refused 15 Limit"),
    (step("rewire", session=1, stage="c", sources=["b"] * 1024, inner=[]), "committed 2"),
    (step("setTakes", session=1, stage="a", takes=MOST_TICKS), "committed 3"),
    (step("setTakes", session=1, stage="a", takes=MOST_TICKS + 1), "refused 15 Limit"),
    (step("pinMoment", session=1, stage="a", at=MOST_TICKS), "committed 4"),
    (step("pinMoment", session=1, stage="a", at=MOST_TICKS + 1), "refused 15 Limit"),
    (step("setAction", session=1, stage="a", action=deep(32)), "committed 5"),
    (step("setAction", session=1, stage="a", action=deep(33)), "refused 20 Expr"),
    (step("setAction", session=1, stage="a", action=wide(256)), "committed 6"),
    (step("setAction", session=1, stage="a", action=wide(257)), "refused 20 Expr"),
    (step("setEnds", session=1, stage="a", ends=[{"do": "cancel", "at": 9}] * 16), "committed 7"),
    (step("setEnds", session=1, stage="a", ends=[{"do": "cancel", "at": 9}] * 17), "refused 15 Limit"),
    (step("add", session=1, new=stage("manual", "n" * 64)), "committed 8"),
    (step("add", session=1, new=stage("manual", "n" * 65)), "refused 12 BadName"),
    (step("setTakes", session=1, stage="n" * 65, takes=1), "refused 10 NoStage"),
    (step("setTakes", session=1, stage="a", takes=2**64 - 1), "refused 15 Limit"),
    (step("setTakes", session=1, stage="a", takes=2**64), "refused 71 Shape takes"),
    (step("setAction", session=1, stage="a", action=2**63), "refused 71 Shape action"),
    (step("head", session=1), "head 8"),
]

# Scripts about R.
SCRIPTS = [
    ("a line of 65,536 bytes", filled("{}", MOST_LINE) + "\n{}\n", NO_DO * 2),
    ("a line of 65,537 bytes", filled("{}", MOST_LINE + 1) + "\n{}\n", TOO_LONG + NO_DO),
    ("a step of 65,536 bytes", filled(OPEN, MOST_LINE), "opened 1 at 0\n"),
    ("a step of 65,537 bytes", filled(OPEN, MOST_LINE + 1), TOO_LONG),
    ("a last line of 65,536 bytes", filled("{}", MOST_LINE), NO_DO),
    ("a last line of 65,537 bytes", filled("{}", MOST_LINE + 1), TOO_LONG),
    ("a line of 65,536 bytes with a byte 13", filled("{}", MOST_LINE - 1) + "\r\n", NO_DO),
    ("a line of 65,536 bytes, and a byte 13", filled("{}", MOST_LINE) + "\r\n", TOO_LONG),
    ("a last line of 65,536 bytes, and a byte 13", filled("{}", MOST_LINE) + "\r", TOO_LONG),
    ("a last line of byte 13 alone", "{}\n\r", NO_DO),
    ("lines of byte 0", "\0\n\0", "refused 70 JSON\n" * 2),
    ("a line of 65,537 bytes that are no text", b"\xff" * (MOST_LINE + 1) + b"\n{}", TOO_LONG + NO_DO),
    ("a line of 65,536 bytes that are no text", b"\xff" * MOST_LINE + b"\n{}", "refused 70 JSON\n" + NO_DO),
    ("two lines of 65,537 letters", ("x" * (MOST_LINE + 1) + "\n") * 2, TOO_LONG * 2),
    ("a line of a million bytes", "x" * 1_000_000 + "\n{}", TOO_LONG + NO_DO),
    ("a hundred thousand empty lines", "\n\r\n" * 50_000 + "{}", NO_DO),
    ("session 2^32", step("open", session=2**32, version=0), "refused 71 Shape session\n"),
    ("session 2^32 - 1", step("open", session=2**32 - 1, version=0), "refused 57 BadSession\n"),
    ("version 2^32", step("open", session=1, version=2**32), "refused 71 Shape version\n"),
    ("base 2^32", step("remove", session=1, base=2**32, stage="a"), "refused 71 Shape base\n"),
    ("open of 65536", step("open", session=65536, version=0), "refused 57 BadSession\n"),
    ("open of 65535", step("open", session=65535, version=0), "opened 65535 at 0\n"),
    ("1,024 sessions and one more", *sessions()),
    ("64 edits", lines(OPEN, edits_of(64)), lines("opened 1 at 0", "committed 1")),
    ("65 edits", lines(OPEN, edits_of(65)), lines("opened 1 at 0", "refused 21 ListSize")),
    ("1,025 sources", lines(OPEN, step("add", session=1, new=stage("allOf", "c", sources=["a"] * 1025))), lines("opened 1 at 0", "refused 15 Limit")),
    ("edits at the ends of the limits", lines(OPEN, *[it for it, _ in AT_LIMITS]), lines("opened 1 at 0", *[it for _, it in AT_LIMITS])),
    ("a step nested 128 deep", '{"x":' + "[" * 127 + "]" * 127 + "}", "refused 70 JSON\n"),
    ("a step nested 127 deep", '{"x":' + "[" * 126 + "]" * 126 + "}", NO_DO),
]

MANY_LINES = 10_000_000


# A script of 2^30 bytes that are lines: each is of blanks, which are no JSON.
BLANKS = b" " * (MOST_LINE - 1) + b"\n"
ALL_LINES = MOST_SCRIPT // MOST_LINE


def lines_of_blanks(last):
    """All of its lines, the last of which is this."""
    yield from (BLANKS * 16 for _ in range(ALL_LINES // 16 - 1))
    yield BLANKS * 15 + last


def endless(line):
    while True:
        yield line * 20


def long_cases():
    """Those that take long, or much of the disk. Without an end there is one refusal for the line that doesn't end, or none."""
    constant = "ulimit -v 65536;"
    fault = re.compile(rb"(refused 72 TooLong\n)?refused 41 ReadFault\n")
    most_refused = re.compile(rb"(refused 70 JSON\n){%d,%d}refused 41 ReadFault\n" % (ALL_LINES - 17, ALL_LINES))
    serve = ["serve", "r.json"]
    return [
        Case("limit: a script of 2^30 bytes", serve, fault, 3, err=r"(?m)^whatif: standard input: it has more than 1073741823 bytes$", stdin=File("script"), files={"script": Sparse(MOST_SCRIPT)}, shell=constant, seconds=120),
        Case("limit: a script of 2^30 - 1 bytes", serve, TOO_LONG, stdin=File("script"), files={"script": Sparse(MOST_SCRIPT - 1)}, shell=constant, seconds=120),
        Case("limit: a line that never ends", serve, fault, 3, stdin=File("/dev/zero"), shell=constant, seconds=120),
        Case("limit: lines of 2^30 - 1 bytes together", serve, "refused 70 JSON\n" * ALL_LINES, stdin=Pieces(lambda: lines_of_blanks(BLANKS[:-1])), shell=constant, seconds=240),
        Case("limit: lines of 2^30 bytes together", serve, most_refused, 3, stdin=Pieces(lambda: lines_of_blanks(BLANKS)), shell=constant, seconds=240),
        Case("limit: empty lines that never end", serve, NO_READ, 3, stdin=Pieces(lambda: endless(b"\n" * 3000)), shell=constant, seconds=240),
        Case("limit: lines that never end", serve, re.compile(rb"(refused 70 JSON\n){17000,17895}refused 41 ReadFault\n"), 3, stdin=Pieces(lambda: endless(b"x" * 60_000 + b"\n")), shell=constant, seconds=240),
        Case("limit: 10 million refused lines in constant memory", serve, NO_DO.encode() * MANY_LINES, stdin=lambda: b"{}\n" * MANY_LINES, shell=constant, seconds=240),
    ]


def with_byte(text, at, byte):
    """The text with this byte in place of the one that stands there."""
    return text[:at].encode() + bytes([byte]) + text[at + 1 :].encode()


def limits(is_long):
    made = [Case(f"limit: the first {it} bytes of a recording", ["report"], "refused 70 JSON\n", 1, stdin=R[:it]) for it in range(len(R))]
    for byte in (0, 255):
        made += [Case(f"limit: byte {byte} in place of byte {it} of a recording", ["report"], "refused 70 JSON\n", 1, stdin=with_byte(R, it, byte)) for it in range(len(R))]
    for name, given, wanted in RECORDINGS:
        refused = not wanted.startswith("version")
        made.append(Case(f"limit: {name}", ["report"], f"refused {wanted}\n" if refused else wanted, int(refused), stdin=given))
    made += [Case(f"limit: {name}", ["report", "large"], wanted, status, files={"large": given}, seconds=60) for name, given, wanted, status in LARGE]
    made += [Case(f"limit: {name}", ["serve", "r.json"], wanted, stdin=given) for name, given, wanted in SCRIPTS]
    made.append(Case("limit: 65,536 versions and one more", ["serve", "r.json"], versions_answers, stdin=versions, seconds=60))
    made.append(Case("limit: each of 65,536 stages touched", ["serve", "large"], each_touched_answers, stdin=each_touched, files={"large": lambda: chain_of(MOST_STAGES)}, seconds=60))
    made += long_cases() if is_long else []
    return [with_r(it) for it in made]
