"""Each way in which a member of a recording or of a step can be refused, and that it is explained where it stands: on
standard error by `report`, in its output by `check`, and on standard error by `serve`."""
import json
import re

from .cases import OPEN, lines, stage
from .run import Case

WRAPPER = "java.util.concurrent.CompletionException"
MOST_TICKS = 2**40

# What no number of 64 bits, no count, no name of an exception, no list of names and no outcome is.
NO_NUMBER = ["1", 1.5, 2**63, -(2**63) - 1, True, [], {}]
NO_COUNT = [None, *NO_NUMBER[:2], -1, 2**64, False, [], {}]
NO_EXCEPTION = [None, 1, [], "", "a b", "java.io.IOException: reset", "a" * 129, WRAPPER, f"{WRAPPER}: java.io.IOException: reset"]
NO_NAMES = [None, "first", 1, {}, [1], [None], [["first"]], ["first", {}]]
NO_OUTCOME = [
    1, "x", True, [], {}, {"value": 1, "bare": "X"}, {"bare": "X", "wrapped": "X"}, {"Value": 1},
    *({"value": it} for it in NO_NUMBER),
    *({kind: it} for kind in ("bare", "wrapped") for it in NO_EXCEPTION),
]
NO_ACTION = [
    "x", True, {}, [], [1], [None], ["nope"], ["Add", 1, 2], 1.5, 2**63,
    ["arg"], ["arg", 2], ["arg", "0"], ["arg", -1], ["arg", 0, 0], ["arg", ["arg", 0]],
    *([word, *operands] for word in ("add", "sub", "mul", "div", "lt", "eq") for operands in ([], [1], [1, 2, 3], [1, "2"])),
    ["if", 1, 2], ["if", 1, 2, 3, 4], ["if", "x", 2, 3], ["isnull"], ["isnull", 1, 2], ["isnull", True], ["failed", 1], ["iswrapped", 1],
    *([word, it] for word in ("throw", "causeis") for it in NO_EXCEPTION),
    *([word, *operands] for word in ("throw", "causeis") for operands in ([], ["X", "Y"])),
    ["if", ["failed"], ["add", 1, ["throw", "java.io.IOException: reset"]], 1],
]
NO_ENDS = [
    None, 1, "cancel", {}, [1], [None], ["cancel"], [{}],
    *([{"do": "cancel", "at": it}] for it in NO_COUNT), [{"do": "cancel"}],
    *([{"at": 1, "do": it}] for it in (None, 1, "", "Cancel", "timeout", ["cancel"])), [{"at": 1}],
    *([{"at": 1, "do": kind, **members}] for kind, members in (
        ("complete", {}), *(("complete", {"value": it}) for it in NO_NUMBER),
        ("completeExceptionally", {}), *(("completeExceptionally", {"throws": it}) for it in NO_EXCEPTION),
        ("orTimeout", {}), *(("orTimeout", {"delay": it}) for it in NO_COUNT),
        ("completeOnTimeout", {"value": 1}), ("completeOnTimeout", {"delay": 1}),
        *(("completeOnTimeout", {"delay": it, "value": 1}) for it in NO_COUNT), *(("completeOnTimeout", {"delay": 1, "value": it}) for it in NO_NUMBER))),
    [{"at": 1, "do": "cancel"}, {"at": 2, "do": "complete"}],
]
ABSENT = object()

# Of each member of a stage what it may not be, and the stage in which it stands.
MEMBERS = [
    (1, "name", {"op": "manual"}, [ABSENT, None, 1, [], {}, True]),
    (1, "op", {"name": "a"}, [ABSENT, None, 1, [], "", "Async", "copyAsync", "manualAsync", "ThenApply", "then_apply"]),
    (1, "value", stage("completed"), [ABSENT, *NO_NUMBER]),
    (1, "throws", stage("failed"), [ABSENT, *NO_EXCEPTION]),
    (1, "sources", stage("allOf"), NO_NAMES),
    (1, "inner", stage("thenCompose", sources=["first"], action=0), NO_NAMES),
    (1, "created", stage("manual"), NO_COUNT),
    (1, "takes", stage("async", action=1), NO_COUNT),
    (2, "takes", stage("async", action=1), [0, 1, None, "1"]),
    (2, "queued", stage("async", action=1), NO_COUNT),
    (2, "runs", stage("async", action=1), NO_COUNT),
    (1, "action", stage("async"), NO_ACTION),
    (1, "pinResult", stage("manual"), NO_OUTCOME),
    (1, "pinMoment", stage("manual"), NO_COUNT[1:]),
    (1, "ends", stage("manual"), NO_ENDS),
]

DEEP = 1
for _ in range(32):
    DEEP = ["isnull", DEEP]
WIDE = 1
for _ in range(8):
    WIDE = ["add", WIDE, WIDE]
LATE = MOST_TICKS + 1
FIRST = stage("manual", "first")

# What the checks of a stage refuse.
CHECKED = [
    (1, stage("manual", "first"), "11 NameTaken"),
    *((1, stage("manual", name), "12 BadName") for name in ("", "-a", ".a", "a b", "a/b", "\u00e4", "a" * 65)),
    (1, stage("async"), "13 Arity"),
    (1, stage("async", action=1, sources=["first"]), "13 Arity"),
    (1, stage("async", action=1, inner=["first"]), "13 Arity"),
    (1, stage("manual", action=1), "13 Arity"),
    (1, stage("copy"), "13 Arity"),
    (1, stage("thenApply", action=1), "13 Arity"),
    (1, stage("thenCombine", action=1, sources=["first"]), "13 Arity"),
    (1, stage("thenApply", sources=["first"]), "13 Arity"),
    (1, stage("allOf", sources=["first"], action=1), "13 Arity"),
    (1, stage("copy", sources=["frist"]), "14 NoSource"),
    (1, stage("thenCompose", sources=["first"], inner=["frist"], action=0), "14 NoSource"),
    (1, stage("anyOf", sources=["first"] * 1025), "15 Limit"),
    (1, stage("thenCompose", sources=["first"], inner=["first"] * 1025, action=0), "15 Limit"),
    (1, stage("manual", ends=[{"at": 1, "do": "cancel"}] * 17), "15 Limit"),
    (1, stage("manual", created=LATE), "15 Limit"),
    (1, stage("async", action=1, takes=LATE), "15 Limit"),
    (2, stage("async", action=1, queued=LATE), "15 Limit"),
    (2, stage("async", action=1, runs=LATE), "15 Limit"),
    (1, stage("manual", pinMoment=LATE), "15 Limit"),
    (1, stage("manual", ends=[{"at": LATE, "do": "cancel"}]), "15 Limit"),
    (1, stage("manual", ends=[{"at": 1, "do": "orTimeout", "delay": LATE}]), "15 Limit"),
    (1, stage("manual", created=5, ends=[{"at": 9, "do": "cancel"}, {"at": 4, "do": "cancel"}]), "16 EndBeforeCreated"),
    (1, stage("manual", takes=1), "17 NoAction"),
    (2, stage("manual", queued=1), "17 NoAction"),
    (2, stage("manual", runs=1), "17 NoAction"),
    (1, stage("async", action=DEEP), "20 Expr"),
    (1, stage("async", action=WIDE), "20 Expr"),
]

# What a recording as a whole may not be.
WHOLE = [
    *((it, "recording", "the recording") for it in (None, 1, True, "x", [], [FIRST])),
    *(({"form": it, "stages": []}, "form", "form") for it in (None, 0, 3, -1, 1.5, "2", True, [], {})),
    *(({"wrap": it, "stages": []}, "wrap", "wrap") for it in (None, 1, "", "Literal", "bare", [])),
    ({}, "stages", "stages"),
    *(({"stages": it}, "stages", "stages") for it in (None, 1, "x", {}, FIRST)),
    *(({"stages": [FIRST, it]}, "stages", "stages[1]") for it in (None, 1, "a", [], [FIRST])),
]


def short(value):
    text = "absent" if value is ABSENT else json.dumps(value)
    return text if len(text) < 60 else text[:57] + ".."


def with_member(value, name, members):
    return members if value is ABSENT else {**members, name: value}


def line_of(text, member):
    """The line of the second stage's member, or of that stage where it has none; of the recording's member, if it has one stage or none."""
    is_whole = text.count('\n  {') < 2
    stage_at = 0 if is_whole else text.rindex("\n  {") + 1
    at = text.find(f'\n{" " if is_whole else "   "}"{member}":', stage_at)
    return text.count("\n", 0, stage_at if at < 0 else at + 1) + 1


def refused():
    """Each recording that is refused: its name, its text, the refusal, and where it is explained."""
    for whole, member, told in WHOLE:
        yield f"recording {short(whole)}", json.dumps(whole, indent=1), f"71 Shape {member}", f"(line [0-9]+: )?{re.escape(told)}[ .]"
    for form, member, members, values in MEMBERS:
        for value in values:
            text = json.dumps({"form": form, "stages": [FIRST, with_member(value, member, members)]}, indent=1)
            # (an element of a member may stand further down)
            line = "[0-9]+" if isinstance(value, list) and member != "action" else line_of(text, member)
            yield f"{member} {short(value)}", text, f"71 Shape {member}", rf"line {line}: stages\[1\]\.{member}\b"
    for form, members, out in CHECKED:
        text = json.dumps({"form": form, "stages": [FIRST, members]}, indent=1)
        yield f"{out}, {short(members)}", text, f"{out} at 1", rf'line {line_of(text, "no member")}: stage "[^"]*" \(place 1\): '
    circle = [FIRST, stage("copy", sources=["b"]), stage("copy", "b", sources=["a"])]
    yield "a circle", json.dumps({"stages": circle}, indent=1), "19 Cycle", "line [0-9]+: these stages wait for each other: (a, b, a|b, a, b)"


def recordings():
    """That a report of each says so on standard error, and its check in its output, beside what else it finds."""
    for name, text, out, told in refused():
        yield Case(f"explained: {name}", ["report", "-"], f"refused {out}\n", 1, err=rf"\A(whatif: warning: [^\n]*\n)*whatif: standard input: {told}[^\n]*\n\Z", stdin=text)
        all_told = rf"(standard input: (?!warning)[^\n]*\n)*standard input: {told}[^\n]*\n(standard input: [^\n]*\n)*"
        yield Case(f"explained by check: {name}", ["check", "-"], re.compile(all_told.encode()), 1, err=r"\A\Z", stdin=text)


# Of each step that is refused for a member the number of its refusal's member, the step without it, and what it may not be.
NO_COUNT32 = [None, "1", 1.5, -1, 2**32, True, []]
NO_TEXT = [ABSENT, None, 1, [], {}]
EDITS = {
    "pinResult": [("stage", NO_TEXT), ("result", [ABSENT, *NO_OUTCOME])],
    "pinMoment": [("stage", NO_TEXT), ("at", [ABSENT, *NO_COUNT[1:]])],
    "setTakes": [("stage", NO_TEXT), ("takes", [ABSENT, *NO_COUNT])],
    "setTimes": [("stage", NO_TEXT), ("queued", [ABSENT, *NO_COUNT]), ("runs", [ABSENT, *NO_COUNT])],
    "setAction": [("stage", NO_TEXT), ("action", [ABSENT, *NO_ACTION])],
    "setEnds": [("stage", NO_TEXT), ("ends", [ABSENT, *NO_ENDS])],
    "add": [("new", [ABSENT, None, 1, "a", []])],
    "remove": [("stage", NO_TEXT)],
    "rewire": [("stage", NO_TEXT), ("sources", [ABSENT, *NO_NAMES]), ("inner", [ABSENT, *NO_NAMES])],
}
SOUND = {
    "stage": "a", "result": None, "at": None, "takes": 1, "queued": 1, "runs": 1, "action": 1, "ends": [], "new": stage("manual", "n"),
    "sources": [], "inner": [], "edits": [{"do": "remove", "stage": "b"}],
}


def edits():
    """Each edit with a member that is refused: its name, the edit, the member, and where it stands."""
    for do, members in EDITS.items():
        for at, (member, values) in enumerate(members):
            before = {it: SOUND[it] for it, _ in members[:at]}
            behind = {it: SOUND[it] for it, _ in members[at + 1 :]}
            for value in values:
                yield f"{do}, {member} {short(value)}", with_member(value, member, {"do": do, **before, **behind}), member, rf"{member}\b"
    for form, member, members, values in MEMBERS:
        times = {"runs": 1} if form == 2 and member == "takes" else {}
        for value in values:
            new = with_member(value, member, {**members, **times})
            yield f"add, new.{member} {short(value)}", {"do": "add", "new": new}, member, rf"new\.{member}\b"


def steps():
    """Each step that is refused: its name, its object, the refused member, and where it stands."""
    for whole in (None, 1, True, "x", []):
        yield f"step {short(whole)}", whole, "step", "the step"
    for value in (ABSENT, None, 1, "", "Open", "reports", []):
        yield f"do {short(value)}", with_member(value, "do", {"session": 1}), "do", "do"
    for do in ("open", "head", "undo", "close"):
        for value in (ABSENT, *NO_COUNT32):
            yield f"{do}, session {short(value)}", with_member(value, "session", {"do": do, "version": 0}), "session", "session"
    for value in (ABSENT, *NO_COUNT32):
        yield f"open, version {short(value)}", with_member(value, "version", {"do": "open", "session": 1}), "version", "version"
        yield f"edits, session {short(value)}", with_member(value, "session", {"do": "edits", "edits": SOUND["edits"]}), "session", "session"
    for value in NO_COUNT32:
        yield f"edits, base {short(value)}", {"do": "edits", "session": 1, "base": value, "edits": SOUND["edits"]}, "base", "base"
    for value in (ABSENT, None, 1, "x", {}):
        yield f"edits {short(value)}", with_member(value, "edits", {"do": "edits", "session": 1}), "edits", "edits"
    for value in (None, 1, "remove", []):
        yield f"an edit {short(value)}", {"do": "edits", "session": 1, "edits": [SOUND["edits"][0], value]}, "edits", r"edits\[1\]"
    for value in (ABSENT, None, 1, "Remove", "open", "edits"):
        edit = with_member(value, "do", {"stage": "a"})
        yield f"an edit's do {short(value)}", {"do": "edits", "session": 1, "edits": [SOUND["edits"][0], edit]}, "do", r"edits\[1\]\.do"
    for name, edit, member, told in edits():
        for value in NO_COUNT32[:1]:
            yield f"{name}, base {short(value)}", {**edit, "session": 1, "base": value}, "base", "base"
        yield name, {**edit, "session": 1}, member, told
        yield f"edits: {name}", {"do": "edits", "session": 1, "edits": [SOUND["edits"][0], edit]}, member, rf"edits\[1\]\.{told}"
    for value in (ABSENT, *NO_COUNT32):
        yield f"report, version {short(value)}", with_member(value, "version", {"do": "report", "what": "all"}), "version", "version"
    for value in NO_COUNT32:
        yield f"report, session {short(value)}", {"do": "report", "session": value, "what": "all"}, "session", "session"
    yield "report, session and version", {"do": "report", "session": 1, "version": 0, "what": "all"}, "session", "session"
    for value in (ABSENT, None, 1, "", "All", "report"):
        yield f"report, what {short(value)}", with_member(value, "what", {"do": "report", "version": 0}), "what", "what"
    for what in ("one", "blame", "path", "sweep"):
        for value in NO_TEXT:
            yield f"report {what}, stage {short(value)}", with_member(value, "stage", {"do": "report", "version": 0, "what": what}), "stage", "stage"
    for what in ("changes", "drift"):
        for value in NO_COUNT32:
            yield f"report {what}, against {short(value)}", {"do": "report", "version": 0, "what": what, "against": value}, "against", "against"


TWO = json.dumps({"stages": [stage("async", action=1), stage("copy", "b", sources=["a"])]})


# How many steps a script has.
AT_ONCE = 25


def served(made):
    """A script of the session and these steps, each of which is refused for a member and explained there."""
    script, out, err = [OPEN], ["opened 1 at 0"], []
    for at, (_, step, member, told) in enumerate(made):
        script.append(json.dumps(step))
        out.append(f"refused 71 Shape {member}")
        # (a step may have a warning too)
        err.append(rf"whatif: line {at + 2}: (?!warning){told}[^\n]*\n(whatif: line {at + 2}: warning: [^\n]*\n)*")
    first, last = made[0][0], made[-1][0]
    return Case(f"explained steps: {first} .. {last}", ["serve", "r.json"], lines(*out), err=rf"\A{''.join(err)}\Z", files={"r.json": TWO}, stdin=lines(*script))


def explained():
    """The cases: each mistake of a recording, and of a step."""
    yield from recordings()
    made = [*steps()]
    yield from (served(made[at : at + AT_ONCE]) for at in range(0, len(made), AT_ONCE))
