"""Which goals the prover left open, by what a check prints."""
import re
from dataclasses import dataclass

# what the prover says of an answer that names what the edit took away, which shows nothing of a contract
LOST = re.compile(r"has no field|is not in scope|has no `|is no name|was not admitted|cannot continue|expected the end|operand is missing")
UNFOUND = re.compile(r"^fn (\S+): (?:no proof|not proved).*?`search` did not prove ([^;\n]*)", re.M)
ANSWERED = re.compile(r"^(?:note: )?(?:\./)?proofs/(?P<path>\S+?)/\w+\.antt:\d+:\d+: error: `(?P<goal>[^`]*)`: (?P<said>.*)$", re.M)
PLACED = re.compile(r"^(?:note: )?(?P<file>src/\S+?):(?P<line>\d+):\d+: (?P<said>.*?)\(`(?P<goal>[^`]*)`\)", re.M)


@dataclass(frozen=True)
class Goal:
    """A goal that is open: the function that it is of, the clause that it belongs to, and its name."""

    function: str
    clause: str
    name: str
    lost: bool = False

    def __str__(self):
        return f"{self.function}, clause {self.clause} ({self.name})"

    def is_of(self, function):
        """Whether it is a goal of the function. In a cycle of calls, which has a name of its own, a goal's name begins with that of its function."""
        return self.function == function or self.name.startswith(f"{function}-")


def clause_of(name):
    """The clause that a goal belongs to: its name, `ensures` where the function's has none, `invariant`, `safety`, or `requires`
    where it is what a callee requires."""
    if "-requires" in name:
        return "requires"
    if name.startswith("invariant_"):
        return "invariant"
    if "-clause-" in name:
        return name.rpartition("-clause-")[2]
    if re.search(r"-(preserved|init)\b", name):
        return "invariant"
    if name.startswith("loop") or "-loop-" in name:
        return "safety"
    return "ensures" if name.startswith("returns") else "safety"


def goal_of(function, name, lost=False):
    """The goal of this name, which may begin with that of its function."""
    function = function.split("::")[-1].lstrip("+")
    own = name.removeprefix(f"{function}-")
    return Goal(function, clause_of(own), name, lost)


def head_at(text, line):
    """The function whose head, attributes or body has this line of a source text."""
    lines = text.split("\n")
    while line < len(lines) and re.match(r"\s*(#\[|///)", lines[line - 1]):
        line += 1
    heads = (re.search(r"\bfn (\w+)", it) for it in reversed(lines[:line]))
    return next((it[1] for it in heads if it), "?")


def open_goals(said, text_of):
    """The goals that a check's output tells of. `text_of` gives the text of a source file."""
    found = [goal_of(fn, name) for fn, names in UNFOUND.findall(said) for name in re.findall(r"`([^`]*)`", names)]
    found += [goal_of(it["path"].split("/")[-1], it["goal"], bool(LOST.search(it["said"]))) for it in ANSWERED.finditer(said)]
    found += [goal_of(head_at(text_of(it["file"]), int(it["line"])), it["goal"]) for it in PLACED.finditer(said)]
    return list(dict.fromkeys(found))
