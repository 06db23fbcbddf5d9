"""docs/recording.schema.json and docs/step.schema.json, tried on the examples and on the recordings and steps of the other tables.

What the program takes, the schemas take. What it refuses by a number of SEEN, they refuse, but for the cases of NOT_SEEN."""
import glob
import json
import os
import re

from . import cases, ends, explained, failures, limits, recomputed, tried, why
from .cases import stage, step
from .schema import Schemas

# The refusals that a schema sees, of recordings and of steps.
SEEN = {"recording": {12, 13, 15, 17, 70, 71}, "step": {12, 21, 57, 70, 71}}
# The refusals that no schema sees, each of which has a case that the schema takes.
NEVER_SEEN = {
    "recording": {11: "names are compared", 14: "names are looked up", 16: "two members are compared", 19: "sources are followed", 20: "nodes are counted"},
    "step": {
        **{it: "the stages of the version are needed" for it in (10, 11, 13, 14, 15, 17, 18, 19)},
        **{it: "as of recordings" for it in (16, 20)},
        **{it: "the sessions and versions are needed" for it in (50, 51, 52, 53, 54, 55, 58)},
        72: "bytes are counted",
    },
}
# The cases of refusals in SEEN that a schema takes all the same.
WHOLE = "a whole number in another writing"
BRACKETS = "open brackets are counted"
NOT_SEEN = {
    "recording: takes 1.0": WHOLE,
    "recording: takes 1e3": WHOLE,
    "recording: created -0": WHOLE,
    "recording: an action nested 128 deep": BRACKETS,
    "recording: a 128th open bracket": BRACKETS,
    "recording: a 128th open bracket in a member that nobody reads": BRACKETS,
    **{f"step: reports with a member missing or wrong, line {it}": WHOLE for it in (7, 21, 27)},
}
# A step for each refusal that only a long script or a large recording meets.
FURTHER_STEPS = [
    ("65,536 versions and one more", step("pinMoment", session=1, base=65_535, stage="b", at=1), 55),
    ("65,536 stages and one more", step("add", session=1, base=1, new=stage("manual", "more")), 15),
]
# Where the words of the schemas are defined: the schema, the way to it, and the definitions in crates/recording/specs.
WORDS = [
    ("recording.schema.json#/properties/wrap", ["RecordingOf.mode_names"]),
    ("recording.schema.json#/$defs/stage/properties/op", ["Forms.op_names"]),
    ("recording.schema.json#/$defs/end/properties/do", ["Forms.act_names"]),
    ("recording.schema.json#/$defs/expression", ["ExpressionOf.words"]),
    ("step.schema.json#/properties/do", ["StepOf.step_names", "StepOf.edit_names"]),
    ("step.schema.json#/$defs/edit/properties/do", ["StepOf.edit_names"]),
    ("step.schema.json#/$defs/report/properties/what", ["StepOf.report_names"]),
]


def no_number(word):
    raise ValueError(f"{word} is no JSON")


def parsed(text):
    """The JSON value, in a list; or no list, where there is none."""
    try:
        text = text.decode() if isinstance(text, bytes) else text
        return [json.loads(text, parse_constant=no_number)]
    except (ValueError, RecursionError):
        return []


def number_of(line):
    """The number of the refusal that a line tells, if it tells one."""
    found = re.match(r"(?:refused )?(\d+) ", line)
    return int(found[1]) if found else None


def recordings(top):
    """Each recording: its name, its text, and the number of its refusal, or None."""
    for name, given, line in cases.REFUSED:
        yield name, given, number_of(line)
    for name, given, _ in cases.TAKEN:
        yield name, given, None
    for name, given, wanted in limits.RECORDINGS:
        yield name, given, None if wanted.startswith("version") else number_of(wanted)
    for name, _, given, _, _ in why.TOLD:
        yield name, given, None
    for of, given in (*((f"ends of {name}", given) for name, given, _ in ends.TOLD), *((f"failures of {name}", given) for name, given, _ in failures.TOLD)):
        yield of, given, None
    for name, given in (("timeouts", tried.LIMITED), ("no action", tried.NO_ACTION), ("pending", tried.PENDING), ("two last", tried.TIED)):
        yield f"tried: {name}", given, None
    for seed in range(recomputed.HOW_MANY):
        yield f"made at random, {seed}", json.dumps(recomputed.some(seed)), None
    for name, given, line, _ in explained.refused():
        yield name, given, number_of(line)
    yield "65,537 stages", limits.chain_of(limits.MOST_STAGES + 1), 15
    for path in sorted(glob.glob(os.path.join(top, "examples", "*.json"))):
        yield f"examples/{os.path.basename(path)}", read(path), None


def lines_of(answers, asked):
    """How many lines the answer has: that of a report says it, or its kind does."""
    first = answers[0]
    if first.startswith("refused") or asked.get("do") != "report":
        return 1
    return {"one": 5, "blame": 1}.get(asked["what"]) or 1 + int(first.split()[-1])


def answered(text, answers):
    """Each line of a script that is answered, and the number of its refusal, or None."""
    text = text.encode() if isinstance(text, str) else text
    rest = answers.splitlines()
    for line in text.removesuffix(b"\n").split(b"\n"):
        if line not in (b"", b"\r"):
            asked = next(iter(parsed(line)), {})
            yield line, number_of(rest[0]) if rest[0].startswith("refused") else None
            rest = rest[lines_of(rest, asked if isinstance(asked, dict) else {}) :]


def steps(top):
    """Each step: its name, its text, and the number of its refusal, or None."""
    scripts = [(name, cases.lines(*given), wanted) for name, given, wanted in cases.SCRIPTS]
    scripts += [(name, cases.lines(*given), wanted) for name, given, wanted, _ in why.SCRIPTS]
    for name, text, answers in [*scripts, *limits.SCRIPTS]:
        for at, (line, number) in enumerate(answered(text, answers)):
            yield f"{name}, line {at}", line, number
    yield from FURTHER_STEPS
    yield from ((name, json.dumps(made), 71) for name, made, _, _ in explained.steps())
    for path in sorted(glob.glob(os.path.join(top, "examples", "*.script"))):
        for at, line in enumerate(read(path).splitlines()):
            yield f"examples/{os.path.basename(path)}, line {at}", line, None


def read(path):
    with open(path, encoding="utf-8") as file:
        return file.read()


def complaint(kind, name, number, fault):
    """What is wrong with what the schema said, or nothing."""
    if number is None:
        return f"the program takes it, and the schema says: {fault}" if fault else ""
    if f"{kind}: {name}" in NOT_SEEN:
        return "the schema sees it now, and NOT_SEEN says that it doesn't" if fault else ""
    return "" if fault or number not in SEEN[kind] else f"the program refuses it by {number}, and the schema takes it"


def held(schemas, kind, made):
    """The name of each case, and its complaint or nothing; last, whether each refusal that is never seen has a case."""
    schema, taken, met = schemas.files[f"{kind}.schema.json"], set(), set()
    for name, text, number in made:
        value = parsed(text)
        fault = schemas.fault(schema, value[0]) if value else "no JSON"
        taken |= set() if fault else {number}
        met.add(f"{kind}: {name}")
        yield f"schema of a {kind}: {name}", complaint(kind, name, number, fault)
    missing = sorted({*NEVER_SEEN[kind]} - taken)
    absent = sorted(it for it in {*NOT_SEEN} - met if it.startswith(f"{kind}:"))
    said = f"no case that the schema takes has {missing}; no case is called {absent}" if missing or absent else ""
    yield f"each refusal that no schema of a {kind} sees has a case", said


def words_in(schema):
    """The words that a schema allows, itself or as the first item of an array."""
    return {*schema.get("enum", schema.get("prefixItems", [{}])[0].get("enum", []))}


def defined(top, definition):
    """The words of a table in the definitions."""
    file, name = definition.split(".")
    page = read(os.path.join(top, "crates", "recording", "specs", f"{file}.antt"))
    table = re.search(rf"(?m)^{name} =((?: .*)?\n(?:(?: .*)\n)*)", page)
    return {*re.findall(r'\(codes "(\w+)",', table[1])} if table else set()


def words(top, schemas):
    """Whether the words of the schemas are those of the definitions."""
    for where, definitions in WORDS:
        meant = set().union(*(defined(top, it) for it in definitions))
        differ = meant ^ words_in(schemas.at(where))
        said = f"these differ: {sorted(differ)}" if differ else "" if meant else "the definitions have no word"
        yield f"the words of {where}", said


def shown(top, schemas):
    """The stages that docs/FORMATS.md shows."""
    page = read(os.path.join(top, "docs", "FORMATS.md"))
    for text in re.findall(r'`(\{"name":".*?\})`', page):
        yield f"docs/FORMATS.md: {text[:60]}", schemas.fault(schemas.at("recording.schema.json#/$defs/stageOfForm1"), json.loads(text))


def shapes(top):
    """The name of each case, and its complaint or nothing."""
    schemas = Schemas(os.path.join(top, "docs"), ["recording.schema.json", "step.schema.json"])
    yield from held(schemas, "recording", recordings(top))
    yield from held(schemas, "step", steps(top))
    yield from words(top, schemas)
    yield from shown(top, schemas)
