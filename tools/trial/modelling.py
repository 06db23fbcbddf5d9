"""What docs/MODELLING.md shows: its recordings, their reports, and steps with their answers."""
import glob
import os
import re

from .readme import BLOCK, COMMAND, read, shown_case, shown_runs
from .run import Case

PAGE = os.path.join("docs", "MODELLING.md")


def is_there(top, name):
    return os.path.isfile(os.path.join(top, name))


def in_turn(blocks):
    """The steps that are shown, each with the lines that follow it."""
    turns = []
    for row in "".join(blocks).splitlines(keepends=True):
        if row.startswith("{"):
            turns.append((row, []))
        elif turns:
            turns[-1][1].append(row)
    return [(step, "".join(answer)) for step, answer in turns]


def modelling_cases(top):
    """Each report and script on the page; of a script its first step, its first two, and so on, so that each answer stands by its own step.

    What is shown of a recording that isn't there is left to `told_apart`."""
    for command, blocks in shown_runs(read(top, PAGE)):
        subcommand, words, script = command
        path = words.strip()
        if not is_there(top, path):
            continue
        if not script:
            yield shown_case(top, PAGE, command, blocks)
            continue
        name, turns = os.path.basename(path), in_turn(blocks)
        for count in range(1, len(turns) + 1):
            steps, answers = ("".join(it) for it in zip(*turns[:count]))
            yield Case(f"{PAGE}: {subcommand} {path}, {count} steps", [subcommand, name], answers, stdin=steps, files={name: read(top, path)})


def recordings(page):
    """Each recording that the page shows, and the file that the next command names."""
    for block in BLOCK.finditer(page):
        if block[1] == "json":
            command = COMMAND.search(page, block.end())
            yield command[2].strip() if command else "", block[2]


def told_apart(top):
    """Where the page and the examples differ: the name of each check, its complaint or nothing, and no refusal."""
    page = read(top, PAGE)
    shown = dict(recordings(page))
    runs = {(subcommand, words.strip()): (script, blocks) for (subcommand, words, script), blocks in shown_runs(page)}
    examples = {os.path.relpath(it, top) for it in glob.glob(os.path.join(top, "examples", "modelling-*.json"))}
    for path in sorted(examples | {*shown}):
        script = f"{path.removesuffix('.json')}.script"
        said = []
        if path not in examples or path not in shown:
            said.append("it isn't both on the page and in the folder")
        elif shown[path] != read(top, path):
            said.append("the recording on the page is another")
        if ("report", path) not in runs:
            said.append("its report isn't shown")
        named, blocks = runs.get(("serve", path), ("", []))
        if named != script:
            said.append(f"the answers to {script} aren't shown")
        elif not is_there(top, script) or "".join(step for step, _ in in_turn(blocks)) != read(top, script):
            said.append(f"its steps on the page aren't those of {script}")
        yield f"{PAGE} shows {path}", "; ".join(said), set()
    strange = [it for it in re.findall(r"examples/[\w./-]+", page) if not is_there(top, it.rstrip("."))]
    yield f"{PAGE} names examples that are there", f"these are not: {strange}" if strange else "", set()
