"""The examples, and what README.md and docs/TOUR.md show of them."""
import glob
import os
import re
import shlex

from .run import Case

COMMAND = re.compile(r"(?<!\| )\./whatif (report|explain|sweep|slack|rescue|ends|failures|try|compare|serve|export|many|import|draw|page)((?: (?:[\w./-]+|'[^'\n]*'))+)(?: < (examples/[\w.-]+))?")
BLOCK = re.compile(r"^```(\w*)\n(.*?)^```$", re.M | re.S)
PAGES = ("README.md", os.path.join("docs", "TOUR.md"))


def read(top, name):
    with open(os.path.join(top, name), encoding="utf-8") as file:
        return file.read()


def shown_runs(page):
    """Each command that the page names, and the blocks without a language that follow it up to the next command."""
    marks = [(it.start(), None, it.groups()) for it in COMMAND.finditer(page)]
    marks += [(it.start(), it[1], it[2]) for it in BLOCK.finditer(page)]
    runs = []
    for _, language, what in sorted(marks, key=lambda it: it[0]):
        if language is None:
            runs.append((what, []))
        elif not language and runs:
            runs[-1][1].append(what)
    return [it for it in runs if it[1]]


def missing(top, command):
    """The files that the command names and that aren't there."""
    _, words, script = command
    named = [it for it in [*shlex.split(words), *filter(None, [script])] if it.startswith("examples/")]
    return [it for it in named if not os.path.exists(os.path.join(top, it))]


def shown_case(top, page, command, blocks):
    """What is printed of a file as it is; or steps and their answers in turn; or answers alone, which are somewhere in those to the whole script,
    as the lines of a version that is written as a recording are in it.

    The numbers in the answers to several scripts at once depend on who comes first, and are not compared."""
    subcommand, words, script = command
    words = shlex.split(words)
    paths = [it for it in words if it.startswith("examples/")]
    how = {"files": {os.path.basename(it): read(top, it) for it in paths}}
    rows = "".join(blocks).splitlines(keepends=True)
    steps = [it for it in rows if it.startswith("{") and "json" not in words]
    out = "".join(it for it in rows if it not in steps)
    if subcommand == "export":
        out = re.compile(b"(?s).*" + b".*".join(b"(?<=\n)" + re.escape(it.encode()) for it in rows) + b".*")
    elif subcommand == "serve" and steps:
        how["stdin"] = "".join(steps)
    elif script:
        how["stdin"] = read(top, script)
        out = re.compile(b"(?s).*" + b".*".join(re.escape(it.encode()) for it in blocks) + b".*")
    elif len(paths) > 2:
        out = re.compile(re.sub(rb"\d+", rb"\\d+", re.escape("".join(blocks).encode())))
    return Case(f"{page}: {subcommand} {' '.join(words)}", [subcommand, *map(os.path.basename, words)], out, **how)


def of_an_example(command):
    """Whether what is shown is of a recording that lies in examples/: that of a trace, of a picture or of a recording that the program
    has made is compared by traces.py, pictures.py and exports.py."""
    subcommand, words, _ = command
    return subcommand not in ("import", "draw", "page") and "examples/" in words


def readme_cases(top):
    """What the pages show, and each example taken by the program."""
    cases = []
    for page in PAGES:
        told = [(command, blocks) for command, blocks in shown_runs(read(top, page)) if of_an_example(command)]
        cases += [shown_case(top, page, command, blocks) for command, blocks in told if not missing(top, command)]
    for path in sorted(glob.glob(os.path.join(top, "examples", "*.json"))):
        name = os.path.basename(path)
        files = {name: read(top, path)}
        cases.append(Case(f"examples/{name} is taken", ["report", name], re.compile(rb"version 0 parent - (.*\n)*"), files=files))
        for script in sorted(glob.glob(path.removesuffix(".json") + "*.script")):
            told = f"examples/{os.path.basename(script)} is answered"
            cases.append(Case(told, ["serve", name], re.compile(rb"opened (.*\n)*"), files=files, stdin=read(top, script)))
    return cases


def told_apart(top):
    """Where the pages and the examples differ: the name of each check, its complaint or nothing, and no refusal.

    Those of docs/MODELLING.md are its own."""
    texts = {page: read(top, page) for page in PAGES}
    examples = [f"examples/{os.path.basename(it)}" for it in sorted(glob.glob(os.path.join(top, "examples", "*")))]
    unnamed = [it for it in examples if not any(it in text for text in texts.values()) and not it.startswith("examples/modelling-")]
    yield f"{' or '.join(PAGES)} names each example", f"none names {', '.join(unnamed)}" if unnamed else "", set()
    for page, (command, blocks) in ((page, it) for page, text in texts.items() for it in shown_runs(text)):
        _, words, script = command
        gone = missing(top, command)
        if gone:
            yield f"{page}: the examples of {words.strip()} are there", f"these are not: {', '.join(gone)}", set()
        elif script and "json" not in words.split():
            steps = read(top, script).splitlines()
            strange = [it for it in "".join(blocks).splitlines() if it.startswith("{") and it not in steps]
            yield f"{page}: its steps are those of {script}", f"these are not: {strange}" if strange else "", set()
