"""`new`: recordings to begin with, each a file of examples/, byte for byte; and that docs/MODELLING.md says which form is whose."""
import glob
import os
import re

from .readme import read
from .run import Case
from .why import help_of

# Each form, and the example that it is.
FORMS = {
    "first": "new",
    "timeout": "modelling-timeout-fixed",
    "timer": "modelling-timeout-moving",
    "retry": "modelling-retry",
    "fallback": "modelling-fallback",
    "breaker": "modelling-breaker",
    "cache": "modelling-cache",
    "queue": "modelling-queue",
    "race": "modelling-race",
    "batch": "modelling-batch",
}

HELP = help_of("""\
Prints a recording to begin with: one that says what each of its stages is, or the form of a retry, a timeout, a race

Usage: PROGRAM new [FORM]

Arguments:
  [FORM]  first: ten stages, each of which says what it is; or a form of code that docs/MODELLING.md writes down [default: first] [possible values: first, timeout, timer, retry, fallback, breaker, cache, queue, race, batch]

Options:
  -h, --help  Print help

Examples:
  whatif new > run.json
  whatif new retry > retry.json
  whatif new timer | whatif explain -

What each is a form of, with its code: docs/MODELLING.md.
""")


def path_of(name):
    return os.path.join("examples", f"{name}.json")


def beginning_cases(top):
    yield Case("new prints the first recording", ["new"], read(top, path_of("new")), err=r"\A\Z")
    for word, name in FORMS.items():
        text = read(top, path_of(name))
        yield Case(f"new {word} prints {path_of(name)}", ["new", word], text, err=r"\A\Z")
        yield Case(f"check finds nothing wrong with what new {word} prints", ["check", "--strict", "-"], "", stdin=text, err=r"\A\Z")
        yield Case(f"what new {word} prints is reported, strictly", ["report", "--strict"], re.compile(rb"version 0 parent - mode computed stages \d+\n(.+\n)+"), stdin=text, err=r"\A\Z")
        yield Case(f"what new {word} prints is explained", ["explain", "--strict", "-"], re.compile(rb"(.+\n){8,}"), stdin=text, err=r"\Awhatif: no STAGE is given, [^\n]*\n\Z")
    for words in (["new", "--help"], ["new", "-h"], ["help", "new"]):
        yield Case(f"help of new, by {' '.join(words)}", words, HELP)
    for wrong, near in (("rase", "race"), ("timeouts", "timeout"), ("RETRY", ""), ("modelling-retry", ""), ("", ""), ("nonsense", "")):
        told = rf"(?s)\Aerror: .*possible values: {', '.join(FORMS)}\].*" + (f"similar value exists: '{near}'" if near else "")
        yield Case(f"new of {wrong!r}, which is no form", ["new", wrong], "", 2, err=told)
    yield Case("new of two forms", ["new", "race", "cache"], "", 2, err="'cache'")
    yield Case("new takes no option", ["new", "--quiet"], "", 2, err="--quiet")
    yield Case("new reads no standard input", ["new", "--", "race"], read(top, path_of("modelling-race")), stdin="[")
    for where, err in (("full", r"\Awhatif: standard output: No space left on device\n\Z"), ("closed", r"\Awhatif: standard output: Bad file descriptor\n\Z"), ("gone", r"\A\Z")):
        yield Case(f"new on a {where} standard output", ["new"], "", 3, err=err, stdout=where)


def told_apart(top):
    """Where the forms, the examples and the page differ: the name of each check, its complaint or nothing, and no refusal."""
    page = read(top, os.path.join("docs", "MODELLING.md"))
    examples = {os.path.basename(it).removesuffix(".json") for it in glob.glob(os.path.join(top, "examples", "modelling-*.json"))}
    strange = sorted(examples ^ ({*FORMS.values()} - {"new"}))
    yield "each example of docs/MODELLING.md is a form of new", f"these are not both: {strange}" if strange else "", set()
    texts = dict(re.findall(r'(?s)/// That of `examples/([\w-]+)\.json`\.\n[^"]*"([^#]*)"#;', read(top, os.path.join("crates", "recording_forms", "src", "texts.rt"))))
    other = [it for it in FORMS.values() if texts.get(it) != read(top, path_of(it))]
    yield "recording_forms has the examples, byte for byte", f"these are others: {other}" if other or len(texts) != len(FORMS) else "", set()
    for word, name in FORMS.items():
        if name != "new":
            # (the command stands before the recording's report)
            shown = re.search(rf"`\./whatif new {word}`[^#]*?`\./whatif report examples/{name}\.json`", page, re.S)
            yield f"docs/MODELLING.md says that new {word} prints {path_of(name)}", "" if shown else "it doesn't", set()
