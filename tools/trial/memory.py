"""Runs of the program with too little address space, and with little that is enough."""
import concurrent.futures
import dataclasses
import shlex
import sys

from .cases import FIRST_RUN, R, SCRIPTS, lines, recording, stage
from .compare import OF_ITSELF, chain_compared
from .exports import chain_written
from .failures import failed_fan, fan_of_failures
from .limits import chain_of, chain_report
from .rescue import SAVED_B
from .run import LANES, Case, refusals, run, shown
from .slack import TOLD_OF_B
from .tried import HALF
from .why import EXPLAINED_B, RECORDED, RECORDED_B, SWEPT, chain_explained

OUT_OF_MEMORY = b"refused 90 Memory\n"
NO_THREAD = b"refused 35 NoThread\n"
# Becomes the program with so many kilobytes of address space. (A shell needs more than the program does.)
BECOME = """import os, resource, sys
resource.setrlimit(resource.RLIMIT_AS, (int(sys.argv[1]) * 1024,) * 2)
os.execve(sys.argv[3], sys.argv[3:], dict(os.environ, **dict([sys.argv[2].split("=")])))"""
# The loader's own start, after which the program is there.
LOADED = "LD_TRACE_LOADED_OBJECTS=1"
STAGES = 4096

_, STEPS, ANSWERS = SCRIPTS[0]
COMMANDS = [
    Case("report", ["report", "r.json"], FIRST_RUN, files={"r.json": R}),
    Case("report of standard input", ["report"], FIRST_RUN, stdin=R),
    Case("report of 4,096 stages", ["report", "large"], chain_report(STAGES), files={"large": chain_of(STAGES)}),
    Case("explain", ["explain", "r.json", "b"], EXPLAINED_B, files={"r.json": R}),
    Case("explain of 4,096 stages", ["explain", "large", f"s{STAGES - 1}"], chain_explained(STAGES), files={"large": chain_of(STAGES)}),
    Case("explain without a stage", ["explain", "--quiet", "r.json"], EXPLAINED_B, files={"r.json": R}),
    Case("sweep", ["sweep", "r.json", "b"], SWEPT, files={"r.json": R}),
    Case("sweep by no percentage", ["sweep", "--by", "100%", "r.json", "b"], "", 2, files={"r.json": R}),
    Case("slack", ["slack", "r.json", "b"], TOLD_OF_B, files={"r.json": R}),
    Case("rescue", ["rescue", "--by", "14", "r.json", "b"], SAVED_B, files={"r.json": R}),
    Case("ends", ["ends"], lines("ends of version 0 ends 4096", *[f"m{it} cancel at {it} struck" for it in range(STAGES)]), stdin=recording(*[stage("manual", f"m{it}", ends=[{"at": it, "do": "cancel"}]) for it in range(STAGES)])),
    Case("failures", ["failures"], fan_of_failures(STAGES), stdin=failed_fan(STAGES)),
    Case("try", ["try", "--quiet", "r.json", "a runs=50%"], HALF, files={"r.json": R}),
    Case("compare", ["compare", "r.json", "-", "b"], OF_ITSELF, files={"r.json": R}, stdin=R),
    Case("compare of 4,096 stages without a stage", ["compare", "--quiet", "large", "large"], chain_compared(STAGES), files={"large": chain_of(STAGES)}),
    Case("compare of 4,096 stages", ["compare", "large", "large", f"s{STAGES - 1}"], chain_compared(STAGES), files={"large": chain_of(STAGES)}),
    Case("serve", ["serve", "r.json"], ANSWERS, files={"r.json": R}, stdin=lines(*STEPS)),
    # (the last version of the script has a bare pin)
    Case("export", ["export", "r.json", "s"], lines(RECORDED, '{"name":"a","op":"async","runs":10,"action":4,"pinResult":{"bare":"X"}},', RECORDED_B, "]}"), files={"r.json": R, "s": lines(*STEPS)}),
    Case("export of 4,096 stages", ["export", "large", "s"], chain_written(STAGES), files={"large": chain_of(STAGES), "s": ""}),
    Case("help", ["--help"], None),
    Case("an unknown word", ["nonsense"], "", 2),
    # (words so long that the text about them alone asks the system for more)
    Case("an unknown word of 100,000 letters", ["n" * 100_000], "", 2),
    Case("a word too many of 60,000 letters", ["report", *["y" * 60_000] * 5], "", 2),
    Case("many", ["many", "r.json", "s"], lines("script 1") + ANSWERS + lines("log 3"), files={"r.json": R, "s": lines(*STEPS)}),
]

# A recording of 16 MB, most of which is labels, and what has to be enough for it, in kilobytes of address space: what is asked for goes
# by what a text has, and not by its length alone, so that more room is never too little.
LABELLED_STAGES = 4_000
LABELLED = Case(
    "report of 4,000 stages with labels of 4,000 bytes",
    ["report", "labelled"],
    chain_report(LABELLED_STAGES),
    files={"labelled": lambda: chain_of(LABELLED_STAGES).replace('"op"', f'"x-label": "{"y" * 4_000}", "op"')},
)
ENOUGH = range(60_000, 160_000, 4_000)


def under(program, case, kilobytes, name="LANG=C.UTF-8"):
    become = shlex.join([sys.executable, "-I", "-S", "-c", BECOME, str(kilobytes), name])
    return run(program, dataclasses.replace(case, shell=f'set -- {become} "$@";'))


def essence(answer):
    """What is compared of an answer: what is wrong with a command line is told on standard error alone."""
    return answer.status, answer.out, answer.err if answer.status == 2 else b""


def least(low, is_enough):
    """About the least number of kilobytes from `low` on that is enough: first by growing steps, then by halves."""
    step = 64
    while not is_enough(low + step) and step < 1 << 20:
        low, step = low + step, 2 * step
    high = low + step
    while low + 4 < high:
        middle = (low + high) // 2
        low, high = (low, middle) if is_enough(middle) else (middle, high)
    return high


def complaint(case, answer, ordinary):
    """The ordinary answer is right, and so is a beginning of it with the line that memory ran out, or with several scripts threads."""
    if essence(answer) == essence(ordinary):
        return ""
    for last in (OUT_OF_MEMORY, NO_THREAD) if case.words[0] == "many" else (OUT_OF_MEMORY,):
        if answer.status == 4 and answer.out.endswith(last) and ordinary.out.startswith(answer.out[: -len(last)]):
            return ""
    return f"wanted status 4 and {shown(OUT_OF_MEMORY)}, or the ordinary answer; came {answer.status} and {shown(answer.out)}; standard error: {shown(answer.err)}"


def sweep(program, case, steps):
    """Runs between what the loader needs and what the ordinary answer needs; the complaints, and the refusals that came."""
    ordinary = run(program, case)
    begin = least(1024, lambda it: under(program, case, it, LOADED).status == 0)
    end = least(begin, lambda it: essence(under(program, case, it)) == essence(ordinary))
    met = set()
    for kilobytes in range(begin, end + 8, max(4, (end - begin) // steps)):
        answer = under(program, case, kilobytes)
        met |= refusals(answer.out)
        said = complaint(case, answer, ordinary)
        if said:
            return f"with {kilobytes} KB of address space (the loader takes {begin}, the answer {end}): {said}", met
    return "", met


def refused_in(program, case, limits):
    """The first complaint of the case under one of these limits, each of which is enough; and the refusals that came."""
    met = set()
    for kilobytes in limits:
        answer = under(program, case, kilobytes)
        met |= refusals(answer.out)
        if essence(answer) != (case.status, case.out.encode(), b""):
            return f"with {kilobytes} KB of address space came {answer.status} and {shown(answer.out)}; standard error: {shown(answer.err)}", met
    return "", met


def memory(program, has_many, steps=30):
    """Each command's name, its first complaint or nothing, and the refusals that came."""
    yield f"little address space: {LABELLED.name}", *refused_in(program, LABELLED, ENOUGH)
    tried = [it for it in COMMANDS if has_many or it.words[0] != "many"]
    with concurrent.futures.ThreadPoolExecutor(LANES) as lanes:
        for case, (said, met) in zip(tried, lanes.map(lambda it: sweep(program, it, steps), tried)):
            yield f"too little address space: {case.name}", said, met
