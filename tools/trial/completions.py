"""The completions and the manual page: each names the commands and options that the program's help does, and no others."""
import os
import re
import shutil
import subprocess
import tempfile

from .cases import R
from .readme import read
from .run import Case, run

# Sources the completion, puts words where bash does, and prints what is offered.
BASH = """source "$1"; shift; COMP_WORDS=(whatif "${@:3}"); COMP_CWORD=$2
_whatif "$1" "${COMP_WORDS[$2]}" "${COMP_WORDS[$2 - 1]}"; printf '%s\\n' "${COMPREPLY[@]}\""""
# A trace, and its id.
TRACE, TRACED = "late-order.otlp.trace", "7d1c0f5e2ab94c6e8f3a5b1d9e7c2a40"
# What reads a file without doing it, and the words before the file's name. What isn't on the machine is passed over.
READERS = [
    ("bash", ["-n"], "completions/whatif.bash"),
    ("zsh", ["-n"], "completions/_whatif"),
    ("fish", ["--no-execute"], "completions/whatif.fish"),
    ("groff", ["-t", "-man", "-ww", "-z"], "docs/whatif.1"),
    ("mandoc", ["-T", "lint", "-W", "error"], "docs/whatif.1"),
]


def helped(program, words):
    """The commands and the options that the help names."""
    text = run(program, Case("help", [*words, "--help"], None)).out.decode()
    commands = re.search(r"(?m)^Commands:\n((?: .*\n)*)", text)
    options = re.search(r"(?m)^Options:\n((?: .*\n)*)", text)
    named = re.findall(r"(?m)^  (\w+)  ", commands[1]) if commands else []
    lines = re.findall(r"(?m)^ +(-.*?)(?:  |$)", options[1]) if options else []
    return named, {it for line in lines for it in re.findall(r"--?[A-Za-z][\w-]*", line)}


def levels(program):
    """The options of each command, and under the empty name those of the program."""
    commands, options = helped(program, [])
    # (`help` takes the name of a command, and no option)
    return {"": options, **{it: set() if it == "help" else helped(program, [it])[1] for it in commands}}


def offered(top, program, folder, *words):
    """What bash offers for the last word."""
    completion = os.path.join(top, "completions", "whatif.bash")
    given = ["bash", "--norc", "-c", BASH, "bash", completion, program, str(len(words)), *words]
    return subprocess.run(given, cwd=folder, capture_output=True, text=True, check=False, timeout=20).stdout.split()


def in_bash(top, program, folder):
    """The options of each command as bash offers them, by running its completion."""
    commands = offered(top, program, folder, "")
    return {it: {*offered(top, program, folder, *filter(None, [it]), "-")} for it in ["", *commands]}


def in_zsh(top):
    page = read(top, "completions/_whatif")
    # (the options that stand under a name of their own)
    named = {it: {*re.findall(r"['\)](--?[\w-]+)", re.search(rf"(?m)^ +{it}=\((.*)\)$|[ ;]{it}=\((.*)\)$", page)[0])} for it in ("help", "version", "quiet", "strict", "format")}
    commands = re.findall(r"(?m)^    '(\w+):", page)
    arguments = {it: re.search(rf"(?m)^    {it}\) (.*)$", page) for it in commands}
    told = {it: found[1] if found else "" for it, found in {**arguments, "": re.search(r"_arguments -C (.*)", page)}.items()}
    return {it: {*re.findall(r"'(?:\([^']*?\))?(--[\w-]+)", line), *(option for name in named if f"${name}" in line for option in named[name])} for it, line in told.items()}


def in_fish(top):
    found = {"": set()}
    for line in read(top, "completions/whatif.fish").splitlines():
        condition = re.match(r'complete -c whatif -n "([^"]*)"', line)
        # (an option of the program alone, before any command)
        if condition and condition[1] == "not __fish_seen_subcommand_from $commands" and re.search(r" -l ", line):
            found[""] |= {f"--{it}" for it in re.findall(r" -l ([\w-]+)", line)} | {f"-{it}" for it in re.findall(r" -s (\w)", line)}
            continue
        name = re.search(r"not __fish_seen_subcommand_from \$commands\" -a (\w+)", line)
        options = {f"--{it}" for it in re.findall(r" -l ([\w-]+)", line)} | {f"-{it}" for it in re.findall(r" -s (\w)", line)}
        if name:
            found[name[1]] = set()
        elif condition and condition[1] == "not __fish_seen_subcommand_from help":
            # (by then all commands were named)
            for command in found.keys() - {"help"}:
                found[command] |= options
        elif condition and options:
            for command in re.match(r"__fish_seen_subcommand_from ([\w ]+)", condition[1])[1].split():
                found[command] |= options
    return found


def in_manual(top):
    """The options under each command's title, and those of all commands."""
    page = re.sub(r'\\f[BIRP]|"', "", read(top, "docs/whatif.1").replace("\\-", "-"))
    parts = {it[1]: it[2] for it in re.finditer(r"(?m)^\.SH (.*)\n((?:(?!\.SH).*\n)*)", page)}

    def options(text):
        return {it for line in re.findall(r"(?m)^\.TP\n\.\w+ (.*)", text) for it in re.findall(r"--?[A-Za-z][\w-]*", line)}

    common = options(parts["OPTIONS"]) - {"-V", "--version"}
    program = options(parts["OPTIONS"])
    own = {it[1]: options(it[2]) for it in re.finditer(r"(?m)^\.SS (\w+)\n((?:(?!\.SS).*\n)*)", parts["COMMANDS"])}
    return {"": program, **{name: found if name == "help" else found | common for name, found in own.items()}}


def differences(wanted, found):
    """Where the commands and options are not those of the help, told; or nothing."""
    said = [f"commands: {sorted(wanted.keys() ^ found.keys())}"] if wanted.keys() != found.keys() else []
    said += [f"options of {it or 'the program'}: {sorted(wanted[it] ^ found[it])}" for it in wanted.keys() & found.keys() if wanted[it] != found[it]]
    return f"these differ from the help: {'; '.join(said)}" if said else ""


def words_in_bash(top, program, folder):
    """What bash offers that is no option: what was typed, and what is wanted."""
    for typed, wanted in (
        (["sw"], ["sweep"]),
        (["check", "--s"], ["--strict"]),
        (["help", ""], ["report", "explain", "sweep", "slack", "rescue", "ends", "failures", "try", "compare", "draw", "page", "check", "serve", "console", "export", "many", "import", "fleet", "new", "help"]),
        (["explain", "r.json", ""], ["a", "b"]),
        (["sweep", "--top", "1", "r.json", "b"], ["b"]),
        (["explain", "r.json", "a", ""], []),
        (["explain", "absent", ""], []),
        (["sweep", "--", "r.json", ""], ["a", "b"]),
        (["sweep", "--", "-"], []),
        (["sweep", "--top", ""], []),
        (["sweep", "--w"], ["--want"]),
        (["sweep", "--want", ""], ["value"]),
        (["sweep", "--by", ""], []),
        (["sweep", "--queued", "--by", "50%", "--want", "value", "r.json", ""], ["a", "b"]),
        (["sl"], ["slack"]),
        (["slack", "--w"], ["--within"]),
        (["slack", "--within", ""], []),
        (["slack", "--within", "1", "r.json", ""], ["a", "b"]),
        (["slack", "--within", "=", "1", "r.json", "b"], ["b"]),
        (["res"], ["rescue"]),
        (["rescue", "--a"], ["--as"]),
        (["rescue", "--by", ""], []),
        (["rescue", "--as", "null", "--by", "9", "r.json", ""], ["a", "b"]),
        (["rescue", "r.json", "--top", "1", "b"], ["b"]),
        (["co"], ["compare", "console"]),
        (["compare", "-"], ["--quiet", "--strict", "--format", "-h", "--help"]),
        (["compare", "r.json", ""], []),
        (["compare", "r.json", "r.json", ""], ["a", "b"]),
        (["compare", "--format", "json", "r.json", "absent", "b"], ["b"]),
        (["compare", "absent", "r.json", ""], []),
        (["compare", "r.json", "r.json", "a", ""], []),
        (["many", "--workers", "1"], ["1", *map(str, range(10, 17))]),
        (["many", "--workers", "=", ""], list(map(str, range(1, 17)))),
        (["import", "--unit", ""], ["us", "ns", "ms"]),
        (["fl"], ["fleet"]),
        (["fleet", "--by", ""], ["span", "service"]),
        (["fleet", "--reply", ""], []),
        (["fleet", "--p"], ["--part"]),
        (["draw", "--format", ""], ["svg", "trace"]),
        (["draw", "--what", "p"], ["path"]),
        (["draw", "--group", ""], ["service"]),
        (["draw", "--min", "5", "r.json", "--stage", ""], ["a", "b"]),
        (["draw", "--script", "s", "--version", "1", "r.json", "--stage", ""], ["a", "b"]),
        (["draw", "--stage", ""], []),
        (["draw", "r.json", "--stage", ""], ["a", "b"]),
        (["pa"], ["page"]),
        (["page", "-"], ["--stage", "--quiet", "--strict", "-h", "--help"]),
        (["page", "r.json", "--stage", ""], ["a", "b"]),
        (["page", "r.json", ""], []),
        (["page", "r.json", "s", ""], []),
        (["import", "--trace", ""], []),
        (["import", "t.trace", "--trace", ""], [TRACED]),
        (["import", "absent", "--trace", ""], []),
        (["fa"], ["failures"]),
        (["ends", "r.json", ""], []),
        (["ends", "-"], ["--quiet", "--strict", "--format", "-h", "--help"]),
        (["failures", "--o"], ["--origin"]),
        (["t"], ["try"]),
        (["try", "--sa"], ["--save"]),
        (["try", "--stage", ""], []),
        (["try", "r.json", ""], ["a", "b"]),
        (["try", "r.json", "a", "b"], ["b"]),
        (["try", "absent", ""], []),
        (["try", "--stage", "a", "--format", "j"], ["json"]),
        (["failures", "--origin", ""], []),
        (["failures", "r.json", "--origin", "b"], ["b"]),
        (["failures", "--origin", "a", "--format", "j"], ["json"]),
        (["report", ""], []),
        (["n"], ["new"]),
        (["new", ""], ["first", "timeout", "timer", "retry", "fallback", "breaker", "cache", "queue", "race", "batch"]),
        (["new", "ti"], ["timeout", "timer"]),
        (["new", "race", ""], []),
        (["new", "-"], ["-h", "--help"]),
        (["ex"], ["explain", "export"]),
        (["export", "r.json", "-"], ["--quiet", "--strict", "-h", "--help"]),
        (["export", "r.json", ""], []),
    ):
        came = offered(top, program, folder, *typed)
        yield f"bash offers for {' '.join(typed)!r}", "" if came == wanted else f"wanted {wanted}, came {came}"


def refusals(top):
    """The refusals that the manual page tells and those of docs/FORMATS.md, by number and name."""
    told = {*re.findall(r"(?m)^(\d+)\t(\w+)\t", read(top, "docs/whatif.1"))}
    meant = {*re.findall(r"(?m)^\| (\d+) \| `(\w+)`", read(top, "docs/FORMATS.md"))}
    return "" if told == meant else f"these differ: {sorted(told ^ meant)}"


def readable(top):
    for reader, words, name in READERS:
        if shutil.which(reader):
            done = subprocess.run([reader, *words, os.path.join(top, name)], capture_output=True, text=True, check=False, timeout=60)
            said = (done.stderr + done.stdout).strip()
            yield f"{reader} reads {name}", said[:300] or f"status {done.returncode}" if said or done.returncode else ""


def completions(top, program):
    """The name of each case, its complaint or nothing, and no refusal."""
    wanted = levels(program)
    with tempfile.TemporaryDirectory(prefix="try-program-") as folder:
        with open(os.path.join(folder, "r.json"), "w", encoding="utf-8") as file:
            file.write(R)
        shutil.copy(os.path.join(top, "examples", TRACE), os.path.join(folder, "t.trace"))
        found = {"bash": in_bash(top, program, folder), "zsh": in_zsh(top), "fish": in_fish(top), "the manual page": in_manual(top)}
        told = [(f"{where} has the words of the help", differences(wanted, it)) for where, it in found.items()]
        told += words_in_bash(top, program, folder)
    told += [("the manual page has the refusals of docs/FORMATS.md", refusals(top)), *readable(top)]
    yield from ((name, said, set()) for name, said in told)
