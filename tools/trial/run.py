"""Runs the program in a folder of its own, and tells where what came is not what was wanted."""
import concurrent.futures
import os
import re
import shutil
import signal
import subprocess
import tempfile
import threading
from dataclasses import dataclass, field
from typing import Any, NamedTuple

LANES = 4
NOBODY = 65534
# a run is ended only so many seconds after those that it may take where nothing else runs: that one never ends is a fault, that a machine is busy is none
PATIENCE = 120


@dataclass(frozen=True)
class Case:
    """One run of the program. What is large is a function that makes it, called when the case is run."""

    name: str
    words: list
    out: Any  # standard output: text, bytes, a compiled pattern of the whole of it, or None where it isn't looked at
    status: Any = 0  # a number, or several of which one is wanted
    err: str = ""  # a pattern that stands somewhere in standard error
    stdin: Any = b""  # text, bytes, File, Closed, or Pieces
    stdout: str = "pipe"  # or "full", "closed", "gone" (a pipe that nobody reads)
    files: dict = field(default_factory=dict)
    shell: str = ""  # what bash does before it becomes the program
    nobody: bool = False  # by the user nobody, where the trial is run by root
    seconds: float = 10  # how long it may take where nothing else runs


@dataclass(frozen=True)
class File:
    """Standard input is this file, or folder."""

    path: str


@dataclass(frozen=True)
class Pieces:
    """Standard input comes in these pieces, each by a write of its own; they may be endless."""

    make: Any


@dataclass(frozen=True)
class Sparse:
    """A file of so many bytes 0."""

    size: int


@dataclass(frozen=True)
class Shut:
    """A file that may not be read; the program is then run by a user who may read no file of others."""

    content: str


CLOSED = object()
STARTING = threading.Lock()


class Answer(NamedTuple):
    status: Any
    out: bytes
    err: bytes


def as_bytes(what):
    what = what() if callable(what) else what
    return what.encode() if isinstance(what, str) else what


def in_folder(case, folder):
    """Writes the files of the case."""
    for name, content in case.files.items():
        path = os.path.join(folder, name)
        if content is None:
            os.mkdir(path)
            continue
        with open(path, "wb") as file:
            if isinstance(content, Sparse):
                file.truncate(content.size)
            else:
                file.write(as_bytes(content.content if isinstance(content, Shut) else content))
        os.chmod(path, 0 if isinstance(content, Shut) else 0o644)


def streams(case, folder, opened):
    """Standard input and output as `Popen` takes them; what is opened for them is closed by the caller."""
    if isinstance(case.stdin, File):
        given = os.open(os.path.join(folder, case.stdin.path), os.O_RDONLY)
        opened.append(given)
    else:
        given = subprocess.DEVNULL if case.stdin is CLOSED else subprocess.PIPE
    taken = subprocess.PIPE
    if case.stdout == "full":
        taken = os.open("/dev/full", os.O_WRONLY)
        opened.append(taken)
    elif case.stdout == "gone":
        reader, taken = os.pipe()
        os.close(reader)
        opened.append(taken)
    return given, taken


def feed(pipe, pieces):
    """Writes the pieces one by one, until they end or nobody reads them."""
    try:
        for piece in pieces:
            pipe.write(piece)
            pipe.flush()
    except (BrokenPipeError, ValueError):
        pass
    try:
        pipe.close()
    except BrokenPipeError:
        pass


def finish(child, case):
    """Gives the program what it is to read, and waits for its end."""
    try:
        if isinstance(case.stdin, Pieces):
            pipe, child.stdin = child.stdin, None
            threading.Thread(target=feed, args=(pipe, case.stdin.make()), daemon=True).start()
            out, err = child.communicate(timeout=PATIENCE + case.seconds)
        else:
            given = None if child.stdin is None else as_bytes(case.stdin)
            out, err = child.communicate(given, timeout=PATIENCE + case.seconds)
        return Answer(child.returncode, out or b"", err or b"")
    except subprocess.TimeoutExpired:
        os.killpg(child.pid, signal.SIGKILL)
        out, err = child.communicate()
        return Answer(f"none after {PATIENCE + case.seconds} s", out or b"", err or b"")


def start(program, case, folder):
    """Starts the program in the folder."""
    closed = (" <&-" if case.stdin is CLOSED else "") + (" >&-" if case.stdout == "closed" else "")
    who, opened = {}, []
    # (a child that is started meanwhile would hold what is open here, until it becomes another program)
    with STARTING:
        if os.geteuid() == 0 and (case.nobody or any(isinstance(it, Shut) for it in case.files.values())):
            # (the folders above the program may be closed to others)
            program = shutil.copy(program, os.path.join(folder, "the-program"))
            os.chmod(program, 0o755)
            who = {"user": NOBODY, "group": NOBODY, "extra_groups": []}
        words = ["bash", "-c", f'ulimit -c 0; {case.shell} exec "$@"{closed}', "bash", program, *case.words]
        try:
            given, taken = streams(case, folder, opened)
            how = {"stdin": given, "stdout": taken, "stderr": subprocess.PIPE, "cwd": folder, "start_new_session": True}
            return subprocess.Popen(words, **how, **who, env={"PATH": "/usr/local/bin:/usr/bin:/bin", "LANG": "C.UTF-8"})
        finally:
            for it in opened:
                os.close(it)


def run(program, case):
    """Runs the case in a folder of its own."""
    with tempfile.TemporaryDirectory(prefix="try-program-") as folder:
        os.chmod(folder, 0o755)
        in_folder(case, folder)
        try:
            child = start(program, case, folder)
        except OSError as error:
            return Answer(f"none: {error}", b"", b"")
        return finish(child, case)


def shown(what, at=0):
    """What stands there, shortened, from a little before the byte `at`."""
    if isinstance(what, re.Pattern):
        return f"what matches {what.pattern!r}"[:240]
    begin = max(0, at - 60)
    text = repr(what[begin : begin + 160])[1:]
    return f"{text} ({len(what)} bytes, from byte {begin})" if len(what) > 160 else text


def first_difference(one, other):
    if one == other:
        return len(one)
    low, high = 0, min(len(one), len(other))
    while low < high:
        middle = (low + high + 1) // 2
        low, high = (middle, high) if one[:middle] == other[:middle] else (low, middle - 1)
    return low


def refusals(out):
    """The numbers of the refusals in the first and last lines of an output."""
    return {int(it) for it in re.findall(rb"(?m)^refused (\d+)", out[:100_000] + out[-100:])}


def complaint(case, answer):
    """What was wanted and what came, or nothing where that is the same."""
    said = []
    statuses = case.status if isinstance(case.status, tuple) else (case.status,)
    if answer.status not in statuses:
        said.append(f"wanted status {' or '.join(map(str, statuses))}, came {answer.status}")
    wanted = case.out if case.out is None or isinstance(case.out, re.Pattern) else as_bytes(case.out)
    if isinstance(wanted, re.Pattern) and not wanted.fullmatch(answer.out):
        said.append(f"wanted {shown(wanted)}, came {shown(answer.out)}")
    elif isinstance(wanted, bytes) and wanted != answer.out:
        at = first_difference(wanted, answer.out)
        said.append(f"wanted {shown(wanted, at)}, came {shown(answer.out, at)}")
    if case.err and not re.search(case.err.encode(), answer.err):
        said.append(f"wanted {case.err!r} in standard error, came {shown(answer.err)}")
    elif said and answer.err:
        said.append(f"standard error: {shown(answer.err)}")
    return "; ".join(said)


def has_many(program):
    """Whether the program's help lists the subcommand `many`; else it is told that the cases of it are left out."""
    found = re.search(rb"(?m)^\s+many\b", run(program, Case("help", ["--help"], None)).out)
    if not found:
        print("note: the program's help names no subcommand `many`, so its cases are left out")
    return bool(found)


def run_all(program, cases):
    """Each case's name, its complaint or nothing, and the numbers of the refusals that were printed."""

    def told(case):
        answer = run(program, case)
        return case.name, complaint(case, answer), refusals(answer.out)

    with concurrent.futures.ThreadPoolExecutor(LANES) as lanes:
        yield from lanes.map(told, cases)
