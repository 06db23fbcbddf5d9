"""Devices that give or take a byte at a time, take nothing, or fail: the program's reads and writes are changed on their way.

The program is traced, so that each read of one file and each write of its output stops it, and can be made smaller or be
answered in place of the system. Where nothing can be traced, or the machine is no x86-64, the cases are left out, and a line says so.
"""
import ctypes
import errno
import os
import platform
import signal
import tempfile
from dataclasses import dataclass, replace

from .cases import FIRST_RUN, NO_READ, OPEN, R, SCRIPTS, lines, step
from .rescue import SAVED_B
from .compare import OF_ITSELF
from .run import first_difference, shown
from .slack import TOLD_OF_B
from .tried import HALF
from .why import EXPLAINED_B, RECORDED, RECORDED_B, SWEPT_B

TRACEME, GETREGS, SETREGS, SYSCALL, SETOPTIONS = 0, 12, 13, 24, 0x4200
OPTIONS = 1 | 8 | 16 | 0x100000  # stops at calls are told apart; threads and a new program are followed; all ends with the tracer
ALL_OF_THIS_THREAD = 0x60000000
READ, WRITE, NO_CALL = 0, 1, 2**64 - 1
ALL = 1 << 20
NO_TRACING = 77


class Registers(ctypes.Structure):
    _fields_ = [(it, ctypes.c_ulonglong) for it in "r15 r14 r13 r12 rbp rbx r11 r10 r9 r8 rax rcx rdx rsi rdi orig_rax rip cs eflags rsp ss fs_base gs_base ds es fs gs".split()]


LIBC = ctypes.CDLL(None, use_errno=True)
LIBC.ptrace.argtypes = [ctypes.c_long, ctypes.c_long, ctypes.c_void_p, ctypes.c_void_p]
LIBC.ptrace.restype = ctypes.c_long


@dataclass(frozen=True)
class Device:
    """Gives or takes at most so many bytes at a time. The call of number `at`, from 1, is answered with `answer` instead, and
    where that lasts each later one too."""

    at_once: int = ALL
    at: int = 0
    answer: int = -errno.EIO
    lasts: bool = False

    def answers(self, call):
        return 0 < self.at <= call if self.lasts else call == self.at


class Traced:
    """One run of the program between two devices: one for the reads of a file, one for the writes of the output."""

    def __init__(self, words, stdin, read, out, reader, writer):
        self.devices = {READ: (reader, read), WRITE: (writer, out)}
        self.sizes = {READ: [], WRITE: []}  # of each call
        self.inside = {}
        self.child = os.fork()
        if self.child == 0:
            begin(words, stdin, out)
        os.waitpid(self.child, 0)
        LIBC.ptrace(SETOPTIONS, self.child, None, OPTIONS)
        self.status = self.follow()

    def follow(self):
        """Goes on from stop to stop; the status at the end."""
        LIBC.ptrace(SYSCALL, self.child, None, None)
        while True:
            thread, status = os.waitpid(-1, ALL_OF_THIS_THREAD)
            if not os.WIFSTOPPED(status):
                if thread == self.child:
                    return os.waitstatus_to_exitcode(status)
                continue
            signaled = os.WSTOPSIG(status)
            if signaled == signal.SIGTRAP | 0x80:
                self.stopped_at_call(thread)
            passed_on = None if signaled in (signal.SIGTRAP | 0x80, signal.SIGTRAP, signal.SIGSTOP) else signaled
            LIBC.ptrace(SYSCALL, thread, None, passed_on)

    def stopped_at_call(self, thread):
        if thread in self.inside:
            answer = self.inside.pop(thread)
            if answer is not None:
                registers = self.registers(thread)
                registers.rax = answer % 2**64
                LIBC.ptrace(SETREGS, thread, None, ctypes.addressof(registers))
        else:
            self.inside[thread] = self.entered(thread)

    def entered(self, thread):
        """What answers the call in place of the system, or nothing."""
        registers = self.registers(thread)
        device, path = self.devices.get(registers.orig_rax, (None, ""))
        if device is None or self.opened(registers.rdi) != path:
            return None
        registers.rdx = min(registers.rdx, device.at_once)
        sizes = self.sizes[registers.orig_rax]
        sizes.append(registers.rdx)
        is_answered = device.answers(len(sizes))
        if is_answered:
            registers.orig_rax = NO_CALL
        LIBC.ptrace(SETREGS, thread, None, ctypes.addressof(registers))
        return device.answer if is_answered else None

    def registers(self, thread):
        registers = Registers()
        LIBC.ptrace(GETREGS, thread, None, ctypes.addressof(registers))
        return registers

    def opened(self, number):
        try:
            return os.readlink(f"/proc/{self.child}/fd/{number}")
        except OSError:
            return None


def begin(words, stdin, out):
    """Becomes the program, which waits to be traced."""
    try:
        os.dup2(os.open(stdin, os.O_RDONLY), 0)
        os.dup2(os.open(out, os.O_WRONLY | os.O_CREAT | os.O_TRUNC), 1)
        if LIBC.ptrace(TRACEME, 0, None, None) == 0:
            os.kill(os.getpid(), signal.SIGSTOP)
            os.execve(words[0], words, {"LANG": "C.UTF-8"})
    finally:
        os._exit(NO_TRACING)


def can_trace():
    child = os.fork()
    if child == 0:
        os._exit(0 if LIBC.ptrace(TRACEME, 0, None, None) == 0 else NO_TRACING)
    return os.waitpid(child, 0)[1] == 0 and platform.machine() == "x86_64"


# A trace of one span.
SPAN = '{"data":[{"traceID":"7","spans":[{"traceID":"7","spanID":"1","operationName":"o","startTime":5,"duration":3,"processID":"p"}],"processes":{"p":{"serviceName":"s"}}}]}'


@dataclass(frozen=True)
class Played:
    """A command, the file whose reads are looked at, what it answers (None: what it does where no device is between), and what
    it has answered after so many bytes of that file."""

    name: str
    words: list
    read: str
    answer: any
    stdin: str = "/dev/null"
    after: any = None
    files: any = None


PIN_BARE = [
    (OPEN, lines("opened 1 at 0")),
    (step("pinResult", session=1, stage="a", result={"bare": "X"}), lines("committed 1")),
    (step("report", version=1, what="all"), lines("version 1 parent 0 mode computed stages 2", "a async rank 0 bare:X at 10", "b thenApply rank 1 wrapped:X at 10")),
    (step("report", version=1, what="blame", stage="b"), lines("blame b a")),
    (step("report", version=1, what="changes"), lines("changes of version 1 from 0 touched 2", "a value:4 at 10 -> bare:X at 10", "b value:5 at 15 -> wrapped:X at 10")),
    (step("report", version=1, what="drift"), lines("drift of version 1 from 0 moved 1", "b earlier 5")),
]
PINNED_BARE = lines(RECORDED, '{"name":"a","op":"async","runs":10,"action":4,"pinResult":{"bare":"X"}},', RECORDED_B, "]}")
_, STEPS, ANSWERS = SCRIPTS[2]
ANSWERS = ANSWERS.splitlines()
MOVED_AND_UNDONE = [*zip(STEPS[:7], map(lines, ANSWERS[:7])), (STEPS[7], lines(*ANSWERS[7:]))]
ENTRIES = {"a bare pin": 3, "a base that has moved, and a step back": 7}


def answered(rows, count):
    """The answers to the lines that end in the first bytes of a script, and that it can be read no further."""
    done, at = "", 0
    for asked, answer in rows:
        at += len(asked) + 1
        done += answer if at <= count else ""
    return done + NO_READ


def commands():
    made = [
        Played("report of a file", ["report", "r.json"], "r.json", FIRST_RUN),
        Played("report of standard input", ["report"], "r.json", FIRST_RUN, stdin="r.json"),
        Played("explain", ["explain", "r.json", "b"], "r.json", EXPLAINED_B),
        Played("explain without a stage", ["explain", "--quiet", "r.json"], "r.json", EXPLAINED_B),
        Played("sweep", ["sweep", "r.json", "b"], "r.json", lines(*SWEPT_B)),
        Played("slack", ["slack", "r.json", "b"], "r.json", TOLD_OF_B),
        Played("rescue", ["rescue", "--by", "14", "r.json", "b"], "r.json", SAVED_B),
        Played("ends", ["ends", "r.json"], "r.json", "ends of version 0 ends 0\n"),
        Played("failures", ["failures", "--origin", "a", "r.json"], "r.json", "failures of version 0 failures 0\n"),
        Played("try", ["try", "--stage", "b", "r.json", "a runs=50%"], "r.json", HALF),
        Played("compare", ["compare", "-", "r.json", "b"], "r.json", OF_ITSELF, stdin="r.json"),
        Played("draw", ["draw", "r.json", "--format", "trace", "--what", "path", "--stage", "a"], "r.json", None),
        Played("import", ["import", "--quiet", "s"], "s", None, files={"s": SPAN}),
    ]
    for name, rows in (("a bare pin", PIN_BARE), ("a base that has moved, and a step back", MOVED_AND_UNDONE)):
        files = {"s": lines(*[asked for asked, _ in rows])}
        told = "".join(answer for _, answer in rows)
        many = lines("script 1") + told + lines(f"log {ENTRIES[name]}")
        made += [
            Played(f"serve of {name}", ["serve", "r.json"], "s", told, "s", lambda count, rows=rows: answered(rows, count), files),
            Played(f"serve of {name}, its recording", ["serve", "r.json"], "r.json", told, "s", None, files),
            Played(f"many of {name}", ["many", "r.json", "s"], "s", many, files=files),
            Played(f"many of {name}, its recording", ["many", "--workers", "4", "r.json", "s"], "r.json", many, files=files),
        ]
    pinned = {"s": lines(*[asked for asked, _ in PIN_BARE])}
    made += [
        Played("export of a bare pin", ["export", "r.json", "s"], "s", PINNED_BARE, files=pinned),
        Played("export of a bare pin, its recording", ["export", "r.json", "s"], "r.json", PINNED_BARE, files=pinned),
    ]
    return made


class Bench:
    """A folder in which the commands are run between devices."""

    def __init__(self, program, folder, is_long):
        self.program, self.folder, self.is_long = program, os.path.realpath(folder), is_long

    def path(self, name):
        return name if name.startswith("/") else os.path.join(self.folder, name)

    def run(self, played, reader, writer):
        """The status, what was written, and the sizes of the reads and writes."""
        for name, text in {"r.json": R, **(played.files or {})}.items():
            with open(self.path(name), "w", encoding="utf-8") as file:
                file.write(text)
        words = [self.program, *[self.path(it) if it in ("r.json", "s") else it for it in played.words]]
        traced = Traced(words, self.path(played.stdin), self.path(played.read), self.path("out"), reader, writer)
        with open(self.path("out"), encoding="utf-8") as file:
            return traced.status, file.read(), traced.sizes

    def wrong(self, played, reader, writer, status, out):
        """What is wrong with a run, or nothing."""
        came = self.run(played, reader, writer)
        if came[:2] == (status, out):
            return ""
        at = first_difference(out, came[1])
        return f"reads by {reader}, writes by {writer}: wanted {status} and {shown(out, at)}, came {came[0]} and {shown(came[1], at)}"

    def turns(self, calls):
        """The numbers of calls that are tried: each one, or the first and the last ones and a few between."""
        return [it for it in range(1, calls + 1) if self.is_long or it < 3 or it > calls - 2 or it % 100 == 0]

    def failing_reads(self, played, device):
        _, _, sizes = self.run(played, device, Device())
        for at in self.turns(len(sizes[READ])):
            out = played.after((at - 1) * device.at_once) if played.after else NO_READ
            yield self.wrong(played, replace(device, at=at), Device(), 3, out)

    def failing_writes(self, played, reader, device):
        """Where each later write fails too, what came is what was taken before; else nothing is left out in its middle."""
        _, _, sizes = self.run(played, reader, device)
        for at in self.turns(len(sizes[WRITE])):
            taken = played.answer[: sum(sizes[WRITE][: at - 1])]
            yield self.wrong(played, reader, replace(device, at=at, lasts=True), 3, taken)
            status, out, _ = self.run(played, reader, replace(device, at=at))
            if status != 3 or not played.answer.startswith(out) or not out.startswith(taken):
                yield f"reads by {reader}, write {at} alone by {device}: wanted 3 and a beginning of the answer from {shown(taken)} on, came {status} and {shown(out)}"

    def cases(self, played):
        """What is done with a command: a name, and the complaints."""
        small, whole = Device(at_once=1), Device()
        yield "a byte at a time", (self.wrong(played, *it, 0, played.answer) for it in ((small, whole), (whole, small), (small, small)))
        yield "interrupted calls", (
            self.wrong(played, replace(small, at=at, answer=-errno.EINTR), replace(small, at=at, answer=-errno.EINTR), 0, played.answer) for at in (1, 2, 30, 100)
        )
        yield "a read that fails", (said for device in (small, whole) for said in self.failing_reads(played, device))
        for name, answer in (("fails", -errno.EIO), ("takes nothing", 0)):
            tried = ((whole, small), (small, whole), (whole, whole))
            yield f"a write that {name}", (said for reader, writer in tried for said in self.failing_writes(played, reader, replace(writer, answer=answer)))


def devices(program, has_many, is_long, only):
    """The name of each case, and its first complaint or nothing."""
    if not can_trace():
        print("note: the program can't be traced here, so the cases of devices that fail at some read or write are left out")
        return
    with tempfile.TemporaryDirectory(prefix="try-program-") as folder:
        bench = Bench(program, folder, is_long)
        for played in commands():
            if played.words[0] == "many" and not has_many:
                continue
            if played.answer is None:
                played = replace(played, answer=bench.run(played, Device(), Device())[1])
            for name, complaints in bench.cases(played):
                if only in (name := f"device: {played.name}: {name}"):
                    yield name, next(filter(None, complaints), ""), set()
