"""A person at the other end, who waits for each answer before the next step."""
import os
import pty
import select
import subprocess
import tempfile

from .cases import FIRST_RUN, R, SCRIPTS
from .devices import SPAN
from .run import shown
from .tried import HALF
from .why import EXPLAINED_A

SECONDS = 120


def heard(child, wanted):
    """What the program writes, up to as much as is wanted, or until nothing more comes."""
    came = b""
    while len(came) < len(wanted):
        ready, _, _ = select.select([child.stdout], [], [], SECONDS)
        piece = os.read(child.stdout.fileno(), 4096) if ready else b""
        if not piece:
            break
        came += piece
    return came


def conversation(child, steps, answers):
    """The first answer that isn't the wanted one, told; or nothing."""
    for at, (asked, wanted) in enumerate(zip(steps, answers)):
        child.stdin.write(f"{asked}\n".encode())
        child.stdin.flush()
        came = heard(child, f"{wanted}\n".encode())
        if came != f"{wanted}\n".encode():
            return f"step {at}: wanted {wanted!r} before the next step, came {shown(came)}"
    child.stdin.close()
    status = child.wait(timeout=SECONDS)
    return f"wanted status 0, came {status}" if status else ""


def at_once(child, steps, answers):
    """Steps that come by one write, and their answers before the end of the script."""
    wanted = "".join(f"{it}\n" for it in answers).encode()
    child.stdin.write("".join(f"{it}\n" for it in steps).encode())
    child.stdin.flush()
    came = heard(child, wanted)
    child.stdin.close()
    child.wait(timeout=SECONDS)
    return "" if came == wanted else f"wanted {shown(wanted)} before the script ended, came {shown(came)}"


# What is typed at a terminal, by which words it is read, what is printed, and what is said to be read.
TYPED = [
    (["report"], R, FIRST_RUN, "recording"),
    (["report", "-"], R, FIRST_RUN, "recording"),
    (["explain", "-", "a"], R, EXPLAINED_A, "recording"),
    (["ends"], R, "ends of version 0 ends 0\n", "recording"),
    (["failures", "--origin", "a"], R, "failures of version 0 failures 0\n", "recording"),
    (["try", "--stage", "b", "-", "a runs=50%"], R, HALF, "recording"),
    (["check", "-"], R, "", "recording"),
    (["import", "--quiet", "-"], SPAN, None, None),
    (["import", "-"], SPAN, None, "trace"),
]


def terminal(program, words, text, wanted, what):
    """What is said where a person has named no file, or standard input, who then types a recording or a trace and its end."""
    master, slave = pty.openpty()
    child = subprocess.Popen([program, *words], stdin=slave, stdout=subprocess.PIPE, stderr=subprocess.PIPE)
    os.close(slave)
    try:
        os.write(master, f"{text}\n\x04".encode())
        out, err = child.communicate(timeout=SECONDS)
    except subprocess.TimeoutExpired:
        return "it doesn't end"
    finally:
        child.kill()
        child.wait()
        os.close(master)
    if wanted is not None and out.decode() != wanted:
        return f"wanted {shown(wanted.encode())}, came {shown(out)}"
    said = f"whatif: the {what} is read from standard input, to its end\n" if what else ""
    return "" if err.decode() == said else f"wanted {said!r} in standard error, came {shown(err)}"


def talk(program):
    """The name of each case, and its complaint or nothing."""
    yield from talked(program, "each answer goes out before the next step is waited for", conversation)
    yield from talked(program, "answers to steps of one write go out before the next is waited for", at_once)
    for words, text, wanted, what in TYPED:
        yield f"at a terminal {' '.join(words)} says what it reads", terminal(program, words, text, wanted, what), set()


def talked(program, name, how):
    """A conversation with the program, by one of the ways above."""
    _, steps, answers = SCRIPTS[2]
    with tempfile.TemporaryDirectory(prefix="try-program-") as folder:
        path = os.path.join(folder, "r.json")
        with open(path, "w", encoding="utf-8") as file:
            file.write(R)
        child = subprocess.Popen([program, "serve", path], stdin=subprocess.PIPE, stdout=subprocess.PIPE, stderr=subprocess.DEVNULL)
        try:
            said = how(child, steps[:7], answers.splitlines()[:7])
        except (BrokenPipeError, subprocess.TimeoutExpired) as error:
            said = f"the program and its reader lost each other: {error}"
        finally:
            child.kill()
            child.wait()
        yield name, said, set()
