"""Tries edits by a check of their functions alone."""
import os
import re
import shutil
import subprocess
import sys
import tempfile
from collections import Counter
from glob import glob
from importlib.machinery import SourceFileLoader
from importlib.util import module_from_spec, spec_from_loader

from edits.batches import halves
from edits.edit import BadEdit
from edits.goals import open_goals
from edits.texts import functions, text_of

# how a check tells that it knows no function of this path, and that it has ended with a function's proof
UNKNOWN = re.compile(r"has no function `([^`]*)`")
ENDED = re.compile(r"checked (?:\S+::)?(?P<name>[^\s:]+), \d+ of \d+$")


def toolchain():
    """The toolchain's own command, which knows how a crate is checked."""
    sys.dont_write_bytecode = True
    loader = SourceFileLoader("rt", os.path.realpath(shutil.which("rt") or sys.exit("the command rt (the Rattle toolchain) is needed to try edits, and isn't found")))
    module = module_from_spec(spec_from_loader("rt", loader))
    loader.exec_module(module)
    module.rtlib.guarded()
    return module


class Bench:
    """A crate whose edits are tried in turn, over a copy of what its checks kept where there is one."""

    def __init__(self, rt, crate):
        self.rt, self.crate = rt, crate
        self.room = tempfile.TemporaryDirectory(prefix="edits-")
        kept = f"{crate.folder}/out/incremental"
        if os.path.isdir(kept):
            shutil.copytree(kept, f"{self.room.name}/kept")

    def __enter__(self):
        return self

    def __exit__(self, *_):
        self.room.cleanup()

    def check(self, texts, functions):
        """A check of the functions, with these texts in place of the crate's own."""
        crate = self.crate
        with tempfile.TemporaryDirectory(dir=self.room.name) as folder:
            for part in self.rt.rtlib.PARTS:
                if os.path.isdir(f"{crate.folder}/{part}"):
                    shutil.copytree(f"{crate.folder}/{part}", f"{folder}/{part}")
            for path, text in texts.items():
                with open(f"{folder}/{path}", "w", encoding="utf-8") as changed:
                    changed.write(text)
            words = crate.words(["--jobs", "1", *(f"--only={it}" for it in functions)], keeps=False)
            words = [*self.rt.rtlib.guarded(), self.rt.rtlib.RATTLE, "check", *words, "--progress", "--incremental", f"{self.room.name}/kept"]
            os.makedirs(f"{self.room.name}/kept", exist_ok=True)
            return Check(words, folder)

    def answers(self, batch):
        """What happened to each edit of a batch by one check, None where the clause that the edit names refuses it, and its seconds."""
        texts, functions = {}, {}
        try:
            for edit in batch:
                texts = edit.texts(self.crate.folder, texts)
                functions[path_of(self.crate.folder, edit)] = edit.last_name
        except (BadEdit, OSError) as why:
            return {edit: (str(why), 0) for edit in batch}
        check = self.check(texts, functions)
        while (unknown := UNKNOWN.search(check.said)) and (name := functions.pop(unknown[1], None)):
            # one that a macro writes, or of a type that the source names in another way
            functions[name] = None
            check = self.check(texts, functions)

        def text_after(path):
            return texts[path] if path in texts else text_of(f"{self.crate.folder}/{path}")

        goals = open_goals(check.said, text_after)
        own = {edit: check.took[edit.last_name] for edit in batch}
        rest = (check.seconds - sum(own.values())) / len(batch)
        return {edit: (check.answer(edit, goals), own[edit] + rest) for edit in batch}

    def tried(self, batch):
        """Each edit of a batch with what happened to it and its seconds. What isn't refused is tried again, by halves."""
        answers = self.answers(batch)
        left = [it for it in batch if answers[it][0] and len(batch) > 1]
        yield from ((it, *answers[it]) for it in batch if it not in left)
        yield from ((it, told, answers[it][1] + seconds) for half in halves(left) for it, told, seconds in self.tried(half))


def processor_seconds(pid):
    """The processor time of a process until now."""
    with open(f"/proc/{pid}/stat", encoding="utf-8", errors="replace") as it:
        fields = it.read().rpartition(")")[2].split()
    return (int(fields[11]) + int(fields[12])) / os.sysconf("SC_CLK_TCK")


class Check:
    """A check as it ended: its status, what it said, its seconds on a processor, and those of the functions' proofs, by last names."""

    def __init__(self, words, folder):
        how = {"stdin": subprocess.DEVNULL, "stdout": subprocess.PIPE, "stderr": subprocess.STDOUT}
        lines, self.took, last = [], Counter(), None
        with subprocess.Popen(words, cwd=folder, text=True, errors="replace", **how) as ran:
            for line in ran.stdout:
                lines.append(line)
                if ended := ENDED.match(line):
                    # what the first one took isn't known: the libraries were read before it
                    now = processor_seconds(ran.pid)
                    self.took[ended["name"]] += 0 if last is None else now - last
                    last = now
            self.seconds = processor_seconds(ran.pid)
        self.status, self.said = ran.returncode, "".join(lines)

    def answer(self, edit, goals):
        """What happened to an edit by what is open: None where a goal of its clause is, and not for a name that is lost."""
        if self.status == 0:
            return "not refused: the function is still proved"
        if self.status != 1:
            return f"not tried: {first_error(self.said)}"
        own = [it for it in goals if it.is_of(edit.last_name)]
        if any(it.clause == edit.clause and not it.lost for it in own):
            return None
        told = "; ".join(f"{it}{', a name that is lost' if it.lost else ''}" for it in (own or goals)[:4])
        return f"refused elsewhere: {told or first_error(self.said)}"


def path_of(folder, edit):
    """The path by which a check names the function that is to refuse the edit; what the edit says where the sources don't tell."""
    *owner, name = edit.function.split("::")
    found = []
    for source in sorted(glob(f"{folder}/src/**/*.rt", recursive=True)):
        file = os.path.relpath(source, folder)
        found += [(file, fn) for fn in functions(text_of(source)) if fn.name == name and fn.owner.startswith("".join(owner[-1:]))]
    near = [(file, fn) for file, fn in found if file in edit.files()]
    turned = [(file, fn) for file, fn in near if any(old in fn.text for path, old, _ in edit.pairs if path == file)]
    file, fn = next((it[0] for it in (turned, near, found) if len(it) == 1), (None, None))
    if fn is None:
        return edit.function
    # a method's path begins with the module of its type, which may be another file's
    is_known = fn.owner and sum(it.path == fn.path for _, it in found) == 1
    return fn.path if is_known else f"{module_of(file)}{fn.path}"


def module_of(file):
    """The path of a source file's module, as a function's name begins."""
    parts = file.removeprefix("src/").removesuffix(".rt").split("/")
    return "".join(f"{it}::" for it in parts if it not in ("lib", "main", "mod"))


def first_error(said):
    """The first line that tells of an error, not of what a macro of that name wrote."""
    lines = said.split("\n")
    return next((it for it in lines if re.search(r"\berror\b", it) and not it.startswith("by-macro")), lines[-1])[:300]
