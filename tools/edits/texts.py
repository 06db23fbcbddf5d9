"""The texts that decide an edit: the functions that it turns and that are to refuse it, and the definitions that these name."""
import hashlib
import os
import re
from dataclasses import dataclass
from functools import cache
from glob import glob

WORD = re.compile(r"[^\W\d][\w-]*")
GHOST_USE = re.compile(r"^\s*(?:pub )?(?:ghost )?use (Rattle\.(\w+)\.specs\.[\w.]+)\.\{([^}]*)\}", re.M)
OWNER = re.compile(r"^(?:pub )?(?:unsafe )?(?:trait (?P<trait>\w+)|impl(?:<.*?>)? (?:(?:\w+::)*(?P<of>\w+)(?:<.*>)? for )?&?(?P<type>\w+))")
HEAD = re.compile(r"^(?P<indent> *)(?:pub(?:\(\w+\))? )?(?:final )?(?:const )?(?:unsafe )?fn (?P<name>\w+)", re.M)
SIGNATURE = re.compile(r"^(?:(?:pub|abbrev|unfoldable|opaque|infix\w*) )*(?:record |data )?(?:pub )?([^\s:{}()\[\],]+)(?: [^:=\n]*)?:(?=\s|$)")


@cache
def text_of(path):
    with open(path, encoding="utf-8") as source:
        return source.read()


@dataclass(frozen=True)
class Function:
    """A function of a source text: its name, what it belongs to as a check names that, and its text from its head to its end."""

    name: str
    owner: str
    text: str

    @property
    def path(self):
        return f"{self.owner}::{self.name}" if self.owner else self.name

    @property
    def body(self):
        """What stands in its braces, where these open at the end of a line that stands as far in as its head. Clauses stand further in."""
        indent = re.match(" *", self.text)[0]
        parts = re.split(rf"^{indent}(?:\S.*)?\{{$", self.text, maxsplit=1, flags=re.M)
        return parts[1] if len(parts) == 2 else ""


def owner_of(found):
    """What a check calls a trait, or an impl: that of a trait has the type's name, with a capital, and then the trait's."""
    return found["trait"] or (found["type"][0].upper() + found["type"][1:] + found["of"] if found["of"] else found["type"])


def functions(text):
    """Each function of a source text, laid out."""
    lines, owner = text.split("\n"), ""
    for at, line in enumerate(lines):
        head, outer = HEAD.match(line), OWNER.match(line)
        if outer:
            owner = owner_of(outer)
        if head:
            yield Function(head["name"], owner if head["indent"] else "", "\n".join(lines[at : end_of(lines, at, head["indent"])]))


def end_of(lines, at, indent):
    """The line after a function: it ends on the line of its head, with a brace that stands as far in as that, or, where it has no body, with a semicolon."""
    rest, braces = lines[at:], (f"{indent}}}", f"{indent}{{}}")
    has_body = not next((it for it in rest if it.endswith(("{", ";")) or it in braces), "").endswith(";")
    ends = (it for it, line in enumerate(rest, at) if line in braces or it == at and line.endswith("}") or not has_body and line.endswith(";"))
    return next(ends, len(lines)) + 1


def definitions(text):
    """Each definition of a text of specs/ by its name: its signature, and all lines up to the next one's."""
    found, name = {}, None
    for line in text.split("\n"):
        signature = SIGNATURE.match(line)
        if signature and not line.startswith(("use ", "--")):
            name = signature[1]
            found[name] = []
        if name and line.strip() and not line.lstrip().startswith("--"):
            found[name].append(line)
    return {name: "\n".join(lines) for name, lines in found.items()}


@cache
def definitions_of(path):
    return definitions(text_of(path))


def imported(text):
    """The names that the text takes from specs/ of the repository, each with its crate and its module's path."""
    for path, crate, names in GHOST_USE.findall(text):
        module = path.split(".specs.", 1)[1]
        for name in filter(None, map(str.strip, names.split(","))):
            own, _, local = name.partition(" as ")
            yield (local or own).strip(), crate, module, own.strip()


def named_definitions(top, text, source):
    """The definitions that a text names by what its source takes from specs/, and those that they name in turn."""
    found, left = {}, [(text, source)]
    while left:
        text, source = left.pop()
        words = set(WORD.findall(text)) | {it for it in re.findall(r"[^\s(){},]+", text)}
        known = {local: (crate, module, name) for local, crate, module, name in imported(text_of(source))}
        own = definitions_of(source) if source.endswith(".antt") else {}
        for word in sorted(words):
            if word in known:
                crate, module, name = known[word]
                path = f"{top}/crates/{crate}/specs/{module.replace('.', '/')}.antt"
            elif word in own:
                path, name = source, word
            else:
                continue
            if (path, name) in found or not os.path.isfile(path):
                continue
            found[path, name] = definitions_of(path).get(name, "")
            left.append((found[path, name], path))
    return [f"{os.path.relpath(path, top)}: {text}" for (path, _), text in sorted(found.items())]


def deciding(top, edit):
    """What decides the edit: the functions that refuse it and those that it turns, the definitions that they name, and the edit."""
    folder, last = f"{top}/crates/{edit.crate}", edit.last_name
    sources = sorted(glob(f"{folder}/src/**/*.rt", recursive=True))
    turned = [f"{folder}/{file}" for file in edit.files()]
    refusing = [it for it in turned if it.endswith(".rt") and any(fn.name == last for fn in functions(text_of(it)))] or sources
    parts = []
    for source in dict.fromkeys([*refusing, *turned]):
        if not source.endswith(".rt"):
            parts += [text for name, text in sorted(definitions_of(source).items()) if any(old in text for _, old, _ in edit.pairs)]
            continue
        for fn in functions(text_of(source)):
            if fn.name == last and source in refusing or any(old in fn.text for _, old, _ in edit.pairs):
                parts += [f"{os.path.relpath(source, top)}: {fn.text}", *named_definitions(top, fn.text, source)]
    return [*dict.fromkeys(parts), edit.words]


def hash_of(top, edit):
    """A hash of all that decides the edit, in which layout counts for nothing."""
    whole = "\n".join(" ".join(part.split()) for part in deciding(top, edit))
    return hashlib.sha256(whole.encode()).hexdigest()[:16]
