"""A must-fail edit: which texts it puts in the place of which, and the clause that is to refuse it."""
import os
import re
from dataclasses import dataclass
from glob import glob

NAMED = re.compile(r"refused at: (?P<function>\S+), clause (?P<clause>\S+)\s*")


class BadEdit(Exception):
    """An edit that cannot be applied, or that names no clause."""


@dataclass(frozen=True)
class Edit:
    """One edit of a crate: pairs of (file, old text, new text), and the function and the clause that are to refuse it."""

    crate: str
    name: str
    pairs: tuple
    function: str
    clause: str

    @property
    def label(self):
        return f"{self.crate}/{self.name}"

    @property
    def last_name(self):
        """The name of the function that is to refuse it, without the path."""
        return self.function.split("::")[-1]

    @property
    def words(self):
        """What of the edit decides its answer."""
        return repr((self.pairs, self.function, self.clause))

    def files(self):
        return dict.fromkeys(file for file, _, _ in self.pairs)

    def texts(self, folder, begun=()):
        """The whole texts of the files that it changes, as they are after it, with all of what it is put upon."""
        texts = dict(begun)
        for file, old, new in self.pairs:
            if file not in texts:
                with open(f"{folder}/{file}", encoding="utf-8") as source:
                    texts[file] = source.read()
            if (found := texts[file].count(old)) != 1:
                raise BadEdit(f"an `old:` text stands {found} times in {file}, and not once: {old}")
            texts[file] = texts[file].replace(old, new)
        return texts


def read(path):
    """The edit that the file says."""
    crate, name = path.split(os.sep)[-3], os.path.basename(path).rpartition(".")[0]
    file, old, pairs, named = None, None, [], None
    with open(path, encoding="utf-8") as lines:
        for line in lines.read().split("\n"):
            word, _, rest = line.partition(": ")
            if word == "file":
                file = rest.strip()
            elif word == "old":
                old = rest
            elif word in ("new", "new:"):
                if file is None or old is None:
                    raise BadEdit("a `new:` line stands before its `file:` or its `old:`")
                pairs.append((file, old, rest))
                old = None
            elif found := NAMED.fullmatch(line):
                named = found
    if not pairs:
        raise BadEdit("it changes nothing")
    if named is None:
        raise BadEdit("it has no line `refused at: FUNCTION, clause NAME`")
    return Edit(crate, name, tuple(pairs), named["function"], named["clause"])


def paths(top, crate):
    """The edits' files of a crate, by name."""
    found = [*glob(f"{top}/crates/{crate}/must-fail/*.edit"), *glob(f"{top}/crates/{crate}/must-fail/*.md")]
    return sorted(found, key=os.path.basename)
