"""Batches: edits of one crate that one check tries, all in one copy of the crate.

Each edit of a batch turns the body of the function that is to refuse it and nothing else, and no two are of functions of one name.
A function's proof rests on its own body and on the contracts of what it calls, of which a batch turns none, so each is checked
as if its edit stood alone. What it calls may go unproved there, and then some of its goals go untried; none is open for that. So
an edit that the check refuses at its clause is refused, and one that it doesn't is tried again among fewer, and at last alone.
"""
from edits.texts import functions, text_of

# so many functions' proofs take a check no more than some 3 GB
MOST = 8


def turns_its_body(folder, edit):
    """Whether all that the edit turns stands in the body of the one function that is to refuse it."""

    def function_of(file, old):
        found = [it for it in functions(text_of(f"{folder}/{file}")) if old in it.text] if file.endswith(".rt") else []
        return found[0] if len(found) == 1 and old in found[0].body else None

    turned = {function_of(file, old) for file, old, _ in edit.pairs}
    return len(turned) == 1 and None not in turned and turned.pop().name == edit.last_name


def batches(folder, edits):
    """The edits in batches, each in the first that has room and no function of the name of its own."""
    found, alone = [], []
    for edit in edits:
        if not turns_its_body(folder, edit):
            alone.append([edit])
            continue
        batch = next((it for it in found if len(it) < MOST and edit.last_name not in {other.last_name for other in it}), None)
        if batch is None:
            found.append(batch := [])
        batch.append(edit)
    return found + alone


def halves(batch):
    """A batch in two, or as it is where it has one edit or none."""
    middle = (len(batch) + 1) // 2
    return [it for it in (batch[:middle], batch[middle:]) if it]
