"""Doubles of functions. Where several edits turn one function, the first turns the function itself, and each other one a double: the same
function beside it, under a name of its own, of the same contract and with the same proof. So one check tries all of them."""

import os
import re
from dataclasses import replace

import source
from edit_files import Change, apply_changes, read_text

# what says how a function is proved
PROOFS = ("Answers.antt", "Invariants.antt")
# a function under an attribute that says how it and others call one another
CYCLE = "#[cycle("


def head_of(text, function):
    """The place where a function begins: the line of its words, or the first of its attributes."""
    place = text.rfind("\n", 0, function.at) + 1
    while place:
        above = text.rfind("\n", 0, place - 1) + 1
        if not text[above:place].lstrip().startswith("#["):
            break
        place = above
    return place


def proofs_of(crate, folder, turned, double):
    """The texts of a double's proof, by their paths: those of the function's own proof, where they name the double."""
    path = r"\.".join(map(re.escape, turned.path().split("::")[1:]))
    named = re.compile(rf"\b(Rattle\.{crate}\.(?:proofs|specs\.contracts)\.{path})(?![\w-])")
    found = [it for it in PROOFS if os.path.isfile(f"{folder}/{turned.folder()}/{it}")]
    name = double.name.removeprefix(turned.name)
    return {f"{double.folder()}/{it}": named.sub(rf"\g<1>{name}", read_text(f"{folder}/{turned.folder()}/{it}")) for it in found}


def has_more_proofs(folder, turned):
    """Whether a function is proved by more than what a double takes along: by a proof of another file, or those of its closures."""
    own, closures = f"{folder}/{turned.folder()}", f"{folder}/{turned.closures_folder()}"
    return os.path.isdir(closures) or os.path.isdir(own) and any(it not in PROOFS for it in os.listdir(own))


def double_of(crate, folder, placed, number):
    """An edit of a function as one of a double, which has this number. None where no function can be put beside it, since a trait says which ones
    stand there or it is in a cycle of calls, where the edit turns several, or where a double would not have the whole proof."""
    paths = {it.path for it in placed.changes}
    if len(placed.turned) != 1 or len(paths) != 1:
        return None
    (turned,), (path,) = placed.turned, paths
    text = read_text(f"{folder}/{path}")
    function = next(it for it in source.functions_of(text) if it.holds(placed.changes[0].start, placed.changes[0].end))
    head = head_of(text, function)
    if function.is_of_trait or CYCLE in text[head : function.at] or has_more_proofs(folder, turned):
        return None
    double = replace(turned, name=f"{turned.name}_edited_{number}")
    turns = [replace(it, start=it.start - head, end=it.end - head) for it in placed.changes]
    code = re.sub(rf"\bfn\s+{turned.name}\b", f"fn {double.name}", apply_changes(text[head : function.end], turns), count=1)
    beside = Change(path, function.end, function.end, f"\n\n{code}")
    return replace(placed, turned=frozenset({double}), changes=(beside,), files=proofs_of(crate, folder, turned, double))
