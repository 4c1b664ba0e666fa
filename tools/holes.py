"""Holes for what a check is not asked for: it takes the other functions by their contracts, and neither reads their bodies nor proves them."""

import os
import re
from collections import Counter

import source
from batches import Turned, home_of, module_of
from edit_files import read_text, write_text

PROOF = """use {module}.Statement as stated

pub {name}_spec : {{M : Type 1}} → stated.statement M
{name}_spec = ?
"""
BODY = "{\n    unreachable!()\n}"
# what else says how a function is proved
ANSWERS = ("Answers.antt", "Invariants.antt")
# a type whose comparison is derived
COMPARED = re.compile(r"#\[derive\([^)]*\bPartialEq\b[^)]*\)\](?:\s|#\[[^\]]*\]|///.*)*(?:pub(?:\([^)]*\))?\s+)?(?:struct|enum)\s+(\w+)")


def sources_of(folder):
    """The source files of a crate, and the functions of each."""
    files = [f"{at}/{it}" for at, _, names in os.walk(f"{folder}/src") for it in names if it.endswith(".rt")]
    for path in sorted(os.path.relpath(it, folder) for it in files):
        text = read_text(f"{folder}/{path}")
        yield path, text, source.functions_of(text)


def turned_in(crate, folder, path, functions):
    """What a check calls the functions of a file."""
    homes = {owner: module_of(crate, home_of(folder, path, owner)) for owner in {it.owner for it in functions}}
    return [Turned(homes[it.owner], it.owner, it.name) for it in functions]


def write_proof(crate, folder, function):
    words = [it for it in (*function.module.split("::")[1:], function.owner, function.name) if it]
    at = "/".join([folder, "proofs", *words])
    for it in ANSWERS:
        if os.path.isfile(f"{at}/{it}"):
            os.remove(f"{at}/{it}")
    module = ".".join([f"Rattle.{crate}.proofs", *(f"«{it}»" for it in words)])
    write_text(f"{at}/Proof.antt", PROOF.format(module=module, name=function.name))


def has_cycle(folder, module):
    """Whether functions of a module call one another, so that they have one proof: its folder begins with a plus."""
    return any(it.startswith("+") for _, folders, _ in os.walk("/".join([folder, "proofs", *module.split("::")[1:]])) for it in folders)


def without_bodies(text, functions):
    for it in sorted(functions, key=lambda it: -it.start):
        text = f"{text[: it.start]}{BODY}{text[it.end :]}"
    return text


def make_holes(crate, folder, asked):
    """Has holes stand for the bodies and the proofs of the functions of a crate's copy that are not asked for.
    Two that share their words are left as they are, and all of a module with a cycle of calls."""
    read = [(path, text, functions, turned_in(crate, folder, path, functions)) for path, text, functions in sources_of(folder)]
    count = Counter(it for *_, turned in read for it in turned)

    def is_left(it):
        return count[it] > 1 or has_cycle(folder, it.module) or any(f"::{it.path()}".endswith(f"::{one}") for one in asked)

    for path, text, functions, turned in read:
        dropped = [(one, it) for one, it in zip(functions, turned) if not is_left(it)]
        write_text(f"{folder}/{path}", without_bodies(text, [one for one, _ in dropped]))
        compared = [Turned(module_of(crate, path), f"{it}PartialEq", "eq") for it in COMPARED.findall(text)]
        for it in [*(it for _, it in dropped), *compared]:
            write_proof(crate, folder, it)
