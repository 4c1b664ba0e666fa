"""Faults that are planted in the translator, to see that tools/sources finds each. One program is made, unproved, in which each can be chosen (chosen.py)."""

import argparse
import glob
import os
import re
import tempfile

from chosen import Chosen, answering, place_of_number, with_number
from edit_files import Change, Edit, read_text, write_text
from freshness import TOP
from house import House, copy_tree
from unproved import make_program

# sources that are tried at a time
STEP = 20
# a fault's name, and texts of the translator that stand in it once, in one function, each with the text in its place
PLANTED = (
    (
        "a temporary freed too early",
        ("self.load_number(to, value, self.source.token(at));", "self.load_number(to, value, self.source.token(at)); self.top = mark;"),
    ),
    (
        "operands swapped",
        (
            "register(first.register),\n            register(second.register),\n        );\n        self.emit(operation, operands",
            "register(second.register),\n            register(first.register),\n        );\n        self.emit(operation, operands",
        ),
    ),
    (
        "two operators at one level",
        ("symbols![Mark Plus, Expression Product, Action Add, Expression MoreSum],", "symbols![Mark Plus, Expression Unary, Action Add, Expression MoreSum],"),
        (
            "symbols![Mark Minus, Expression Product, Action Subtract, Expression MoreSum],",
            "symbols![Mark Minus, Expression Unary, Action Subtract, Expression MoreSum],"
            " Class::Mark(Mark::Times) => symbols![Mark Times, Expression Unary, Action Multiply, Expression MoreSum],",
        ),
    ),
    ("deletes at joins left out", ("            if self.is_known_here(*id) {\n                if let Some(local)", "            if false {\n                if let Some(local)")),
    ("a leave point forgotten", ("                if is_held && except != Some(owner.id) {", "                if is_held && false {")),
    (
        "a comparison the wrong way round",
        ("Action::Greater | Action::AtMost => two(register(second)", "Action::Greater => two(register(second)"),
    ),
    (
        "locals go in the order of their declarations",
        (
            "let Some(bound) = self.bound_before(back) else {\n                return Ok(());",
            "let Some(bound) = self.bound.get(begin.saturating_add(back)).copied() else {\n                return Ok(());",
        ),
    ),
    ("what a field owned is not deleted", ("        if self.fill(number) != Fill::Empty {\n            self.delete_old", "        if false {\n            self.delete_old")),
)


def change_of(house, old, new):
    """The crate that has the text, and the change."""
    found = []
    for crate in (it for it in house.direct if it.startswith("aom_source")):
        for file in glob.glob(f"{house.folder(crate)}/src/**/*.rt", recursive=True):
            text = read_text(file)
            found += [(crate, os.path.relpath(file, house.folder(crate)), it.start()) for it in re.finditer(re.escape(old), text)]
    if len(found) != 1:
        raise ValueError(f"{old!r} is there {len(found)} times")
    crate, path, at = found[0]
    return crate, Change(path, at, at + len(old), new)


def edit_of(house, name, pairs):
    """The crate that a fault is planted in, and the edit."""
    found = [change_of(house, *pair) for pair in pairs]
    return found[0][0], Edit(name, changes=[change for _, change in found])


def made_program(place):
    """The bytes of a program in which each fault can be chosen."""
    chosen = Chosen(House(TOP))
    for number, (name, *pairs) in enumerate(PLANTED, 1):
        if not chosen.take(*edit_of(chosen.house, name, pairs), number):
            raise ValueError(f"{name!r} cannot be chosen")
    copy_tree(TOP, f"{place}/main")
    for crate, path, text, _ in chosen.texts():
        write_text(f"{place}/main/crates/{crate}/{path}", text)
    make_program(House(f"{place}/main"), "aom", f"{place}/program", answering, place_of_number())
    with open(f"{place}/program", "rb") as file:
        return file.read()


def found_after(asked, try_random, program, seed):
    """How many sources have been tried when one has failed, with what is said of it; or None."""
    for first in range(0, asked.count, STEP):
        asked = argparse.Namespace(**{**vars(asked), "count": STEP})
        _, failed = try_random(program, asked, range(seed + first, seed + first + STEP))
        if failed:
            at, fault = min(failed)
            return at - seed + 1, fault.splitlines()[0]
    return None


def try_planted(asked, try_random, say):
    """Tries each planted fault, and says after how many sources it is found."""
    failed, seed = 0, 1 if asked.seed is None else asked.seed
    with tempfile.TemporaryDirectory(prefix="aom-planted-", ignore_cleanup_errors=True) as place:
        program = made_program(place)
        for number, (name, *_) in enumerate(PLANTED, 1):
            path = f"{place}/program-{number}"
            with open(path, "wb") as file:
                file.write(with_number(program, number))
            os.chmod(path, 0o755)
            found = found_after(asked, try_random, path, seed)
            failed += found is None
            say(f"{name}: found by source {found[0]}: {found[1]}" if found else f"FAILED: {name}: not found within {asked.count}")
    print(f"{len(PLANTED)} tried, {failed} failed")
    return 1 if failed else 0
