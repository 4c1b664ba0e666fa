"""What earlier runs on this machine found of must-fail edits: one that was refused, and one that a page was seen to show, is not tried again while nothing
that this was found of has changed."""

import hashlib
import json
import os
import tempfile

from edit_files import edit_files
from house import House, files_of, read_bytes
from kept_checks import kit_version
from showing import KINDS

# what decides how an edit is tried, and over what
TOOLS = (
    *("batches.py", "copies.py", "doubles.py", "edit_files.py", "following.py", "holes.py", "house.py", "keeping.py", "lanes.py"),
    *("proving.py", "quick_rt.py", "rattle.py", "showing.py", "source.py", "trial.py", "verdicts.py"),
)
# what decides whether a page shows an edit
SHOWING_TOOLS = ("calls.py", "chosen.py", "edit_files.py", "house.py", "page.py", "shown", "source.py", "unproved.py", "verdicts.py")


def verdicts_folder():
    """Where they are kept: in the user's cache, outside each checkout."""
    return os.path.join(os.environ.get("XDG_CACHE_HOME") or os.path.expanduser("~/.cache"), "aom-verdicts")


# how much of what a check said of an edit is kept
MOST_LINES, MOST_OF_LINE = 60, 2000


def kit_sum(tools):
    """A sum of the toolchain and of these tools."""
    found = hashlib.sha256(kit_version())
    here = os.path.dirname(os.path.realpath(__file__))
    for name in tools:
        found.update(read_bytes(f"{here}/{name}"))
    return found.digest()


class Sums:
    """Sums of all texts that a check of a crate reads, with those of the tools and of the toolchain."""

    def __init__(self, house, tools):
        self.house, self.kit, self.sums = house, kit_sum(tools), {}

    def sum_of(self, name):
        """A sum of a crate's texts and of those of all crates below it."""
        if name not in self.sums:
            found = hashlib.sha256(self.kit + self.house.said[name].encode())
            for it in self.house.direct[name]:
                found.update(self.sum_of(it))
            for file in sorted(files_of(self.house.folder(name))):
                text = read_bytes(file)
                found.update(f"{os.path.relpath(file, self.house.folder(name))} {len(text)}\n".encode() + text)
            self.sums[name] = found.digest()
        return self.sums[name]


def read_kept(file):
    """What is kept in a file; None where nothing can be read there."""
    try:
        with open(file, encoding="utf-8") as it:
            return json.load(it)
    except (OSError, ValueError):
        return None


def keep_in(folder, file, told):
    """Keeps something in a file; where that cannot be, a later run does without."""
    try:
        os.makedirs(folder, exist_ok=True)
        with tempfile.NamedTemporaryFile("w", dir=folder, delete=False, encoding="utf-8") as it:
            json.dump(told, it)
        os.replace(it.name, file)
    except OSError:
        pass


class Verdicts:
    """The verdicts on the edits of a house. An edit is known by its name and by what it changes, whatever page shows it, and by each text that a check of
    its crate reads."""

    def __init__(self, house, at, anew=False):
        self.house, self.at, self.anew = house, at, anew
        self.sums = Sums(house, TOOLS)

    def file_of(self, name, edit):
        lines = read_bytes(f"{self.house.folder(name)}/must-fail/{edit}").split(b"\n")
        key = hashlib.sha256(self.sums.sum_of(name) + b"\n".join([edit.encode(), *(it for it in lines if not it.startswith(b"shown: "))]))
        return f"{self.at}/{key.hexdigest()}"

    def is_refused(self, name, edit):
        """Whether an earlier run found that the prover refuses this edit of the crate as it stands."""
        return not self.anew and self.kind_of(name, edit) is not None

    def kept_of(self, name, edit):
        """By what an edit was refused where an earlier run saw that, and what the check said; None where no run did."""
        told = read_kept(self.file_of(name, edit)) if self.at else None
        is_verdict = isinstance(told, list) and len(told) == 5 and told[:3] == [name, edit, "refused"] and told[3] in KINDS
        return (told[3], told[4]) if is_verdict else None

    def kind_of(self, name, edit):
        """By what an edit was refused where an earlier run saw that; None where no run did."""
        kept = self.kept_of(name, edit)
        return kept[0] if kept else None

    def keep_refused(self, name, edit, kind, said):
        """Keeps by what it was refused, and what the check said; where it cannot be kept the next run tries the edit again."""
        if self.at:
            keep_in(self.at, self.file_of(name, edit), [name, edit, "refused", kind, [it[:MOST_OF_LINE] for it in said[:MOST_LINES]]])

    # what a run had no time for

    def untried(self):
        """The edits for which the last run here had no time, each with its crate."""
        kept = read_kept(f"{self.at}/untried") if self.at else None
        return kept if isinstance(kept, list) else []

    def keep_untried(self, names):
        """Keeps which edits a run had no time for, in place of those of the run before."""
        if self.at and names != self.untried():
            keep_in(self.at, f"{self.at}/untried", names)


class Seen:
    """Which edits a page or a file of tests was seen to show, each with what that stood on: the texts of the page and of the edit, and all sources of
    the program."""

    def __init__(self, house, program, at, anew=False):
        self.house, self.at, self.anew = house, f"{at}/shown", anew
        self.sources = Sums(house, SHOWING_TOOLS).sum_of(program).hex()

    def texts_of(self, it):
        """A sum of the texts of an edit and of what is to show it."""
        found = hashlib.sha256(read_bytes(f"{self.house.folder(it.crate)}/must-fail/{it.edit.name}"))
        found.update(read_bytes(f"{self.house.top}/{it.edit.page}"))
        return found.hexdigest()

    def file_of(self, it):
        return f"{self.at}/{it.crate}-{it.edit.name}"

    def is_shown(self, it):
        """Whether an earlier run saw it so, of the same texts."""
        return not self.anew and read_kept(self.file_of(it)) == [self.texts_of(it), self.sources]

    def turn_of(self, it):
        """What says when it is an edit's turn: first those whose own texts are others, then those that were tried longest ago."""
        told = read_kept(self.file_of(it))
        is_same = isinstance(told, list) and told[:1] == [self.texts_of(it)]
        return is_same, os.path.getmtime(self.file_of(it)) if is_same else 0

    def keep_shown(self, it):
        """Keeps that it was seen."""
        keep_in(self.at, self.file_of(it), [self.texts_of(it), self.sources])


def why_refused(top, name):
    """Tells what the check said of an edit as it stands, CRATE/EDIT, where an earlier run here tried it; the status, 1 where none did."""
    house = House(top)
    crate, _, edit = name.removesuffix(".edit").partition("/")
    if crate not in house.direct or f"{edit}.edit" not in edit_files(house.folder(crate))[0]:
        print(f"there is no edit {name}")
        return 1
    kept = Verdicts(house, verdicts_folder()).kept_of(crate, f"{edit}.edit")
    print(f"{name}: refused by {kept[0]}" if kept else f"{name}: no run here has tried it as it and its crate stand")
    print("\n".join(kept[1] if kept else []))
    return 0 if kept else 1
