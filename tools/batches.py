"""Which edits of a crate go into one check, and what that check shows of each."""

import os
import re
from dataclasses import dataclass, field

import source
from doubles import double_of
from edit_files import apply_changes, read_text

CALLS = re.compile(r";? ?it calls .*, which (is|are) not proved")
FUNCTION = re.compile(r"fn (\S+): (.*)")
# one that only stands on a hole reads otherwise
FAILED = ("not proved", "no proof")
OTHER = re.compile(r"(?:impl|struct|enum|trait|law) (\S+): not proved(.*)")
ERROR = re.compile(r"(?:\./)?(proofs/\S+)/[^/ ]+:\d+:\d+: error")


@dataclass(frozen=True)
class Turned:
    """A function that an edit turns: the module of its type, or its own where it has none, its owner's words, and its name."""

    module: str
    owner: str
    name: str

    def path(self):
        """What a check is asked for it by."""
        return "::".join(it for it in (self.module, self.owner, self.name) if it)

    def folder(self):
        """Where its proof stands."""
        return "/".join(["proofs", *self.path().split("::")[1:]])

    def closures_folder(self):
        """Where the proofs of its closures stand."""
        within = [*self.module.split("::")[1:], "fn", self.owner, self.name]
        return "/".join(["proofs", *[it for it in within if it]])

    def is_told_by(self, path):
        """Whether a name in a check's answer is that of this function, or of a closure in it."""
        head, _, rest = path.partition(f"{self.module}::")
        if head or not rest:
            return False
        words = rest.split("::")
        if not self.owner:
            return words[0] == self.name and len(words) == 1 or words[:2] == ["fn", self.name]
        return words[0] == self.owner and (words[1:] == [self.name] or words[1:3] == ["fn", self.name])


def module_of(crate, path):
    words = re.sub(r"\.rt$", "", path).split("/")[1:]
    return "::".join([crate, *[it for it in words if it not in ("lib", "main", "mod")]])


def home_of(folder, path, owner):
    """The file that declares the type whose `impl` stands in a file: a check names its functions by it."""
    if not owner:
        return path
    declares = re.compile(rf"\b(?:struct|enum|trait) {owner}\b")
    homes = [
        os.path.relpath(f"{at}/{it}", folder)
        for at, _, names in os.walk(f"{folder}/src")
        for it in names
        if it.endswith(".rt") and declares.search(source.blanked(read_text(f"{at}/{it}")))
    ]
    return homes[0] if len(homes) == 1 else path


def turned_by(crate, folder, edit):
    """The functions in whose bodies an edit's changes lie; none where one lies elsewhere, or two functions share their words."""
    found = set()
    for change in edit.changes or []:
        if not change.path.startswith("src/"):
            return frozenset()
        functions = source.functions_of(read_text(f"{folder}/{change.path}"))
        around = [it for it in functions if it.holds(change.start, change.end)]
        if len(around) != 1 or sum((it.owner, it.name) == (around[0].owner, around[0].name) for it in functions) > 1:
            return frozenset()
        home = home_of(folder, change.path, around[0].owner)
        found.add(Turned(module_of(crate, home), around[0].owner, around[0].name))
    return frozenset(found)


@dataclass(frozen=True)
class Placed:
    """An edit with its place in a batch: the functions that it turns in the code as it stands, those that it turns in the batch's check, where it may
    turn a double, the changes that do so, and the texts of the files that these want."""

    edit: object
    known: frozenset
    turned: frozenset
    changes: tuple
    files: dict = field(default_factory=dict)

    def asked(self):
        """What a check of the edit alone is asked for."""
        return sorted(it.path() for it in self.known)


def plan(crate, folder, edits):
    """The edits in batches that turn each function once at most, and those that want a check of their own."""
    batches, alone = [], []
    for number, edit in enumerate(edits):
        turned = turned_by(crate, folder, edit)
        if not turned:
            alone.append(edit)
            continue
        placed = Placed(edit, turned, turned, tuple(edit.changes))
        if batches and any(turned & it.turned for it in batches[0]):
            placed = double_of(crate, folder, placed, number) or placed
        free = next((it for it in batches if not any(placed.turned & other.turned for other in it)), None)
        if free is None:
            batches.append(free := [])
        free.append(placed)
    return batches, alone


def texts_of(folder, batch):
    """The texts of the files that the edits of a batch change, by their places in the files as they stand, and of those that they bring."""
    changes, texts = {}, {}
    for placed in batch:
        texts.update(placed.files)
        for it in placed.changes:
            changes.setdefault(it.path, []).append(it)
    return texts | {path: apply_changes(read_text(f"{folder}/{path}"), its) for path, its in changes.items()}


def own_failures(crate, lines):
    """The functions that a check did not prove for a goal of their own, apart from those that wait for another."""
    # functions that call one another have one proof, whose folder begins with a plus
    answers = {it[1].replace("/+", "/") for it in map(ERROR.match, lines) if it}
    found = []
    for line in lines:
        told, other = FUNCTION.match(line), OTHER.match(line)
        if told and told[2].startswith(FAILED):
            rest = CALLS.sub("", told[2])
            folder = "/".join(["proofs", *told[1].split("::")[1:]])
            if "did not prove" in rest or folder in answers:
                found.append(told[1])
        elif other and "waits for" not in other[2] and not CALLS.search(other[2]):
            found.append(other[1])
    return found


def shown(crate, batch, status, lines):
    """The names of the edits of a batch that its check shows refused: a function that each turns has a failure of its own, and no function that
    is not turned has one."""
    if status != 1 or not any(it.startswith(("logic=not-proved", "only=")) for it in lines):
        return set()
    failed = own_failures(crate, lines)
    everything = [it for placed in batch for it in placed.turned]
    if any(not any(it.is_told_by(path) for it in everything) for path in failed):
        return set()
    return {it.edit.name for it in batch if any(one.is_told_by(path) for one in it.turned for path in failed)}


def refused_at(status, lines, functions):
    """The line by which a check of these functions refuses one of them; empty where it refuses none."""
    if status != 1 or not any(it.startswith("only=") for it in lines):
        return ""
    for line in lines:
        told = FUNCTION.match(line)
        if told and CALLS.sub("", told[2]) != "not proved" and told[2].startswith(FAILED) and any(f"::{told[1]}".endswith(f"::{it}") for it in functions):
            return line
    return ""


def unread(lines, changed):
    """The line that says that an edited text could not be read, so that no contract was tried."""
    for line in lines:
        at = re.match(r"(?:\./)?(\S+?):\d+:\d+: error: (?:(`[^`]*`): )?(.*)", line)
        if at and (at[1] in changed or at[1].startswith(("src/", "specs/"))):
            said = re.sub(r"`[^`]*`", "", at[3])
            if not at[2] or re.search(r"is not in scope|has no field|is no name|operand is missing|expected the end|cannot continue", said):
                return line
    return ""
