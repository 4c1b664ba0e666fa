"""A crate's must-fail edits as files say them: which text stands where, and what is put in its place."""

import os
import re
from dataclasses import dataclass, field

GOOD_NAME = re.compile(r"[A-Za-z0-9_-][A-Za-z0-9_.-]*\.edit")
# what can show an edit: a page of tests/ or a file of tests in Rattle
SHOWING = re.compile(r"tests/[\w-]+\.md|crates/\w+/src/(?:\w+/)*tests(?:/\w+)*\.rt")


@dataclass(frozen=True)
class Change:
    """A span of a file's text as it stands, and the text in its place."""

    path: str
    start: int
    end: int
    new: str


@dataclass
class Edit:
    name: str
    # each file that it changes, with its text after all changes
    texts: dict = field(default_factory=dict)
    # the changes by their places in the text as it stands; None where a later pair changes what an earlier one made
    changes: list = None
    # the page or the file of tests that shows what it turns, where it names one
    page: str = ""
    # why it cannot be applied
    fault: str = ""


def edit_files(crate):
    """The edits of a crate by name, and what lies in must-fail/ and is none."""
    folder = f"{crate}/must-fail"
    names = sorted(os.listdir(folder)) if os.path.isdir(folder) else []
    good = [it for it in names if os.path.isfile(f"{folder}/{it}") and GOOD_NAME.fullmatch(it)]
    return good, [it for it in names if it not in good and not it.endswith(".md")]


def places_of(crate):
    """Which function shows an edit, by the edit's name, where must-fail/where.md says so in a line '- NAME.edit: FUNCTION'."""
    file = f"{crate}/must-fail/where.md"
    return {it[1]: [it[2]] for it in re.finditer(r"(?m)^- (\S+\.edit): (\S+)$", read_text(file))} if os.path.isfile(file) else {}


def pairs_of(lines):
    """The pairs of an edit: file, old text, new text."""
    path, old = "", None
    for line in lines:
        if line.startswith("file: "):
            path = line[len("file: ") :].strip()
        elif line.startswith("old: "):
            old = line[len("old: ") :]
        elif line.startswith("new:") and old is not None:
            yield path, old, line[len("new:") :].removeprefix(" ")
            old = None


def page_of(crate, lines):
    """The page that an edit's lines name, and what is wrong with it."""
    page = next((it[len("shown: ") :].strip() for it in lines if it.startswith("shown: ")), "")
    is_there = not page or SHOWING.fullmatch(page) and os.path.isfile(f"{crate}/../../{page}")
    return page, "" if is_there else "its 'shown:' line names no page of tests/ and no file of tests"


def read_text(file):
    with open(file, encoding="utf-8") as it:
        return it.read()


def write_text(file, text):
    """Writes a file, and makes its folder where there is none."""
    os.makedirs(os.path.dirname(file), exist_ok=True)
    with open(file, "w", encoding="utf-8") as it:
        it.write(text)


def read_edit(crate, name):
    edit = Edit(name)
    try:
        lines = read_text(f"{crate}/must-fail/{name}").split("\n")
    except (OSError, UnicodeDecodeError):
        edit.fault = "it cannot be read"
        return edit
    edit.page, edit.fault = page_of(crate, lines)
    if edit.fault:
        return edit
    firsts, changes = {}, []
    for path, old, new in pairs_of(lines):
        if os.path.normpath(path) != path or not path.startswith(("src/", "specs/", "proofs/")):
            edit.fault = "a 'file:' line names no file below src/, specs/ or proofs/"
            return edit
        try:
            text = edit.texts.get(path) or firsts.setdefault(path, read_text(f"{crate}/{path}"))
        except (OSError, UnicodeDecodeError):
            edit.fault = f"there is no file {path}"
            return edit
        if text.count(old) != 1:
            edit.fault = f"an 'old:' text is in {path} {text.count(old)} times, and not once"
            return edit
        edit.texts[path] = text.replace(old, new)
        if firsts[path].count(old) == 1:
            at = firsts[path].index(old)
            changes.append(Change(path, at, at + len(old), new))
        else:
            changes.append(None)
    if not changes:
        edit.fault = "it has no 'old:' and 'new:' pair"
    edit.changes = None if None in changes or overlap(changes) else changes
    return edit


def overlap(changes):
    spans = sorted((it.path, it.start, it.end) for it in changes)
    return any(one[0] == other[0] and one[2] > other[1] for one, other in zip(spans, spans[1:]))


def edit_faults(house, names):
    """What lies in must-fail/ and cannot be applied, and why: crate, name, fault."""
    for name in names:
        good, bad = edit_files(house.folder(name))
        yield from ((name, it, "a name is of letters, digits, _, - and . and ends in .edit (or .md, if it is only to be read)") for it in bad)
        lost = [it for it in places_of(house.folder(name)) if it not in good]
        yield from ((name, "where.md", f"there is no {it}") for it in lost)
        read = (read_edit(house.folder(name), it) for it in good)
        yield from ((name, it.name, it.fault) for it in read if it.fault)


def apply_changes(text, changes):
    """The text with changes at places that do not overlap."""
    for it in sorted(changes, key=lambda it: -it.start):
        text = text[: it.start] + it.new + text[it.end :]
    return text
