"""One program with many edits, of which one is chosen as it begins: beside each function that edits turn stands a copy of it for each of them, and the
function begins by asking whether one of these is chosen. Nothing of it is proved."""

import os
import re
from dataclasses import dataclass

import source
from edit_files import apply_changes, read_text

# a crate's question, which the program answers by the number that is written into it
ASKED = "edit_is_chosen"
QUESTION = f"\n#[inline(never)]\npub fn {ASKED}(number: u32) -> bool {{\n    number == 0\n}}\n"
# the number in a program, behind bytes by which it is found; they are no text of any other
MARK = b"\x9d\xe4edit that is chosen\xf1\x8b\x00"
NUMBER = 4
ROOTS = ("src/main.rt", "src/lib.rt")
CONTRACT = re.compile(r"\b(requires|ensures)\b")
PARAMETER = re.compile(r"\s*(?:mut\s+)?([a-z_]\w*)\s*:")
IS_SELF = re.compile(r"\s*(?:&\s*(?:'\w+\s*)?)?(?:mut\s+)?self\b")


@dataclass(frozen=True)
class Copied:
    """A function that an edit turns: its file, the function, and the changes that lie in its body."""

    path: str
    function: object
    changes: tuple


def copied_by(folder, edit):
    """The functions that an edit turns; none where a change lies outside of a body."""
    found = {}
    for change in edit.changes or []:
        if not change.path.startswith("src/"):
            return []
        around = [it for it in source.functions_of(read_text(f"{folder}/{change.path}")) if it.holds(change.start, change.end)]
        if len(around) != 1 or around[0].is_of_trait:
            return []
        found.setdefault((change.path, around[0]), []).append(change)
    return [Copied(path, function, tuple(changes)) for (path, function), changes in found.items()]


def parameters_at(code, function):
    """The span of a function's parameters, without the brackets."""
    at, depth = code.index(function.name, function.at) + len(function.name), 0
    while depth or code[at] != "(":
        depth += (code[at] == "<") - (code[at] == ">" and code[at - 1] != "-")
        at += 1
    return at + 1, source.closing(code, at) - 1


def apart(words):
    """The parts of a list between commas that stand in no bracket."""
    found, depth = [""], 0
    for place, char in enumerate(words):
        depth += (char in "([{<") - (char in ")]}" or char == ">" and words[place - 1] not in "-=")
        if char == "," and not depth:
            found.append("")
        else:
            found[-1] += char
    return [it for it in found if it.strip()]


def without_contract(text, code, start, end):
    """The text from the end of a function's parameters to its body, without its contract."""
    kept, at = "", start
    while it := CONTRACT.search(code, at, end):
        kept += text[at : it.start()]
        at = source.closing(code, code.index("{", it.start()))
    return kept + text[at:end]


def call_of(code, function, name):
    """The call that hands a function's parameters on; None where one of them has no name."""
    start, end = parameters_at(code, function)
    words = apart(code[start:end])
    is_method = bool(words) and IS_SELF.match(words[0])
    named = [PARAMETER.match(it) for it in words[bool(is_method) :]]
    if not all(named):
        return None
    owner = "self." if is_method else f"{function.owner}::" if function.owner else ""
    return f"{owner}{name}({', '.join(it[1] for it in named)})"


def copy_of(text, code, copied, name):
    """The text of a function with an edit, by a name of its own, without its contract."""
    function = copied.function
    _, end = parameters_at(code, function)
    head = text[function.at : end + 1].replace(function.name, name, 1) + without_contract(text, code, end + 1, function.start)
    body = apply_changes(text[: function.end], copied.changes)[function.start :]
    return f"{head}{body}"


class Chosen:
    """The texts of a repository's copy with the edits that are taken, each by its number."""

    def __init__(self, house):
        self.house, self.taken, self.inserted = house, {}, {}

    def take(self, crate, edit, number):
        """Takes an edit, and says whether that can be done."""
        folder = self.house.folder(crate)
        copies = copied_by(folder, edit)
        made = []
        for it in copies:
            text = read_text(f"{folder}/{it.path}")
            code = source.blanked(text)
            name = f"{it.function.name}_edited_{number}"
            call = call_of(code, it.function, name)
            if not call or re.search(r"\b(const|unsafe)\s+$", code[: it.function.at]):
                return False
            made.append((it.path, it.function.start + 1, f" if crate::{ASKED}({number}) {{ return {call}; }}"))
            made.append((it.path, it.function.end, f"\n\n{copy_of(text, code, it, name)}"))
        for path, at, words in made:
            self.inserted.setdefault((crate, path), []).append((at, number, words))
        if made:
            self.taken[number] = (crate, edit)
        return bool(made)

    def drop(self, numbers):
        """Leaves out the edits of these numbers."""
        self.taken = {number: it for number, it in self.taken.items() if number not in numbers}
        self.inserted = {file: [it for it in places if it[1] not in numbers] for file, places in self.inserted.items()}

    def texts(self):
        """The files that are other than in the repository: crate, path, text, and by each line's number the edit whose it is."""
        asking = {crate for crate, _ in self.taken.values()}
        for crate in sorted(asking):
            folder = self.house.folder(crate)
            root = next(it for it in ROOTS if os.path.isfile(f"{folder}/{it}"))
            paths = dict.fromkeys([path for one, path in self.inserted if one == crate] + [root])
            for path in paths:
                text, lines = self.with_copies(crate, path)
                yield crate, path, text + QUESTION if path == root else text, lines

    def with_copies(self, crate, path):
        """A file's text with all that is inserted, and of which edit each line of it is."""
        text, lines, made, last = read_text(f"{self.house.folder(crate)}/{path}"), {}, "", 0
        for at, number, words in sorted(self.inserted.get((crate, path), [])):
            made += text[last:at]
            first = made.count("\n") + 1
            made += words
            lines.update(dict.fromkeys(range(first + words.startswith("\n") * 2, made.count("\n") + 2), number))
            last = at
        return made + text[last:], lines


def answering(lines):
    """A function of the program's module, where the question of a crate is answered by the number in the program."""
    if not re.match(rf'define [^@]*@"\w+::{ASKED}"', "".join(lines[:1])):
        return lines
    kind, number = re.search(r"define (?:[\w_]+ )*?(i\d+) @.*\(i32[^%)]*(%[\w.]+|)", lines[0]).groups()
    head = lines[0] if number else lines[0].replace("(i32", "(i32 %number", 1)
    wide = "" if kind == "i1" else f"  %wide = zext i1 %same to {kind}\n"
    return [
        head,
        f"  %chosen = load volatile i32, ptr getelementptr (i8, ptr @edit_chosen, i64 {len(MARK)})\n",
        f"  %same = icmp eq i32 %chosen, {number or '%number'}\n",
        wide,
        f"  ret {kind} {'%wide' if wide else '%same'}\n",
        "}\n",
    ]


def place_of_number():
    """What stands at the end of the module: the number, behind its mark."""
    told = "".join(f"\\{it:02X}" for it in MARK + bytes(NUMBER))
    return f'\n@edit_chosen = global [{len(MARK) + NUMBER} x i8] c"{told}", align 16\n'


def with_number(program, number):
    """The bytes of a program in which the edit of this number is chosen."""
    if program.count(MARK) != 1:
        raise ValueError("the program has no place for the number of an edit, or more than one")
    at = program.index(MARK) + len(MARK)
    return program[:at] + number.to_bytes(NUMBER, "little") + program[at + NUMBER :]
