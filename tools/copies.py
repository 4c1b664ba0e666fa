"""Edits of the definitions that laws tell of, side by side in one check. Each has copies of its own: of the files that it changes,
of those that stand on them as far as the law that shows it reaches, and of that law. So a law that fails says nothing of another edit."""

import os
import re
from dataclasses import dataclass

from edit_files import read_text

LAWS, ROOT = "src/laws.rt", "src/lib.rt"
USE = re.compile(r"(?m)^ghost use (\S+?)\.\{([^}]*)\};$")
COPY = re.compile(r"(?:\./)?((?:specs|proofs)/Edited\d+_\w+\.antt|src/edited_\d+\.rt|proofs/edited_\d+/\w+/Answers\.antt):")
TOLD = re.compile(r"fn \w+::edited_\d+::")
# what a law's goal is tried with
TACTIC = r"#\[tactic\(.*\)\]"
# what a file of laws alone has
LINES = re.compile(rf"(?m)^(//.*|ghost use .*|{TACTIC}|pub fn \w+\(\)\n(?:    .+\n)*\{{\}})$")
# a file can say which files stand below it
BELOW = re.compile(r"(?m)^(?:pub )?mod \w+\n")


@dataclass(frozen=True)
class Copied:
    """An edit, the law that shows it, the module with that law's copy, and the texts of all that is copied, by their paths."""

    edit: object
    law: str
    module: str
    texts: dict

    def path(self):
        """What a check is asked for it by."""
        return f"{self.module}::{self.law}"

    def is_told_in(self, line):
        """Whether a line of a check may be of these texts, and is not of some other edit's."""
        at = COPY.match(line)
        return not at or at[1] in self.texts


class Laws:
    """The laws of a crate: functions that do nothing. Its modules are the files of specs/ and proofs/, but for the laws' own proofs."""

    def __init__(self, crate, folder):
        self.crate, self.folder = crate, folder
        self.files = {}
        for part in ("specs", "proofs"):
            for at, folders, names in os.walk(f"{folder}/{part}"):
                folders[:] = [it for it in folders if not (part == "proofs" and it == "laws")]
                paths = [os.path.relpath(f"{at}/{it}", folder) for it in names if it.endswith(".antt")]
                self.files.update({it.removesuffix(".antt").replace("/", "."): it for it in paths})
        self.texts = {it: read_text(f"{folder}/{path}") for it, path in self.files.items()}
        # a name of the crate's logic, and one in an attribute
        self.named = re.compile(rf"\b(Rattle\.{crate}\.|crate::)((?:specs|proofs)(?:(?:\.|::)\w+)+)")

    def module_of(self, words):
        """The file that a name of the crate's logic begins with; empty where it is of none."""
        while words and words not in self.files:
            words = words.rpartition(".")[0]
        return words

    def named_in(self, text):
        return {self.module_of(it[2].replace("::", ".")) for it in self.named.finditer(text)} - {""}

    def reached(self, text):
        """The modules that a text stands on."""
        found, left = set(), self.named_in(text)
        while left:
            found |= left
            left = {it for one in left for it in self.named_in(self.texts[one])} - found
        return found

    def law(self, name):
        """The text of a law, with what it imports alone."""
        text = read_text(f"{self.folder}/{LAWS}")
        found = re.search(rf"(?m)^(?:{TACTIC}\n)?pub fn {name}\(\)\n(?:    .+\n)*\{{\}}$", text)
        if not found:
            return ""
        words = set(re.findall(r"\w+", found[0]))
        uses = [it[0] for it in USE.finditer(text) if not it[1].startswith(f"Rattle.{self.crate}.") or words & set(re.findall(r"\w+", it[2]))]
        return "\n".join(["//! A law.", *uses, "", "/// A copy.", found[0], ""])

    def copied(self, number, edit, function):
        """What an edit's check has of its own, where it can be copied: the law reaches each file that is changed."""
        law, module = function.rpartition("::")[2], f"edited_{number}"
        text = self.law(law) if function == f"laws::{law}" else ""
        if not text:
            return None
        file = f"{self.folder}/proofs/laws/{law}/Answers.antt"
        answer = read_text(file) if os.path.isfile(file) else ""
        changed = {self.module_of(it.removesuffix(".antt").replace("/", ".")): it for it in edit.texts}
        reach = self.reached(text + answer)
        if not reach.issuperset(changed):
            return None
        own = set(changed)
        while more := {it for it in reach - own if self.named_in(self.texts[it]) & own}:
            own |= more
        names = {it: f"{it.partition('.')[0]}.Edited{number}_{it.partition('.')[2].replace('.', '_')}" for it in own}

        def renamed(text):
            """A text that names the copies."""

            def name_of(found):
                words = found[2].replace("::", ".")
                of = self.module_of(words)
                other = f"{names.get(of, of)}{words[len(of) :]}" if of else words
                return found[1] + (other if found[1].startswith("Rattle") else other.replace(".", "::"))

            return self.named.sub(name_of, text)

        texts = {f"src/{module}.rt": renamed(text)}
        if answer:
            answer = answer.replace(f"Rattle.{self.crate}.proofs.laws.", f"Rattle.{self.crate}.proofs.{module}.")
            texts[f"proofs/{module}/{law}/Answers.antt"] = renamed(answer)
        for it, name in names.items():
            found = edit.texts[changed[it]] if it in changed else self.texts[it]
            texts[f"{name.replace('.', '/')}.antt"] = renamed(BELOW.sub("", found))
        return Copied(edit, law, module, texts)


def has_laws_apart(folder):
    """Whether a crate has a file of laws alone."""
    path = f"{folder}/{LAWS}"
    return os.path.isfile(path) and not re.search(r"\S", LINES.sub("", read_text(path)))


def is_closed_case(folder, function):
    """Whether a law is a closed case: its statement is of the crate's definitions of cases, `specs/Cases`, and has no variables."""
    path, law = f"{folder}/{LAWS}", function.removeprefix("laws::")
    text = read_text(path) if os.path.isfile(path) else ""
    stated = re.search(rf"(?m)^pub fn {law}\(\)\n((?:    .+\n)*)\{{\}}$", text)
    cases = {name for it in USE.finditer(text) if ".specs.Cases." in f"{it[1]}." for name in re.findall(r"\w+", it[2])}
    return bool(stated) and function != law and not cases.isdisjoint(re.findall(r"\w+", stated[1]))


def copies_of(crate, folder, edits, places):
    """The edits of definitions that can be tried by copies, as each is shown by one law."""
    if not has_laws_apart(folder):
        return []
    laws = Laws(crate, folder)
    wanted = [(it, *places[it.name]) for it in edits if len(places.get(it.name, [])) == 1]
    found = [laws.copied(number, it, function) for number, (it, function) in enumerate(wanted)]
    return [it for it in found if it]


def is_of_copies(line):
    """Whether a line of a check tells of copies."""
    return bool(COPY.match(line) or TOLD.match(line))


def texts_beside(folder, copies, texts):
    """These texts of a check with those of copies beside them: of what is copied, and of the files that declare it."""
    if not copies:
        return texts
    texts = {**texts, **{path: text for it in copies for path, text in it.texts.items()}}

    def add(path, lines):
        texts[path] = (texts.get(path) or read_text(f"{folder}/{path}")) + "".join(f"{it}\n" for it in lines)

    for part in ("specs", "proofs"):
        new = [it.split("/")[1].removesuffix(".antt") for it in texts if it.startswith(f"{part}/Edited")]
        if new:
            add(f"{part}/Lib.antt", [f"pub mod {it}" for it in new])
    add(ROOT, [f"pub mod {it.module};" for it in copies])
    return texts
