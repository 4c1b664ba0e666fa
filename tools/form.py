"""The command line's own form, the natives, the instructions and the words of texts, as the sources name them, and the tables of a page."""

import os
import re
from typing import NamedTuple

TOP = os.path.dirname(os.path.dirname(os.path.realpath(__file__)))
FORMS = "crates/aom_command_line/src/forms.rt"
ARGS = "crates/aom_command_line/src/args.rt"
KINDS = "crates/aom_natives/src/kind.rt"
ROWS = "crates/aom_instructions/specs/Table.antt"
MNEMONICS = "crates/aom_instructions/src/mnemonic.rt"
KEYWORDS = "crates/aom_syntax/src/keyword.rt"
SOURCE_KEYWORDS = "crates/aom_source_tokens/src/keyword.rt"
TEXT = r'"((?:[^"\\]|\\.)*)"'


class Unreadable(Exception):
    """The sources do not have what is read of them, where it is looked for."""


class Option(NamedTuple):
    """An option: the name of its value, if it takes one, what that is where it is left out, and whether it may stand more than once."""

    name: str
    value: str
    help: str
    standard: str
    many: bool = False

    def synopsis(self):
        told = f"[--{self.name} {self.value}]" if self.value else f"[--{self.name}]"
        return f"{told}.." if self.many else told


class Argument(NamedTuple):
    name: str
    help: str
    many: bool


class Command(NamedTuple):
    name: str
    about: str
    options: list
    arguments: list

    def synopsis(self):
        return " ".join([self.name, *(it.synopsis() for it in self.options), *(f"[{it.name}].." if it.many else it.name for it in self.arguments)])


class Instruction(NamedTuple):
    mnemonic: str
    operands: list


def read(file):
    with open(f"{TOP}/{file}", encoding="utf-8") as it:
        return it.read()


def found(pattern, text, what):
    """The groups of the first match, which has to be there."""
    match = re.search(pattern, text, re.DOTALL)
    if not match:
        raise Unreadable(f"{what} is not found")
    return match.groups()


def all_found(pattern, text, what):
    """All matches, of which there has to be one."""
    matches = re.findall(pattern, text, re.DOTALL)
    if not matches:
        raise Unreadable(f"{what} are not found")
    return matches


# the command line


def version():
    return found(rf"const VERSION: &str = {TEXT};", read(FORMS), f"the version in {FORMS}")[0]


def functions_of(source):
    """The body of each function of a file, by its name."""
    return dict(all_found(r"\n(?:pub )?fn (\w+)[<(][^\n]*(?:\n[^{\n][^\n]*)*?\n?\{\n(.*?)\n\}\n", source, "functions"))


def option_of(name, body):
    """The option that a function makes. One of another form is none."""
    number = re.search(rf"number_arg\(\s*alloc,\s*{TEXT},\s*{TEXT},\s*value_parser.*?,\s*{TEXT},?\s*\)", body, re.DOTALL)
    flag = re.search(rf"flag_arg\(\s*alloc,\s*{TEXT},\s*{TEXT},?\s*\)", body, re.DOTALL)
    if number:
        return Option(number[1], "N", number[2], number[3])
    if flag:
        return Option(flag[1], "", flag[2], "")
    long, value, text = found(rf"\.long\({TEXT}\).*?\.value_name\({TEXT}\).*?\.help\(\s*{TEXT}", body, f"the form of {name} in {ARGS}")
    return Option(long, value, text, "", "ArgAction::Append" in body)


def command_of(name, functions):
    """The command that a function makes: what it adds, one after another, with the files and natives that some have in common."""
    body = functions[f"{name}_command"]
    for shared in ("with_files", "with_program"):
        body = body.replace(f"{shared}(alloc, command)", functions[shared])
    options, arguments = [], []
    for kind, words in re.findall(r"\b(\w+)_arg\(\s*alloc(.*?)\)", body, re.DOTALL):
        if kind == "file":
            arguments.append(Argument(*found(rf"{TEXT},\s*{TEXT}", words, f"a file of {name}"), many=False))
        elif kind == "native":
            named = found(rf"Arg::new\(alloc, {TEXT}\)\s*\.help\(\s*{TEXT}", functions["native_arg"], "the word of a native")
            arguments.append(Argument(*named, many=True))
        else:
            options.append(option_of(kind, functions[f"{kind}_arg"]))
    return Command(name, found(rf"\.about\(\s*{TEXT}", body, f"what {name} does")[0], options, arguments)


def about():
    return found(rf'Command::new\(alloc, "aom"\)\s*\.about\({TEXT}\)', read(FORMS), "what the program does")[0]


def below():
    """What stands below the program's help, line by line."""
    return found(r'const NOTES: &str = "\\\n(.*?)";', read(FORMS), f"what stands below the help in {FORMS}")[0].splitlines()


def commands():
    """The commands, in the order in which the program has them."""
    source = read(FORMS)
    functions = functions_of(source + read(ARGS))
    return [command_of(name, functions) for name in all_found(r"\b(\w+)_command\(alloc\)\)", source, "commands")]


def natives():
    """The words of natives."""
    return all_found(rf"{TEXT} => Some\(NativeKind::", read(KINDS), "words of natives")


# the language of texts

# how an operand is told, by its kind; what has a letter is told apart by it
OPERANDS = {
    "Register": "rA",
    "Field": "fA",
    "Word": "wA",
    "Depth": "D",
    "Number": "N",
    "Place": "L",
    "Class": "CLASS",
    "Method": "METHOD",
    "Rounds": "N",
}


def lettered(kind, letter):
    told = OPERANDS[kind]
    return told[0] + letter if told[1:] == "A" else told


def instruction_of(text, own, kinds):
    """An instruction by its row. That of a call has its method second."""
    if own == "call_kinds":
        return Instruction(text, ["TARGET", "METHOD", "rB", "rC"])
    told = [lettered(kind, letter) for kind, letter in zip(kinds.split(), "ABC ") if kind not in ("Unused", "Nothing")]
    return Instruction(text, told)


def instructions():
    """The instructions in the order of their opcodes, of which there are as many as the sources count."""
    rows = all_found(rf"\nrow m\.\w+ = (?:record \()?line 0x\w+ \(codes {TEXT}\) \((\w+) ([\w ]+)\)", read(ROWS), "rows of instructions")
    count = int(found(r"const MNEMONICS: \[Mnemonic; (\d+)\]", read(MNEMONICS), "the count of instructions")[0])
    if len(rows) != count:
        raise Unreadable(f"{count} instructions, and {len(rows)} rows of the table")
    return [instruction_of(*row) for row in rows]


def source_keywords():
    """The keywords of sources."""
    return all_found(r'word == b"(\w+)"', read(SOURCE_KEYWORDS), "keywords of sources")


def keywords():
    """The other words of the language."""
    return all_found(r'Keyword::\w+ => b"(\w+)"', read(KEYWORDS), "keywords")


# a page


def table_of(page, heading):
    """The rows of the first table behind a heading of a page, without its head."""
    (part,) = found(rf"\n#+ {re.escape(heading)}\n(.*?)(?=\n#+ |\Z)", read(page), f"{heading} in {page}")
    rows = [line for line in part.splitlines() if line.startswith("|")]
    if len(rows) < 3:
        raise Unreadable(f"the table of {heading} in {page} is not found")
    return [[cell.strip() for cell in line.strip("|").split("|")] for line in rows[2:]]


def version_date():
    """The day of the version, as the list of changes has it."""
    told = re.search(rf"^## {re.escape(version())} \((\d{{4}}-\d\d-\d\d)\)$", read("CHANGELOG.md"), re.MULTILINE)
    if not told:
        raise Unreadable(f"CHANGELOG.md has no day of version {version()}")
    return told[1]
