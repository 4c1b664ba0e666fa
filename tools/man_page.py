"""The man page, in the macros of man(7), made from the form of the command line, the natives, the table of instructions and tables of pages of docs/."""

import itertools
import re

import form

PAGE = "docs/program.md"
TEXTS_PAGE = "docs/assembly.md"
SCRIPTS_PAGE = "docs/script-and-transcript.md"
# what each native does, in short; docs/natives.md says it exactly
NATIVES = {
    "counter": "Answers calls with a total, to which it adds their words. It begins no request.",
    "line": "Ends requests, the first first, with the words of the script's events.",
    "delay": "Ends a request, with the code that it was begun with, after so many turns as its word says.",
}
# the example, with what each of its commands prints
EXAMPLE = [
    ("cat first.aom", ["image cells 1 budget 4", "method main main", "const r0 7", "print r0", "stop", "ret", "end"]),
    ("aom asm first.aom > first.image", []),
    ("aom check first.image", ["accepted"]),
    (": > empty.script", []),
    ("aom run first.image empty.script", ["@0 main", "out 7", "end stopped cells 0"]),
]
FILES = [
    ("*.ao", "Sources: programs as one writes them by hand, in UTF-8, of at most 1 MiB."),
    ("*.aom", "Assembly texts: a program in ASCII, of at most 1 MiB."),
    ("*.image", "Images: the bytes that aom asm makes of a text."),
    ("*.script", "Scripts: what happens to a run from outside, line by line. An empty file is one."),
    ("share/doc/aom", "The pages that --explain and this page name, and examples, below the folder into which aom was installed. Its first-hour.md is for beginners."),
]


def plain(text):
    """Text as it stands."""
    told = text.replace("\\", "\\e").replace("-", "\\-")
    return f"\\&{told}" if told.startswith((".", "'")) else told


def bold(text):
    return f"\\fB{plain(text)}\\fR"


def marked(text):
    """A cell of a page's table: what stands between backquotes is bold, and the words that send one to another page are left out."""
    text = re.sub(r"; (?:see|they are in|the (?:faults|reasons) are in) `[\w-]+\.md`", "", text)
    return "".join(bold(part) if at % 2 else plain(part) for at, part in enumerate(text.split("`")))


def synopsis_of(words):
    """A command's words: capitals are what a user puts in their place, all else is typed as it stands."""
    told = re.sub(r"[A-Z]+|[^A-Z\[\]. ]+", lambda it: f"\\fI{it[0]}\\fR" if it[0].isupper() else bold(it[0]), words)
    return f"{bold('aom')} {told}"


def item(head, text):
    return [".TP", head, text]


def option_item(option):
    head = f"{bold('--' + option.name)} \\fI{option.value}\\fR" if option.value else bold(f"--{option.name}")
    standard = f" Left out it is {option.standard}." if option.standard else ""
    return item(head, f"{plain(option.help)}.{standard}")


def command_lines(command):
    yield from [f".SS {synopsis_of(command.synopsis())}", f"{plain(command.about)}."]
    for argument in command.arguments:
        yield from item(f"\\fI{argument.name}\\fR", f"{plain(argument.help)}.")
    for option in command.options:
        yield from option_item(option)


def section(title, lines):
    return [f".SH {title}", *lines]


def items(rows):
    return [line for head, text in rows for line in item(head, text)]


def native_lines():
    words = form.natives()
    if set(words) != set(NATIVES):
        raise form.Unreadable(f"what natives do is told of {', '.join(NATIVES)}, and there are {', '.join(words)}")
    yield "A word behind the script stands for a native, from number 0 on. There are at most 16."
    yield from items((bold(word), plain(NATIVES[word])) for word in words)


def fault_lines():
    yield "One line on standard error says why a call ends with status 1, 2 or 5."
    yield f"What its numbers mean is told too where the words have {bold('--explain')}."
    yield from items((marked(line), f"{marked(says[:1].upper() + says[1:])}. Status {status}.") for line, status, says in form.table_of(PAGE, "Fault lines"))


def status_lines():
    return items((bold(number), f"{marked(when[:1].upper() + when[1:])}.") for number, _, when in form.table_of(PAGE, "Exit statuses"))


def forms_of(cell, mnemonics):
    """The instructions that a cell of the page's table names, each with its operands. Those that share theirs stand before them: `add`, `sub` `rA rB rC`."""
    spans = [it.split() for it in re.findall(r"`([^`]+)`", cell)]
    shared = [it for it in spans if it[0] not in mnemonics]
    return [form.Instruction(it[0], it[1:] or [word for words in shared for word in words]) for it in spans if it[0] in mnemonics]


def instruction_lines():
    rows, known = form.table_of(TEXTS_PAGE, "Instructions"), form.instructions()
    told = [it for cell, _ in rows for it in forms_of(cell, {one.mnemonic for one in known})]
    strange = [it.mnemonic for it in [*known, *told] if (it in known) != (it in told)]
    if strange:
        raise form.Unreadable(f"{TEXTS_PAGE} has another form of {strange[0]} than the table of instructions")
    yield "The instructions of assembly texts. A, B and C are numbers of registers or fields, L is a label, and TARGET is self, a register, a field or a"
    yield "cleanup entry. The register that is written comes first. The object is the one that the method works on."
    yield from items((marked(cell), f"{marked(says[:1].upper() + says[1:])}.") for cell, says in rows)


def script_lines():
    yield "A script has one thing in each line. T is a time in microseconds. Times do not fall from line to line."
    yield from items((marked(line), f"{marked(says[:1].upper() + says[1:])}.") for line, says in form.table_of(SCRIPTS_PAGE, "Lines"))


def transcript_lines():
    yield "What a run writes, line by line. K is the number of a class, T a time."
    yield from items((marked(line), f"{marked(when[:1].upper() + when[1:])}.") for line, when, _ in form.table_of(SCRIPTS_PAGE, "The transcript"))


def example_lines():
    yield ".EX"
    for call, prints in EXAMPLE:
        yield from [f"$ {bold(call)}", *map(plain, prints)]
    yield ".EE"


def description():
    yield f"{plain(form.about())}."
    yield "An image is a program in bytes. It is checked before it runs, and refused, with the reason, unless no run of it can lose an object,"
    yield "use one that is gone, or take more steps than it declares, even where requests for memory are refused."
    yield ".PP"
    yield from map(plain, itertools.takewhile(bool, form.below()))
    yield ".PP"
    yield f"{bold('aom --help')} tells the commands, {bold('aom help')} \\fICOMMAND\\fR the words of one, and {bold('aom --version')} the version; all with status 2, on standard error."


def man_page():
    """The text of aom.1."""
    commands = form.commands()
    name = "assembles, lists, checks, runs and debugs programs of active objects"
    parts = [
        [f'.TH AOM 1 "{form.version_date()}" "aom {form.version()}" "User Commands"'],
        section("NAME", [f"aom \\- {name}"]),
        section("SYNOPSIS", [line for it in commands for line in [synopsis_of(it.synopsis()), ".br"]][:-1]),
        section("DESCRIPTION", description()),
        section("COMMANDS", [line for it in commands for line in command_lines(it)]),
        section("NATIVES", native_lines()),
        section("INSTRUCTIONS", instruction_lines()),
        section("SCRIPTS", script_lines()),
        section("TRANSCRIPTS", transcript_lines()),
        section("EXIT STATUS", status_lines()),
        section("DIAGNOSTICS", fault_lines()),
        section("FILES", items((bold(ending), plain(says)) for ending, says in FILES)),
        section("EXAMPLES", example_lines()),
    ]
    return '.\\" made by tools/manual\n' + "".join(f"{line}\n" for part in parts for line in part)
