"""Pages of commands: a fenced block that begins with '$ ' has commands, each with the lines that it prints, and each is tried with a built program.
What is tried has to end with status 0: a page tells another one of a call by 'echo status $?' behind it. Standard error is looked at too."""

import itertools
import os
import re
import shutil
import signal
import subprocess
import tempfile
from typing import NamedTuple

TOP = os.path.dirname(os.path.dirname(os.path.realpath(__file__)))
FENCE, PROMPT = "```", "$ "
SECONDS = 60
# a plain name with an ending, and so no path and no word for a language
FILE_NAME = re.compile(r"[\w-]+(\.[\w-]+)+")


class Block(NamedTuple):
    """A fenced block: the number of its first line, the word behind its fence, and its lines."""

    number: int
    word: str
    lines: list


class Command(NamedTuple):
    """A command: the number of its line, what is called, and the lines that it prints."""

    number: int
    call: str
    wanted: list


def read_page(page):
    with open(f"{TOP}/{page}", encoding="utf-8") as it:
        return it.read().splitlines()


def blocks_of(lines):
    """The fenced blocks. One that has no end goes to the end of the page."""
    found, inside = [], False
    for number, line in enumerate(lines, 1):
        if line.startswith(FENCE):
            inside = not inside
            if inside:
                found.append(Block(number + 1, line.removeprefix(FENCE).strip(), []))
        elif inside:
            found[-1].lines.append(line)
    return found


def has_commands(block):
    return bool(block.lines) and block.lines[0].startswith(PROMPT)


def commands_of(block):
    """The commands of a block that has some."""
    found = []
    for number, line in enumerate(block.lines, block.number):
        if line.startswith(PROMPT):
            found.append(Command(number, line.removeprefix(PROMPT), []))
        else:
            found[-1].wanted.append(line)
    return found


def make_place(program, place):
    """A folder that stands for the repository's top, as far as a page needs it."""
    for name in ("docs", "examples"):
        shutil.copytree(f"{TOP}/{name}", f"{place}/{name}")
    os.symlink(program, f"{place}/aom")
    os.symlink(f"{TOP}/tools", f"{place}/tools")


def said(call, place):
    """The status of a call, and the lines that a reader sees of it. One that takes too long is ended with all that it began."""
    how = {"stdin": subprocess.DEVNULL, "stdout": subprocess.PIPE, "stderr": subprocess.STDOUT, "text": True, "errors": "replace"}
    with subprocess.Popen(["sh", "-c", call], cwd=place, start_new_session=True, **how) as ran:
        try:
            output, _ = ran.communicate(timeout=SECONDS)
        except subprocess.TimeoutExpired:
            os.killpg(ran.pid, signal.SIGKILL)
            raise
    return ran.returncode, output.splitlines()


def fault_of(command, place):
    """What is wrong with what a command prints, or None."""
    try:
        status, got = said(command.call, place)
    except subprocess.TimeoutExpired:
        return f"it has not ended after {SECONDS} seconds"
    for at, (one, other) in enumerate(itertools.zip_longest(command.wanted, got), 1):
        if one != other:
            return f"its line {at}: {tell(one)} on the page, {tell(other)} from the program"
    return f"its status is {status}" if status else None


def tell(line):
    return "nothing" if line is None else repr(line)


def names(call, file):
    return re.search(rf"(?<![\w.-]){re.escape(file)}(?![\w.-])", call) is not None


class Place:
    """A folder in which the blocks of a page are tried one by one."""

    def __init__(self, page, program, folder):
        self.page, self.folder = page, folder
        self.has_tried = False
        # the files that no command has named yet, each with the number of its line
        self.unnamed = {}
        make_place(program, folder)

    def at(self, number, name):
        return f"{self.page}:{number}: {name}"

    def try_block(self, block):
        """What of a block is tried, each with what is wrong with it, or None."""
        if FILE_NAME.fullmatch(block.word):
            yield from self.write_file(block)
        elif has_commands(block):
            yield from map(self.try_command, commands_of(block))
        else:
            yield self.at(block.number, block.word), "it is no file and has no commands"

    def write_file(self, block):
        yield from self.never_named(block.word)
        self.unnamed[block.word] = block.number
        with open(f"{self.folder}/{block.word}", "w", encoding="utf-8") as it:
            it.writelines(f"{line}\n" for line in block.lines)

    def try_command(self, command):
        self.has_tried = True
        self.unnamed = {file: number for file, number in self.unnamed.items() if not names(command.call, file)}
        return self.at(command.number, command.call), fault_of(command, self.folder)

    def never_named(self, *files):
        """The files of these that no command has named."""
        for file in files:
            if file in self.unnamed:
                yield self.at(self.unnamed[file], file), "no command behind it names it"


def page_trials(program, page):
    """Everything of a page that is tried, each with what is wrong with it, or None."""
    with tempfile.TemporaryDirectory(prefix="aom-pages-") as folder:
        place = Place(page, program, folder)
        for block in blocks_of(read_page(page)):
            yield from place.try_block(block)
        yield from place.never_named(*place.unnamed)
        if not place.has_tried:
            yield page, "it has no commands"


def try_all(tool, program, trials):
    """Tries all that `trials` gives for a program: names, each with what is wrong or None. Tells the faults and the counts, and answers the status."""
    program = os.path.abspath(program)
    if not (os.path.isfile(program) and os.access(program, os.X_OK)):
        print(f"{tool}: FAILED: no program at {program}\n0 tried, 1 failed")
        return 1
    tried = failed = 0
    for name, fault in trials(program):
        tried += 1
        if fault is not None:
            failed += 1
            print(f"{tool}: FAILED: {name}: {fault}")
    print(f"{tried} tried, {failed} failed")
    return 1 if failed or not tried else 0
