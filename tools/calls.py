"""The calls of a program that a page makes, kept so that they can be made again with another one: its words, its input and the files that it names,
in a folder of their own. What a program answers is its status and what it writes; it has little time and memory, and may not write much."""

import os
import resource
import shutil
import signal
import subprocess
import sys
import tempfile
from dataclasses import dataclass

from edit_files import write_text
from house import read_bytes
from page import page_trials

# stands for the program while a page is tried; its input may be a folder, which Python does not take
FIRST = """#!/bin/sh
exec 3<&0
exec {python} {room}.py "$@" < /dev/null
"""
# keeps what the program is called with, and what it answers, and then is that program. Input is read only where the program reads it, since the next
# command of the page may
RECORDER = """import os, shutil, stat, subprocess, sys, tempfile
program, words = {program!r}, []
call = tempfile.mkdtemp(dir={room!r})
os.mkdir(f"{{call}}/files")
for at, word in enumerate(sys.argv[1:]):
    head, equals, file = word.rpartition("=")
    if os.path.isfile(file) and not file.startswith("/dev/"):
        is_below = not os.path.isabs(file) and not os.path.normpath(file).startswith("..")
        name = os.path.normpath(file) if is_below else f"file-{{at}}"
        os.makedirs(os.path.dirname(f"{{call}}/files/{{name}}"), exist_ok=True)
        shutil.copy(file, f"{{call}}/files/{{name}}")
        word = word if is_below else f"{{head}}{{equals}}{{name}}"
    words.append(word)
is_folder = stat.S_ISDIR(os.fstat(3).st_mode)
is_reader = not is_folder and (sys.argv[1:2] in (["debug"], ["lsp"]) or any(it == "-" or it.endswith("/dev/stdin") for it in words))
if is_folder:
    os.mkdir(f"{{call}}/stdin")
else:
    with open(f"{{call}}/stdin", "wb") as it:
        it.write(open(3, "rb", closefd=False).read({most}) if is_reader else b"")
given = os.open(f"{{call}}/stdin", os.O_RDONLY)
ran = subprocess.run([program, *sys.argv[1:]], stdin=given, stdout=subprocess.PIPE, stderr=subprocess.DEVNULL)
full = [str(it) for it in (1, 2) if os.readlink(f"/proc/self/fd/{{it}}") == "/dev/full"]
for name, text in (("stdout", ran.stdout), ("status", b"%d" % ran.returncode), ("full", "".join(full).encode()), ("words", "\\0".join(words).encode())):
    with open(f"{{call}}/{{name}}", "wb") as it:
        it.write(text)
os.dup2(os.open(f"{{call}}/stdin", os.O_RDONLY) if is_reader else 3, 0)
os.close(3)
os.execv(program, ["aom", *sys.argv[1:]])
"""
# input that has no end is kept up to here
MOST_INPUT = 1 << 23
# what one call may take: seconds of a processor, seconds on a busy machine, and bytes of memory and of output
SECONDS, PATIENCE, MEMORY, OUTPUT = 5, 120, 4 << 30, 64 << 20


class NoAnswer(Exception):
    """A program was still running when its time on the clock was over, though it had time of a processor left."""


@dataclass(frozen=True)
class Answer:
    """What a call ends with: its status, negative where a signal ended it, and what it wrote."""

    status: int
    output: bytes
    errors: bytes


@dataclass(frozen=True)
class Call:
    """A call of a page: where it lies, its words, the outputs that are full from the start, and what the page's program answered."""

    place: str
    words: tuple
    full: str
    status: int
    output: bytes

    def answer(self, program):
        """What a program answers to it."""
        with tempfile.TemporaryDirectory(prefix="aom-call-") as room:
            shutil.copytree(f"{self.place}/files", f"{room}/files")
            given = os.open(f"{self.place}/stdin", os.O_RDONLY)
            try:
                with self.output_at(room, 1) as output, self.output_at(room, 2) as errors:
                    how = {"cwd": f"{room}/files", "stdin": given, "stdout": output, "stderr": errors, "start_new_session": True, "preexec_fn": limited}
                    with subprocess.Popen([program, *self.words], **how) as ran:
                        status = ended(ran)
            finally:
                os.close(given)
            return Answer(status, *(read_bytes(f"{room}/{it}") if os.path.exists(f"{room}/{it}") else b"" for it in (1, 2)))

    def output_at(self, room, number):
        """A file for an output of the call."""
        return open("/dev/full" if str(number) in self.full else f"{room}/{number}", "wb")

    def is_as_on_the_page(self, answer):
        """Whether an answer is that of the page's program. One that wrote to no end has a status of its own."""
        return bool(self.full) or (answer.status, answer.output) == (self.status, self.output)


def limited():
    """Sets the limits of a process that is about to begin."""
    resource.setrlimit(resource.RLIMIT_CPU, (SECONDS, SECONDS))
    resource.setrlimit(resource.RLIMIT_AS, (MEMORY, MEMORY))
    resource.setrlimit(resource.RLIMIT_FSIZE, (OUTPUT, OUTPUT))
    resource.setrlimit(resource.RLIMIT_CORE, (0, 0))


def ended(ran):
    """The status of a program that runs, once it has ended."""
    try:
        return ran.wait(PATIENCE)
    except subprocess.TimeoutExpired:
        os.killpg(ran.pid, signal.SIGKILL)
        raise NoAnswer from None


class Calls:
    """The calls that a page makes of a program, and what is wrong with the page, or None."""

    def __init__(self, program, page, place):
        room = f"{place}/calls"
        os.makedirs(room)
        write_text(f"{room}.py", RECORDER.format(room=room, program=os.path.abspath(program), most=MOST_INPUT))
        write_text(f"{place}/recorder", FIRST.format(room=room, python=sys.executable))
        os.chmod(f"{place}/recorder", 0o755)
        self.fault = next((f"{name}: {fault}" for name, fault in page_trials(f"{place}/recorder", page) if fault), None)
        # a recorder that the page broke off has not kept its words
        self.calls = [call_at(f"{room}/{it}") for it in sorted(os.listdir(room)) if os.path.isfile(f"{room}/{it}/words")]
        self.answers = []

    def begin(self, program):
        """Takes what a program answers to each call as what there is to answer; it is what the page's own program has answered."""
        self.answers = [it.answer(program) for it in self.calls]
        other = next((it for it, answer in zip(self.calls, self.answers) if not it.is_as_on_the_page(answer)), None)
        if other and not self.fault:
            self.fault = f"without an edit the program made for trials answers otherwise to {' '.join(other.words)}"

    def are_answered_otherwise_by(self, program):
        """Whether a program answers otherwise to one of the calls, or not at all."""
        return any(it.answer(program) != answer for it, answer in zip(self.calls, self.answers))


def call_at(place):
    """The call that lies there."""
    words, full = (read_bytes(f"{place}/{it}").decode() for it in ("words", "full"))
    return Call(place, tuple(words.split("\0")) if words else (), full, int(read_bytes(f"{place}/status")), read_bytes(f"{place}/stdout"))
