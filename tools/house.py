"""The crates of this repository, and rooms: small copies of it in which one crate is checked."""

import os
import re
import shutil
import subprocess

from quick_rt import rt_words

# what a check reads of a crate
PARTS = ("src", "specs", "proofs")
# what it keeps
KEPT = ("out/incremental", "out/rlib")


class House:
    """The crates that crates.txt names, lowest first, with what each stands on."""

    def __init__(self, top):
        self.top = top
        self.direct, self.said, self.of_kit = {}, {}, {}
        with open(f"{top}/crates.txt", encoding="utf-8") as it:
            for line in it:
                head, colon, below = line.partition("#")[0].partition(":")
                if colon:
                    name = head.split()[0]
                    self.direct[name], self.said[name] = below.split(), line
        for name, below in self.direct.items():
            self.of_kit[name] = [it for it in below if it not in self.direct]
        self.direct = {name: [it for it in below if it in self.direct] for name, below in self.direct.items()}
        self.below = {}
        for name in self.direct:
            self.stack_of(name)

    def stack_of(self, name):
        """All crates below a crate, lowest first."""
        if name not in self.below:
            found = []
            for it in self.direct[name]:
                found += [one for one in [*self.stack_of(it), it] if one not in found]
            self.below[name] = found
        return self.below[name]

    def folder(self, name):
        return f"{self.top}/crates/{name}"

    def library(self, name):
        """What a check of a crate above reads of a proved library."""
        return f"{self.top}/crates/{name}/out/rlib/{name}.rlib"

    def lines(self, name):
        """How much a crate has to prove, in lines."""
        return sum(text.count(b"\n") for text in map(read_bytes, files_of(self.folder(name))))


def read_bytes(file):
    with open(file, "rb") as it:
        return it.read()


def files_of(crate):
    for part in PARTS:
        for at, _, names in os.walk(f"{crate}/{part}"):
            yield from (f"{at}/{it}" for it in sorted(names))


def own_files(top):
    """The files that belong to the repository: what git tracks, and what it neither tracks nor ignores. Without git all but what checks have kept."""
    words = ["git", "-C", top, "ls-files", "-z", "--cached", "--others", "--exclude-standard"]
    said = subprocess.run(words, stdout=subprocess.PIPE, stderr=subprocess.DEVNULL)
    if not said.returncode:
        return [it for it in said.stdout.decode().split("\0") if it and os.path.isfile(f"{top}/{it}")]
    found = []
    for at, folders, names in os.walk(top):
        folders[:] = [it for it in folders if it not in ("out", ".git", "__pycache__")]
        found += [os.path.relpath(f"{at}/{it}", top) for it in names]
    return found


def copy_tree(top, to):
    """A clean copy of the repository, without what checks have kept."""
    for file in own_files(top):
        os.makedirs(os.path.dirname(f"{to}/{file}"), exist_ok=True)
        shutil.copy2(f"{top}/{file}", f"{to}/{file}")


def copy_parts(crate, to, parts, copy=shutil.copy2):
    for part in parts:
        if os.path.isdir(f"{crate}/{part}"):
            shutil.copytree(f"{crate}/{part}", f"{to}/{part}", copy_function=copy)


def make_room(house, name, room, kept=()):
    """A repository of one crate, with these parts of what it keeps, and those below it, whose built libraries are linked and not copied."""
    os.makedirs(room)
    if os.path.isfile(f"{house.top}/HANDLES"):
        shutil.copy2(f"{house.top}/HANDLES", f"{room}/HANDLES")
    with open(f"{room}/crates.txt", "w", encoding="utf-8") as it:
        it.writelines(house.said[one] for one in [*house.stack_of(name), name])
    for it in house.stack_of(name):
        copy_parts(house.folder(it), f"{room}/crates/{it}", (*PARTS, "out/rlib"), os.link)
    copy_parts(house.folder(name), f"{room}/crates/{name}", (*PARTS, *kept))


def link_kept(house, top, names):
    """Hands on what the checks in another folder have kept of these crates."""
    for name in names:
        copy_parts(f"{top}/crates/{name}", house.folder(name), KEPT, os.link)


def measured(words, folder):
    """Runs a command: its status, the lines that it said, and the seconds that it and its children took of a processor."""
    how = {"cwd": folder, "stdin": subprocess.DEVNULL, "stdout": subprocess.PIPE, "stderr": subprocess.STDOUT, "errors": "replace"}
    with subprocess.Popen(words, **how) as ran:
        said = ran.stdout.read()
        _, status, used = os.wait4(ran.pid, 0)
        ran.returncode = os.waitstatus_to_exitcode(status)
    return ran.returncode, said.rstrip("\n").split("\n"), used.ru_utime + used.ru_stime


def run_rt(folder, *words):
    """Runs rt in a folder: its status, the lines that it said, and its time. A run that fails without a reason was broken off, and is begun once more."""
    status, lines, seconds = measured(rt_words(*words), folder)
    if status and not any(map(tells_errors, lines)):
        status, lines, more = measured(rt_words(*words), folder)
        seconds += more
    return status, lines, seconds


def tells_errors(line):
    return bool(re.match(r"(note: )?(\./)?\S+:\d+:\d+:", line))
