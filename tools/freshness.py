"""Of what a program was made. Beside it stands a record, PROGRAM.made: the sum of all that it is made of (sources, definitions and proofs of each crate that
it stands on, their lines of crates.txt, HANDLES, the toolchain's version), its own sum, the commit, and whether it is proved. A program is fresh where
these sums are those of the tree and of the file as they are now: no time of a file counts.

The time of the record itself says when its sums were last found to be right. `./aom` computes them anew only where something has changed its state since."""

import hashlib
import os
import subprocess
import time

from house import House, files_of, read_bytes

TOP = os.path.dirname(os.path.dirname(os.path.realpath(__file__)))
PROGRAM = "crates/aom/out/aom"
# the same code, made without its proofs for whoever tries it before they are made
UNPROVED = "crates/aom/out/aom-unproved"
# a file that changes just as it is read may have a time that is older by a tick of the system's clock
TICK = 0.1


def record_of(program):
    return f"{program}.made"


def toolchain():
    """What the toolchain says of itself, in one line; empty where there is none."""
    try:
        said = subprocess.run(["rt", "version"], stdin=subprocess.DEVNULL, stdout=subprocess.PIPE, stderr=subprocess.DEVNULL, text=True, check=True)
    except (OSError, subprocess.CalledProcessError):
        return ""
    return " ".join(said.stdout.split())


def texts_sum(top):
    """The sum of all that the program of a tree is made of, but for the toolchain."""
    house, found = House(top), hashlib.sha256()
    crate = PROGRAM.split("/")[1]
    for name in sorted([*house.stack_of(crate), crate]):
        found.update(house.said[name].encode())
        for file in sorted(files_of(house.folder(name))):
            text = read_bytes(file)
            found.update(f"{os.path.relpath(file, top)} {len(text)}\n".encode() + text)
    handles = f"{top}/HANDLES"
    found.update(read_bytes(handles) if os.path.isfile(handles) else b"")
    return found.hexdigest()


def commit_of(top):
    """The commit of a tree, and whether something differs from it; empty where git knows none."""

    def said(*words):
        ran = subprocess.run(["git", "-C", top, *words], stdout=subprocess.PIPE, stderr=subprocess.DEVNULL, text=True)
        return ran.stdout.strip() if ran.returncode == 0 else ""

    commit = said("rev-parse", "HEAD")
    return f"{commit} with changes" if commit and said("status", "--porcelain") else commit


def write_record(program, proved, texts, commit):
    """Writes what a program was made of, once it stands there."""
    now = time.time() - TICK
    lines = {"proved": proved, "toolchain": toolchain(), "commit": commit, "texts": texts, "program": hashlib.sha256(read_bytes(program)).hexdigest()}
    with open(f"{record_of(program)}.new", "w", encoding="utf-8") as it:
        it.writelines(f"{name} {text}\n" for name, text in lines.items())
    os.utime(it.name, (now, now))
    os.replace(it.name, record_of(program))


def read_record(program):
    """The lines of the record, by their first words; empty where there is none."""
    try:
        with open(record_of(program), encoding="utf-8") as it:
            return dict(line.rstrip("\n").partition(" ")[::2] for line in it)
    except (OSError, ValueError):
        return {}


def is_fresh(program, top):
    """Whether a program is what this tree makes, by this toolchain. Where there is no toolchain its version is not asked for."""
    now, record = time.time() - TICK, read_record(program)
    if not record or not os.access(program, os.X_OK) or toolchain() not in ("", record.get("toolchain")):
        return False
    if record.get("program") != hashlib.sha256(read_bytes(program)).hexdigest() or record.get("texts") != texts_sum(top):
        return False
    try:
        os.utime(record_of(program), (now, now))
    except OSError:
        # another's tree: it is summed anew each time
        pass
    return True
