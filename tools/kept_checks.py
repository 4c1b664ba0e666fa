"""What earlier runs of rt ci on this machine have proved, crate by crate, where the toolchain's rt ci keeps nothing itself. A check that passed stands for
the next one of the same crate: of the same texts, its own and those of all crates below (rt's own sum of them), over the very same libraries, by the same
toolchain and tools, under the same HANDLES. What it built is put where it would build it. Only what passed is kept, never a failure."""

import hashlib
import json
import os
import shutil
import subprocess
import tempfile

# what decides how a crate is checked
TOOLS = ("kept_checks.py", "quick_rt.py")
# the room that is kept in use and left free, in bytes
MOST, SPARE = 20 * 10**9, 10 * 10**9


def kit_version():
    """What the toolchain says that it is. Where it says nothing, nothing can be kept by it, and all ends."""
    said = subprocess.run(["rt", "version"], stdin=subprocess.DEVNULL, stdout=subprocess.PIPE, check=False)
    if said.returncode or not said.stdout.strip():
        raise SystemExit(f"'rt version' says nothing (status {said.returncode}): the toolchain is not there, or not whole, so nothing is tried")
    return said.stdout


def files_below(path):
    """The files at a path, with their names below it."""
    if os.path.isfile(path):
        yield path, ""
    for at, folders, names in os.walk(path):
        folders.sort()
        yield from ((f"{at}/{it}", os.path.relpath(f"{at}/{it}", path)) for it in sorted(names))


def sum_of(*paths):
    """A sum of all bytes that lie at some paths, with the names of the files, and how many bytes these are."""
    found, size = hashlib.blake2b(digest_size=32), 0
    for path in paths:
        for file, name in files_below(path):
            with open(file, "rb") as it:
                text = it.read()
            size += len(text)
            found.update(f"{os.path.basename(path)} {name} {len(text)}\n".encode() + text)
    return found.hexdigest(), size


def dropped(path):
    """Drops what lies at a path, if anything does."""
    if os.path.isdir(path) and not os.path.islink(path):
        shutil.rmtree(path, ignore_errors=True)
    elif os.path.lexists(path):
        os.unlink(path)


def copied(path, to):
    """Puts what lies at a path there too, without a copy of its bytes where that can be."""
    for file, name in files_below(path):
        place = f"{to}/{name}" if name else to
        os.makedirs(os.path.dirname(place), exist_ok=True)
        dropped(place)
        try:
            os.link(file, place)
        except OSError:
            shutil.copy2(file, place)


def made_by(crate, of_tests):
    """What a check of a crate builds, below its out/."""
    if of_tests:
        names = [f"{crate.name}_tests", f"{crate.name}_tests.o"]
    elif crate.makes_rlib():
        names = ["rlib"]
    else:
        names = [f"{crate.name}{it}" for it in ("", ".o", ".by-rattle", ".by-rattle.o")]
    return [it for it in names if os.path.exists(f"{crate.folder}/out/{it}")]


class KeptChecks:
    """The checks that are kept in a folder."""

    def __init__(self, at):
        self.at, self.libraries = f"{at}/checks", {}
        here = os.path.dirname(os.path.realpath(__file__))
        self.tools = kit_version().decode(), sum_of(*(f"{here}/{it}" for it in TOOLS))[0]

    def library_sum(self, crate):
        """The sum of the library that a proved crate is."""
        if crate.rlib not in self.libraries:
            self.libraries[crate.rlib] = sum_of(crate.rlib)[0]
        return self.libraries[crate.rlib]

    def place_of(self, crate, of_tests):
        stands_on = [(it.name, self.library_sum(it)) for it in crate.below()]
        told = repr((self.tools, crate.name, crate.stamp(), of_tests, crate.allowed, sorted(stands_on)))
        return f"{self.at}/{hashlib.sha256(told.encode()).hexdigest()}"

    def take(self, crate, place):
        """Whether what a check built is kept here; then it lies where that check would build it."""
        try:
            with open(f"{place}/kept.json", encoding="utf-8") as it:
                told = json.load(it)
        except (OSError, ValueError):
            return False
        built = [f"{crate.folder}/out/{it}" for it in told["names"]]
        try:
            for name, to in zip(told["names"], built):
                copied(f"{place}/{name}", to)
            if sum_of(*built)[0] == told["sum"]:
                os.utime(place)
                return True
        except OSError:
            pass
        # it is not what was kept
        for it in [*built, place]:
            dropped(it)
        return False

    def keep(self, crate, place, of_tests):
        """Keeps what a check that passed has built. Where there is no room the next run checks once more."""
        names = made_by(crate, of_tests)
        try:
            os.makedirs(self.at, exist_ok=True)
            total, size = sum_of(*(f"{crate.folder}/out/{it}" for it in names))
            if shutil.disk_usage(self.at).free < SPARE + size:
                return
            room = tempfile.mkdtemp(dir=self.at)
            for name in names:
                copied(f"{crate.folder}/out/{name}", f"{room}/{name}")
            with open(f"{room}/kept.json", "w", encoding="utf-8") as it:
                json.dump({"crate": crate.name, "names": names, "sum": total, "size": size}, it)
            os.rename(room, place)
            self.drop_oldest()
        except OSError:
            return

    def drop_oldest(self):
        """Drops what was not used for longest, as long as more is kept than may be."""
        entries = []
        for it in os.scandir(self.at):
            try:
                with open(f"{it.path}/kept.json", encoding="utf-8") as told:
                    entries.append((it.stat().st_mtime, it.path, json.load(told)["size"]))
            except (OSError, ValueError, KeyError):
                continue
        total = sum(size for _, _, size in entries)
        for _, path, size in sorted(entries):
            if total <= MOST:
                return
            shutil.rmtree(path, ignore_errors=True)
            total -= size

    def checking(self, check):
        """The check of a crate, where one that is kept stands for it."""

        def checked(crate, flags, of_tests):
            if of_tests and not crate.has_tests():
                return check(crate, flags, of_tests)
            place = self.place_of(crate, of_tests)
            if self.take(crate, place):
                print(f"rt: {crate.name} is kept: an earlier run here has proved these texts", file=crate.out)
                return 0
            status = check(crate, flags, of_tests)
            if status == 0:
                self.keep(crate, place, of_tests)
            return status

        return checked
