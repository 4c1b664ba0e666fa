"""Tries of sources: what a built program makes of one, beside the reading of the same source (reading.py), plainly and under each refused
request for memory. The reading knows where the source asks for memory; a request more is a guard's, at one of the places that may have one."""

import os
import random
import re
import subprocess

from random_sources import Source, script_of
from reading import Source as Read
from reading_text import NotRead

LIMIT, SECONDS = "30", 60
FAULT = re.compile(r"[^:\n]+\.ao:(\d+):(\d+): ([a-z-]+): ")
# the parts of a source by which it is changed: names and keywords, operators, statements, marks; and how often. Numbers stay, and so does the first line:
# what passes a limit of images is another thing
PARTS = [re.compile(it) for it in (r"\b[A-Za-z]\w*", r"\b[A-Za-z]\w*", r" (?:[-+*&|^<>]|[=!<>]=|&&|\|\|) ", r"[^;{}]+;", r"[^;{}]+;", r"[^\w\s]")]
CHANGED = 4
CLASS = re.compile(r"(?m)^class (\w+) ")
# of so many sources one has its last requests refused, not its first
LATE = 4
# how often a source's gaps are filled again
ROUNDS = 6


class Failed(Exception):
    """Program and reading differ, or the verifier refuses what was translated."""


class Outside(Exception):
    """What the reading does not follow."""


class Program:
    """A built program, and a folder to work in."""

    def __init__(self, path, place):
        self.path, self.place = os.path.abspath(path), place

    def write(self, name, text):
        with open(f"{self.place}/{name}", "w", encoding="utf-8") as file:
            file.write(text)
        return name

    def call(self, *words):
        how = {"stdin": subprocess.DEVNULL, "stdout": subprocess.PIPE, "stderr": subprocess.PIPE, "text": True, "errors": "replace"}
        try:
            return subprocess.run([self.path, *words], cwd=self.place, timeout=SECONDS, **how)
        except subprocess.TimeoutExpired as late:
            raise Failed(f"{words[0]} has not ended after {SECONDS} seconds") from late

    def compiled(self, text):
        """The assembly text of a source, or None, and the faults as line and name."""
        made = self.call("compile", self.write("it.ao", text))
        if made.returncode == 0:
            return made.stdout, []
        faults = [(int(line), name) for line, column, name in FAULT.findall(made.stderr) if is_place(text, int(line), int(column))]
        if not faults or len(faults) != len(FAULT.findall(made.stderr)) or any(name == "internal" for _, name in faults):
            raise Failed(f"compile says {made.stderr[:300]!r}")
        return None, faults


def is_place(text, line, column):
    """Whether a place is one of a byte of a text, or its end."""
    lines = text.split("\n")
    return 1 <= line <= len(lines) and 1 <= column <= len(lines[line - 1].encode()) + 1


def changed(text, chance):
    """A text in which a part is left out, stands twice, or is another one of its kind."""
    parts = list(chance.choice(PARTS).finditer(text, text.index("\n")))
    one, other = chance.choice(parts), chance.choice(parts)
    put = chance.choice(("", f"{one[0]} {one[0]}", other[0], other[0])) if ";" in one[0] or chance.random() < 0.1 else other[0]
    return text[: one.start()] + put + text[one.end() :]


def try_changed(program, text, script, seed):
    """Changed texts are refused at a place of theirs, or taken; then they are accepted, and do what the reading says."""
    chance = random.Random(f"changed {seed}")
    for _ in range(CHANGED):
        other = changed(text, chance)
        try:
            assembly, _ = program.compiled(other)
            if assembly is not None:
                tried(program, other, assembly, script, 0)
        except (Outside, AttributeError, LookupError, TypeError):
            # the translator passes over a block to which no way leads, and the reading breaks off at names and kinds there that are wrong
            pass
        except Failed as fault:
            raise Failed(f"changed to {other}: {fault}") from fault


def taken(program, seed):
    """A random source that the translator takes, with its assembly text, and the names of the faults on the way."""
    source, names = Source(seed), []
    for number in range(ROUNDS + 3):
        assembly, faults = program.compiled(source.text())
        if assembly is not None:
            return source, assembly, names
        names += [name for _, name in faults]
        if number == ROUNDS + 1:
            source.filled = dict.fromkeys(source.filled, "")
        for line, _ in faults:
            for gap in source.gaps_of_line(line):
                if number < ROUNDS:
                    source.fill(gap)
                else:
                    source.filled[gap] = ""
    raise Failed(f"it is refused with its gaps empty: {faults}")


class Trial:
    """A source beside a script: what the program writes, and what the reading says."""

    def __init__(self, program, text, assembly, events, native, natives=1):
        self.program, self.text = program, text
        self.events = [line for line in events if not line.startswith("refuse ")]
        self.refusals = sum(line.startswith("refuse ") for line in events)
        self.natives = [native] * natives
        self.asm = program.write("it.aom", assembly)
        self.classes = CLASS.findall(assembly)
        self.script = program.write("it.script", "".join(map(self.numbered, events)))
        try:
            self.read = Read(text)
        except NotRead as fault:
            raise Outside(str(fault)) from fault
        self.known, self.tried, self.reordered = {}, 0, 0

    def numbered(self, line):
        words = line.split()
        if words[1] == "connect":
            words[3] = str(self.classes.index(words[3]))
        return " ".join(words) + "\n"

    def reading(self, *refused):
        """What the reading writes where some places are refused."""
        if refused not in self.known:
            events = [(int(line.split()[0]), line.split()[1:]) for line in self.events]
            try:
                self.known[refused] = self.read.run(refused, events=events, natives=self.natives, limit=int(LIMIT))
            except (NotRead, RecursionError) as fault:
                raise Outside(str(fault)) from fault
        return self.known[refused]

    def ran(self, refused=0):
        """The lines of the program's run."""
        script = self.script
        if refused:
            script = self.program.write("refused.script", "".join(map(self.numbered, self.events)) + f"refuse {refused}\n")
        self.tried += 1
        made = self.program.call("run", "--names", "--limit", LIMIT, "--asm", self.asm, script, *self.natives)
        if made.stderr:
            raise Failed(f"run says {made.stderr.strip()!r}")
        return made.stdout.splitlines()

    def asked(self):
        """How many requests for memory the plain run makes."""
        return len(self.program.call("explore", "--limit", LIMIT, "--asm", self.asm, self.script, *self.natives).stdout.splitlines())

    def alike(self, lines, candidates):
        """The candidates, each places that are refused, of which the reading has these lines, or those in another order before a leave."""
        found = [it for it in candidates if in_any_order(lines) == in_any_order(self.reading(*it).lines)]
        self.reordered += bool(found) and not any(lines == self.reading(*it).lines for it in found)
        return found

    def try_plainly(self):
        """The script as it stands. Of its own refusals only their number is known to the reading, and their order."""
        lines = self.ran()
        if not self.is_reached(lines, ()):
            raise Failed(difference(lines, self.reading().lines))

    def is_reached(self, lines, refused):
        """Whether as many places as the script refuses requests, behind those that are refused already, lead to these lines."""
        read = self.reading(*refused)
        if self.alike(lines, [refused]):
            return True
        if len(refused) == self.refusals:
            return False
        alike = next((at for at, (one, other) in enumerate(zip(lines, read.lines)) if one != other), min(len(lines), len(read.lines)))
        last = refused[-1] if refused else 0
        found = [at for at, (_, written) in enumerate(read.places, 1) if at > last and written <= alike]
        return any(self.is_reached(lines, (*refused, at)) for at in reversed(found))

    def try_refused(self, most, is_late):
        """Each refused request in turn, the first so many or the last."""
        if self.refusals:
            return
        requests, places = self.asked(), [is_said for is_said, _ in self.reading().places]
        first = max(requests - most, 0) + 1 if is_late else 1
        # where the request before the first may have been
        found = {0} if first == 1 else {at for at in range(1, len(places) + 1) if sum(places[:at]) < first}
        for number in range(first, min(requests, first + most - 1) + 1):
            lines = self.ran(number)
            candidates = sorted({at for place in found for at in after(places, place)})
            found = {at for (at,) in self.alike(lines, [(at,) for at in candidates])}
            if not found:
                other = [difference(lines, self.reading(at).lines) for at in candidates[-1:]]
                raise Failed(f"refuse {number}: no place of {len(candidates)} has these lines; {' '.join(other)}")
        if requests < sum(places):
            raise Failed(f"{requests} requests for memory, and the source says {sum(places)}")


def after(places, place):
    """The places that the next request may be: guards, up to the next one that the source says."""
    at = place if place and not places[place - 1] else place + 1
    while at <= len(places):
        yield at
        if places[at - 1]:
            return
        at += 1


def in_any_order(lines):
    """Lines where those that come before a leave arrives have no order: docs/source.md does not say which owner goes first then."""
    made, part = [], []
    for line in lines:
        if line.startswith("leave "):
            made.append((sorted(part), line))
            part = []
        elif line.startswith("@"):
            made.append((part, line))
            part = []
        else:
            part.append(line)
    return [*made, (part, "")]


def difference(lines, read):
    for number, (one, other) in enumerate(zip([*lines, "(its end)"], [*read, "(its end)"])):
        if one != other:
            return f"line {number + 1}: the program writes {lines[number : number + 3]}, and the source says {read[number : number + 3]}"
    return "one ends before the other"


def tried(program, text, assembly, script, most, is_late=False):
    """A trial that has gone well."""
    checked = program.call("check", "--asm", program.write("it.aom", assembly))
    if checked.returncode:
        raise Failed(f"the verifier refuses it: {checked.stderr.strip()}")
    trial = Trial(program, text, assembly, *script)
    trial.try_plainly()
    trial.try_refused(most, is_late)
    return trial


def shrunk(program, source, script, most, is_late):
    """The text of a source that fails, with each gap empty that it fails without."""
    for gap in list(source.filled):
        kept, source.filled[gap] = source.filled[gap], ""
        try:
            assembly, _ = program.compiled(source.text())
            if assembly is not None:
                tried(program, source.text(), assembly, script, most, is_late)
        except Failed:
            continue
        except Outside:
            pass
        source.filled[gap] = kept
    return source.text()


def random_trial(program, seed, most):
    """The trial of the random source of a seed, which has gone well, and the faults on the way."""
    source, assembly, names = taken(program, seed)
    trial = tried(program, source.text(), assembly, script_of(seed), most, seed % LATE == 0)
    try_changed(program, source.text(), script_of(seed), seed)
    return trial, names


def written_out(program, seed, most):
    """The random source of a seed that fails, as small as emptying its gaps makes it, with its script."""
    try:
        source, _, _ = taken(program, seed)
    except Failed:
        return Source(seed).text()
    script = script_of(seed)
    return f"{shrunk(program, source, script, most, seed % LATE == 0)}\n{chr(10).join(script[0])}\n({script[1]})"
