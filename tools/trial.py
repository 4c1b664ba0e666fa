"""Tries every must-fail edit: each has to be refused by the prover."""

import os
import shutil
import tempfile
import threading
import time

import rattle
from batches import plan, refused_at, shown, texts_of, unread
from copies import copies_of, is_closed_case, is_of_copies, texts_beside
from edit_files import edit_faults, edit_files, places_of, read_edit, write_text
from holes import make_holes
from house import PARTS, copy_parts, tells_errors
from showing import FALSE, KINDS as SHOWN, LOST, OPEN, kind_by, most_open, said_alone, said_in_batch
from verdicts import Verdicts

# the memory that a check takes for each line of a crate, in bytes
LINE = 300_000
KINDS = ("batches", "side by side", "by one function", "whole")
# what comes before the edits of other crates: those that the last run had no time for
FIRST = 10**8


class Trial:
    """A run over the edits of some crates of a clean copy. The source says which crates are proved and can be tried. Copies are made and dropped in the given folder; what earlier runs here saw refused is not tried again. From the given time on no check of an edit begins."""

    def __init__(self, house, names, source, place, say, verdicts=None, until=None):
        self.house, self.source, self.place, self.say = house, source, place, say
        self.lanes = source.lanes
        self.verdicts = verdicts or Verdicts(house, None)
        self.passed, self.failed = [], []
        # when no more is begun, and what was left out for that
        self.until, self.untried = until, []
        # by what each was refused, what the check said then, and those that neither their contract nor a page, a test or a closed case shows
        self.kinds, self.said, self.unshown = {}, {}, []
        self.seconds, self.checks = dict.fromkeys(KINDS, 0.0), dict.fromkeys(KINDS, 0)
        # by crate: where its libraries lie, what its checks have kept, which come after the first, and whether any do
        self.libraries, self.kept, self.rest, self.has_more = {}, {}, {}, {}
        self.proved, self.given_up = set(), set()
        # what is kept of a crate is read or replaced by one check at a time
        self.lock, self.moving = threading.Lock(), threading.Lock()
        self.is_of_all = set(names) == set(house.direct)
        self.names = [it for it in names if any(edit_files(house.folder(it)))]
        self.known = {it: self.known_of(it) for it in self.names}
        self.weight = {it: house.lines(it) for it in self.names}
        self.places = {it: places_of(house.folder(it)) for it in self.names}
        self.waited = {it.split("/")[0] for it in self.verdicts.untried()}

    def known_of(self, name):
        """The edits of a crate that an earlier run saw refused, as it and they stand."""
        return [it for it in edit_files(self.house.folder(name))[0] if self.verdicts.is_refused(name, it)]

    def begin(self):
        for name, it, fault in edit_faults(self.house, self.names):
            self.tell(name, it, False, f"BAD EDIT: {fault}")
        for name in self.names:
            for it in self.known[name]:
                kind = self.verdicts.kind_of(name, it)
                self.kinds[f"{name}/{it}"] = kind
                self.tell_kind(name, it, kind, " (by an earlier run here, of the same texts)")
        self.source.start([it for it in self.names if self.left_of(it)], self.add_edits, self.count, self.give_up)

    def run(self):
        """Tries all; what the source never handed on fails. What there was no time for is told apart, and the next run here begins with it."""
        self.lanes.run()
        told, is_late = {*self.passed, *self.failed}, self.is_late()
        for name, it in ((name, it) for name in self.names for it in self.left_of(name) if f"{name}/{it}" not in told):
            if is_late and name not in self.given_up:
                self.untried.append(f"{name}/{it}")
                self.say(f"must-fail {name}/{it}: not tried, for want of time")
            else:
                self.tell(name, it, False, "NOT TRIED")
        self.verdicts.keep_untried(self.untried)

    def is_late(self):
        return self.until is not None and time.monotonic() > self.until

    def times(self):
        """What was done, how often, and the seconds that it took of a processor."""
        return [("proofs below them", *self.source.times()), *((it, self.checks[it], self.seconds[it]) for it in self.seconds)]

    def tell(self, name, edit, well, text):
        with self.lock:
            well = well and name not in self.given_up
            (self.passed if well else self.failed).append(f"{name}/{edit}")
            self.say(f"must-fail {name}/{edit}: {text}")

    def tell_refused(self, name, edit, said, text):
        """Tells that an edit is refused, as a check says."""
        case, kind = self.case_of(name, edit), kind_by(said)
        # a closed case has no variables: what does not hold there is false
        if kind == OPEN and case and any(it.startswith("fn ") and f"::{case}: " in it for it in said):
            kind = FALSE
        with self.lock:
            self.kinds[f"{name}/{edit}"], self.said[f"{name}/{edit}"] = kind, said
        if name in self.proved:
            self.keep_refused(name, edit)
        self.tell_kind(name, edit, self.kinds[f"{name}/{edit}"], text)

    def tell_kind(self, name, edit, kind, text):
        """Tells by what an edit is refused, and which page, test or closed case shows it where its proof is lost."""
        page = read_edit(self.house.folder(name), edit).page or self.case_of(name, edit)
        shown = "" if kind != LOST else f", and {page or 'nothing'} shows it"
        if shown and not page:
            with self.lock:
                self.unshown.append(f"{name}/{edit}")
        self.tell(name, edit, True, f"refused, as it must be, by {kind}{shown}{text}")

    def case_of(self, name, edit):
        """The closed case that refuses an edit, where its crate says that one does."""
        places = self.places[name].get(edit, [])
        return next((it for it in places if is_closed_case(self.house.folder(name), it)), "")

    def keep_refused(self, name, edit):
        it = f"{name}/{edit}"
        self.verdicts.keep_refused(name, edit, self.kinds[it], self.said.get(it, []))

    def count_of(self, kind):
        """How many of the edits that are refused are so by this kind of what a check says."""
        return sum(self.kinds.get(it) == kind for it in self.passed)

    def counts(self):
        """How many of the edits that are refused are so by each kind of what a check says."""
        for kind in SHOWN:
            yield f"edits refused by {kind}: {self.count_of(kind)}"

    def shown(self):
        """How many edits are refused, and shown where their proof is lost."""
        return sum(it not in self.unshown for it in self.passed)

    def faults(self):
        """What is wrong with edits that are refused, each in words: one that is lost wants what shows it, and of all edits no more than a part may be open."""
        for it in sorted(it for it in self.unshown if it in self.passed):
            yield f"must-fail {it}: its proof is lost, and no page, test or closed case shows it"
        most = most_open(len(self.passed) + len(self.failed) + len(self.untried))
        if self.is_of_all and self.count_of(OPEN) > most:
            yield f"{self.count_of(OPEN)} edits are refused by {OPEN} alone, and of all at most {most} may be"

    def checked(self, kind, name, folder, functions, kept):
        """A check of a crate's copy; its time is counted."""
        status, lines, seconds = rattle.check(self.libraries[name], name, folder, functions, kept)
        with self.lock:
            self.seconds[kind] += seconds
            self.checks[kind] += 1
        return status, lines

    def count(self, name):
        """Takes that a crate is proved: what was refused of it before counts."""
        with self.lock:
            self.proved.add(name)
            refused = [it.removeprefix(f"{name}/") for it in self.passed if it.startswith(f"{name}/")]
        for it in refused:
            self.keep_refused(name, it)

    def give_up(self, name, lines):
        """What is refused of a crate that is not proved, or stands on one, says nothing."""
        for it in self.names:
            if it not in self.given_up and (it == name or name in self.house.stack_of(it)):
                with self.lock:
                    self.given_up.add(it)
                    told = [one for one in self.passed if one.startswith(f"{it}/")]
                    self.passed = [one for one in self.passed if one not in told]
                    self.failed += told
                self.say(f"must-fail {it}: its edits do NOT COUNT: {name} is not proved: {lines[0][:200]}")

    def left_of(self, name):
        """The edits of a crate that are to be tried."""
        return [it for it in edit_files(self.house.folder(name))[0] if it not in self.known[name]]

    # the edits

    def add_edits(self, name, libraries, kept):
        """Adds the checks of a crate's edits. Where nothing of the crate is kept they stand on what the first of them keeps."""
        if name not in self.names or name in self.given_up:
            return
        self.libraries[name], self.kept[name] = libraries, kept
        folder = self.house.folder(name)
        edits = [read_edit(folder, it) for it in self.left_of(name)]
        together, alone = plan(name, folder, [it for it in edits if not it.fault])
        copies = copies_of(name, folder, alone, self.places[name])
        left = [it for it in alone if it.name not in [one.edit.name for one in copies]]
        # copies go with the first batch
        batches = together or ([[]] if copies else [])
        adders = [lambda it=it, own=copies if it is batches[0] else (): self.add_batch(name, it, own) for it in batches]
        adders += [lambda it=it: self.add_alone(name, it) for it in left]
        at_once = len(adders) if kept else 1
        self.rest[name], self.has_more[name] = adders[at_once:], len(adders) > 1
        for add in adders[:at_once]:
            add()

    def add_rest(self, name):
        """Adds the checks of a crate after its first."""
        with self.lock:
            rest = self.rest.pop(name, [])
        for add in rest:
            add()

    def add(self, name, more, work):
        """Puts a check of a crate in the lanes. It falls where the crate turns out not to be proved."""
        needs, first = 10**9 + LINE * self.weight[name], FIRST if name in self.waited else 0
        self.lanes.add(self.weight[name] + more + first, lambda: name in self.given_up or self.is_late() or work(), needs)

    def add_batch(self, name, batch, copies=()):
        """Adds the check of a batch, and of copies beside it."""
        if len(batch) + len(copies) > 1:
            self.add(name, len(batch) + len(copies), lambda: self.try_batch(name, batch, copies))
        elif batch:
            self.add_alone(name, batch[0].edit, batch[0].asked())
        elif copies:
            self.add_alone(name, copies[0].edit)

    def add_alone(self, name, edit, functions=()):
        """Adds the check of one edit: first of the functions that may show it, if any are known."""
        places = list(functions) or self.places[name].get(edit.name, [])
        if places:
            self.add(name, 0, lambda: self.try_alone(name, edit, places))
        else:
            self.add_whole(name, edit)

    def add_whole(self, name, edit):
        """Adds a check of the whole crate with an edit."""
        self.add(name, 0, lambda: self.try_whole(name, edit))

    def check_with(self, kind, name, texts, functions):
        """Checks a copy of a crate with these texts in place of its own, over what is kept of the crate: all of it, or these functions,
        with holes for the others. What cannot be judged so is checked without holes."""
        answer = self.check_copy(kind, name, texts, functions, bool(functions))
        if functions and not rattle.is_judged(answer[1]):
            answer = self.check_copy(kind, name, texts, functions, False)
        self.add_rest(name)
        return answer

    def check_copy(self, kind, name, texts, functions, with_holes):
        with tempfile.TemporaryDirectory(dir=self.place, ignore_cleanup_errors=True) as room:
            copy_parts(self.house.folder(name), f"{room}/c", PARTS)
            for path, text in texts.items():
                write_text(f"{room}/c/{path}", text)
            if with_holes:
                make_holes(name, f"{room}/c", functions)
            with self.moving:
                if self.kept[name]:
                    shutil.copytree(self.kept[name], f"{room}/kept")
            kept = f"{room}/kept" if self.kept[name] or self.has_more[name] else ""
            answer = self.checked(kind, name, f"{room}/c", functions, kept)
            if os.path.isdir(f"{room}/kept") and (not texts or not self.kept[name]):
                self.keep(name, f"{room}/kept")
        return answer

    def keep(self, name, kept):
        """Keeps the work of a check for those after it."""
        to = f"{self.place}/kept/{name}"
        with self.moving:
            shutil.rmtree(to, ignore_errors=True)
            os.makedirs(os.path.dirname(to), exist_ok=True)
            self.kept[name] = shutil.move(kept, to)

    def try_batch(self, name, batch, copies=()):
        """Tries edits of different functions together, and edits of definitions beside them, by their copies."""
        folder = self.house.folder(name)
        texts = texts_beside(folder, copies, texts_of(folder, batch))
        functions = sorted({it.path() for placed in batch for it in placed.turned})
        kind = "batches" if batch else "side by side"
        status, lines = self.check_with(kind, name, texts, functions + [it.path() for it in copies])
        unknown = rattle.unknown_functions(lines)
        if unknown:
            self.try_without(name, batch, unknown, copies)
            return
        self.judge_copies(name, copies, status, lines)
        lines = [it for it in lines if not is_of_copies(it)]
        refused = shown(name, batch, status, lines)
        for it in batch:
            if it.edit.name in refused:
                self.tell_refused(name, it.edit.name, said_in_batch(lines, it.turned), " (shown in a batch)")
        left = [it for it in batch if it.edit.name not in refused]
        if refused or len(left) < 4:
            for it in left:
                self.add_alone(name, it.edit, [] if refused and it.turned == it.known else it.asked())
            return
        # one edit can keep a check from judging the others
        half = len(left) // 2
        self.add_batch(name, left[:half])
        self.add_batch(name, left[half:])

    def judge_copies(self, name, copies, status, lines):
        """Takes what a check says of copies. What it does not show is tried alone."""
        for it in copies:
            at = refused_at(status, lines, [it.path()])
            own = [one for one in lines if it.is_told_in(one)]
            if at and not unread(own, it.texts):
                self.tell_refused(name, it.edit.name, said_alone(own), " (shown by a law of its own, over its own copies)")
            else:
                self.add_alone(name, it.edit)

    def try_without(self, name, batch, unknown, copies):
        """Tries the edits alone whose functions a check knows by other names, and the others in a batch."""
        known = [it for it in batch if not any(turned.path() in unknown for turned in it.turned)]
        for it in batch:
            if it not in known:
                self.add_alone(name, it.edit)
        self.add_batch(name, known, [it for it in copies if it.path() not in unknown])
        for it in copies:
            if it.path() in unknown:
                self.add_alone(name, it.edit)

    def try_alone(self, name, edit, functions):
        """Tries an edit by the functions that may show it. The whole crate is the last word where these do not."""
        status, lines = self.check_with("by one function", name, edit.texts, functions)
        at = refused_at(status, lines, functions)
        if at and not unread(lines, edit.texts):
            self.tell_refused(name, edit.name, said_alone(lines), f": {at[:160]}")
        else:
            self.add_whole(name, edit)

    def try_whole(self, name, edit):
        status, lines = self.check_with("whole", name, edit.texts, [])
        told = next((it for it in lines if tells_errors(it) and ": warning" not in it), "")
        bad = unread(lines, edit.texts)
        if bad:
            self.tell(name, edit.name, False, f"BAD EDIT: the prover cannot read the edited text, so no contract was tried: {bad[:200]}")
        elif status == 1 and any(it.startswith("logic=not-proved") for it in lines):
            self.tell_refused(name, edit.name, said_alone(lines), f": {told[:160]}")
        elif status == 0:
            self.tell(name, edit.name, False, "NOT REFUSED: the crate is still proved with this edit")
        else:
            self.tell(name, edit.name, False, f"BAD EDIT: it did not reach the prover: {' / '.join(lines[-4:])[:400]}")
