"""Follows rt ci as it proves a copy of the repository: what it leaves of a proved library is what the edits' checks of the crates above stand on."""

import os
import re
import threading
import time

from house import House
from keeping import Keeping

# of a crate that rt ci has proved here before, and takes as it was built then, it says that it is kept
TOLD = re.compile(r"rt: (\w+) (proved|is kept|NOT PROVED)\b(.*)")


class Following:
    """Hands each crate on once rt ci has proved all below it, and says which it has proved itself. The proofs of what some other rt ci
    does not leave where this one does are made in the house of the edits, once it has ended."""

    def __init__(self, house, top, lanes, place):
        self.house, self.lanes, self.place = house, lanes, place
        self.libraries = House(top)
        self.proved, self.failed = set(), {}
        # when it was told of each that it is proved
        self.start_time, self.times_told = time.monotonic(), {}
        self.wanted, self.begun = [], set()
        self.keeping = None
        self.lock = threading.Lock()

    def start(self, wanted, ready, proved, failed):
        """What is called with the name of a crate that can be tried, of one that is proved, and of one that is not, with the reason."""
        self.wanted, self.tell_ready, self.tell_proved, self.tell_failed = wanted, ready, proved, failed
        self.lanes.hold()
        self.hand_on()

    def hear(self, line):
        """Takes a line of rt ci."""
        told = TOLD.fullmatch(line)
        if not told:
            return
        if told[2] != "NOT PROVED":
            self.proved.add(told[1])
            self.times_told.setdefault(told[1], time.monotonic())
            self.tell_proved(told[1])
            self.hand_on()
        else:
            self.fail(told[1], line)

    def fail(self, name, line):
        if name not in self.failed:
            self.failed[name] = line
            self.tell_failed(name, [line])

    def is_left(self, name):
        """Whether all below a crate is proved, and is where its checks look."""
        below = self.house.stack_of(name)
        return self.proved.issuperset(below) and all(os.path.isdir(self.libraries.library(it)) for it in below)

    def hand_on(self):
        with self.lock:
            ready = [it for it in self.wanted if it not in self.begun and it not in self.failed and self.is_left(it)]
            self.begun.update(ready)
        for it in ready:
            self.tell_ready(it, self.libraries, "")

    def end(self):
        """Takes that rt ci has ended."""
        for it in self.wanted:
            if it not in self.proved:
                self.fail(it, f"rt ci did not prove {it}")
        left = [it for it in self.wanted if it not in self.begun and it not in self.failed]
        if left:
            self.keeping = Keeping(self.house, self.lanes, self.place)
            self.keeping.start(left, self.tell_ready, self.tell_proved, self.tell_failed)
        self.lanes.release()

    def longest_chain(self):
        """The crates of which each waited for the one before it, to the last that was proved, each with the seconds from then on."""
        found, at = [], self.times_told
        name = max(at, key=at.get, default=None)
        while name:
            before = max((it for it in self.house.direct[name] if it in at), key=at.get, default=None)
            found.append((name, at[name] - (at[before] if before else self.start_time)))
            name = before
        return found[::-1]

    def times(self):
        return self.keeping.times() if self.keeping else (0, 0.0)
