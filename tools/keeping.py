"""Proves crates side by side, each once those that it stands on are proved, so that there is what they keep."""

import os
import shutil
import tempfile
import threading

from house import KEPT, make_room, run_rt, tells_errors

# a crate that others wait for comes before anything else
FIRST = 10**9


class Keeping:
    """The proofs of some crates and of all below them. Rooms are made and dropped in the given folder."""

    def __init__(self, house, lanes, place):
        self.house, self.lanes, self.place = house, lanes, place
        self.wanted, self.left, self.weight = set(), {}, {}
        self.behind, self.seconds, self.lock = {}, 0.0, threading.Lock()

    def chain(self, name):
        """The work of the longest chain of crates that begins with this one."""
        if name not in self.behind:
            above = [it for it in self.wanted if name in self.house.direct[it]]
            self.behind[name] = self.weight[name] + max(map(self.chain, above), default=0)
        return self.behind[name]

    def start(self, names, ready, proved, failed):
        """What is called with the name of a crate that can be tried, of one that is proved, and of one that is not, with the reason."""
        self.tell_ready, self.tell_proved, self.tell_failed = ready, proved, failed
        self.wanted = {one for it in names for one in [*self.house.stack_of(it), it]}
        self.left = {it: set(self.house.direct[it]) for it in self.wanted}
        self.weight = {it: self.house.lines(it) for it in self.wanted}
        for name in sorted(self.wanted):
            if not self.left[name]:
                self.add(name)

    def add(self, name):
        self.lanes.add(FIRST + self.chain(name), lambda: self.keep(name))

    def keep(self, name):
        """Proves a crate over what it has kept. In a clean copy that is from nothing."""
        folder = self.house.folder(name)
        verb = "check" if os.path.isfile(f"{folder}/src/main.rt") else "lib"
        with tempfile.TemporaryDirectory(dir=self.place, ignore_cleanup_errors=True) as room:
            make_room(self.house, name, f"{room}/r", KEPT)
            status, lines, seconds = run_rt(f"{room}/r/crates/{name}", verb, "--jobs", "1")
            if status == 0:
                shutil.rmtree(f"{folder}/out", ignore_errors=True)
                shutil.move(f"{room}/r/crates/{name}/out", f"{folder}/out")
        with self.lock:
            self.seconds += seconds
        if status:
            self.tell_failed(name, [it for it in lines if tells_errors(it) and ": warning" not in it] or lines[-3:])
            return
        self.tell_proved(name)
        self.tell_ready(name, self.house, f"{folder}/out/incremental")
        with self.lock:
            ready = [it for it in self.wanted if self.left[it] == {name}]
            for it in self.wanted:
                self.left[it].discard(name)
        for it in ready:
            self.add(it)

    def times(self):
        """How many proofs, and the seconds that they took of a processor."""
        return len(self.wanted), self.seconds
