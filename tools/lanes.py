"""Work side by side, the most urgent first, in as many lanes as are open and memory holds."""

import heapq
import itertools
import re
import threading
import time
import traceback

# what is left free beside the work, in bytes
SPARE = 2 * 10**9


def number_in(file, pattern):
    """The number that a pattern finds in a file of the system; None where it has none."""
    try:
        with open(file, encoding="utf-8") as it:
            found = re.search(pattern, it.read())
    except OSError:
        return None
    return int(found[1]) if found else None


def free_memory():
    """The free memory in bytes, under the limit of the control group too."""
    found = 1024 * (number_in("/proc/meminfo", r"MemAvailable:\s+(\d+)") or 0)
    limit = number_in("/sys/fs/cgroup/memory.max", r"^(\d+)")
    held = number_in("/sys/fs/cgroup/memory.stat", r"(?m)^anon (\d+)")
    return found if limit is None or held is None else min(found, limit - held)


class Lanes:
    def __init__(self, open_lanes, say, pause=20.0):
        self.open_lanes, self.say = open_lanes, say
        # the seconds before work that met a fault is tried again
        self.pause = pause
        self.waiting = []
        self.running, self.held = 0, False
        self.fault = None
        self.order = itertools.count()
        self.changed = threading.Condition()

    def add(self, urgency, work, needs=0):
        """Puts work in the queue, with the memory that it needs; work may add more."""
        with self.changed:
            heapq.heappush(self.waiting, (-urgency, next(self.order), work, needs))
            self.changed.notify_all()

    def hold(self):
        """Has a run wait for work that is added from outside, until it is released."""
        self.held = True

    def release(self):
        with self.changed:
            self.held = False
            self.changed.notify_all()

    def has_room(self):
        """Whether the most urgent work can begin: there is a lane, and its memory is free or nothing else runs here."""
        if not self.waiting or self.running >= self.open_lanes:
            return False
        return not self.running or free_memory() >= self.waiting[0][3] + SPARE

    def run(self):
        """Runs all work, that which is added meanwhile too. The first piece of work that meets a fault twice ends it."""
        with self.changed:
            while not self.fault and (self.waiting or self.running or self.held):
                if self.has_room():
                    self.start(heapq.heappop(self.waiting)[2])
                    continue
                # memory comes free with no notice
                self.changed.wait(self.pause if self.waiting else None)
        if self.fault:
            raise self.fault

    def start(self, work):
        self.running += 1
        threading.Thread(target=self.carry_out, args=(work,), daemon=True).start()

    def fault_of(self, work):
        """Carries out a piece of work: what it met with, if anything."""
        try:
            work()
        except Exception as it:
            return it
        return None

    def carry_out(self, work):
        fault = self.fault_of(work)
        if fault:
            # the machine may have been short of memory or room for a moment
            self.say(f"tried again: {''.join(traceback.format_exception(fault))}")
            time.sleep(self.pause)
            fault = self.fault_of(work)
        with self.changed:
            self.running -= 1
            self.fault = self.fault or fault
            self.changed.notify_all()
