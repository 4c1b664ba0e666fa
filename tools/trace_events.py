"""A run as Chrome's trace events (JSON), which Perfetto and chrome://tracing open: a thread for main, each class that is dispatched, each client and native;
a slice for each dispatch, marks for what its lines tell, and how many objects live. A step stands for a microsecond: the run's own time is told with each dispatch."""

import re

# what begins a dispatch, and on whose thread
DISPATCH = re.compile(r"@(\d+) (main|run|serve)(?: (\d+))?")
# what else is told, with the thread that it is of; without one it is the dispatch's
MARKS = (
    (re.compile(r"(?:reply|discard|refuse) (\d+) "), "client {}"),
    (re.compile(r"killed (\d+)"), "native {}"),
    (re.compile(r"gone |leave |out "), None),
)


class Threads:
    """The threads by their names, in the order in which they come."""

    def __init__(self, classes):
        self.classes, self.numbers = classes, {}

    def number(self, name):
        return self.numbers.setdefault(name, len(self.numbers) + 1)

    def of_class(self, number):
        return self.number(self.classes[number]["name"] if number < len(self.classes) else f"class {number}")

    def named(self):
        return [event("M", number, 0, "thread_name", args={"name": name}) for name, number in self.numbers.items()]


def event(kind, thread, at, name, **more):
    return {"ph": kind, "pid": 1, "tid": thread, "ts": at, "name": name, **more}


def thread_of_mark(line, threads, own):
    """The thread of which a line tells, or None."""
    for shape, name in MARKS:
        found = shape.match(line)
        if found:
            return threads.number(name.format(*found.groups())) if name else own
    return None


def line_event(line, at, threads, slices):
    """What a line of the transcript comes to, if anything. A dispatch is kept among the slices until its end is known."""
    begun = DISPATCH.match(line)
    if begun:
        time, _, number = begun.groups()
        thread = threads.number("main") if number is None else threads.of_class(int(number))
        slices.append(event("X", thread, at, line.partition(" ")[2], dur=1, args={"time": int(time)}))
        return slices[-1]
    thread = thread_of_mark(line, threads, slices[-1]["tid"] if slices else threads.number("main"))
    return None if thread is None else event("i", thread, at, line, s="t")


def trace_of(data):
    """The trace of the run as the script says, by the data of its page."""
    run, lines = data["runs"][0], data["lines"]
    threads, slices, events, out, cells = Threads(data["declared"]["classes"]), [], [], 0, None
    look = data["looks"].index("cells") if "cells" in data["looks"] else None
    counted = cells_by_view(data["views"], lines) if look is not None else {}
    for at, state in enumerate(run["states"]):
        told = [lines[it] for it in run["transcript"][out : state[1]]]
        events += filter(None, (line_event(line, at, threads, slices) for line in told))
        out = state[1]
        if slices and not re.match("between|ended", lines[state[0]]):
            slices[-1]["dur"] = max(1, at + 1 - slices[-1]["ts"])
        if look is not None and counted[state[2 + look]] != cells:
            cells = counted[state[2 + look]]
            events.append(event("C", 0, at, "cells", args={"cells": cells}))
    return {"traceEvents": [*threads.named(), *events], "displayTimeUnit": "ms", "otherData": {"unit": "a microsecond is a step"}}


def cells_by_view(told, lines):
    """For each view of cells how many live: its first line says it. A view is told by itself, or by how much it begins with as another one does."""
    firsts = []
    for base, before, after, *between in told:
        firsts.append(firsts[base] if before else between[0] if between else firsts[base] if after else None)
    return {number: int(lines[it].split(" ")[1]) for number, it in enumerate(firsts) if it is not None and lines[it].startswith("cells ")}
