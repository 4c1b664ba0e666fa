"""quick_rt WORD..: runs the toolchain's own rt with these words, in this process, where each crate is asked once what it has below it.

The program stands on some fifty crates, and there are 600,000 ways down from the library to the lowest of them. A toolchain's rt lists the crates below a
crate by going each of these ways, which takes two minutes before the first proof; some sum up their texts so too, which takes longer than the proofs. What is
proved, tried and run is rt's own, and so is each answer. Where rt ci keeps nothing of what it has proved, that is done here (kept_checks.py), and how many
processes share a check is told here. Where rt is not made as it is known here, it runs as it stands."""

import functools
import importlib.machinery
import importlib.util
import os
import shutil
import subprocess
import sys
import threading
import time

from kept_checks import KeptChecks

# names the folder in which the checks of rt ci are kept
KEPT_AT = "AOM_KEPT_AT"
# what a crate answers by asking the same of each crate that it names; a toolchain that keeps proofs sums up each text once by itself
ASKED_DOWN, SUMMED_ONCE = ("below", "stamp"), ("below",)
# the most processes that share one check: memory holds no more of them beside the edits' checks
MOST_JOBS = 3


@functools.lru_cache(maxsize=None)
def keeps_proofs():
    """Whether this toolchain's rt ci keeps what it has proved, so that it can be asked to prove all."""
    said = subprocess.run(["rt", "help"], stdin=subprocess.DEVNULL, stdout=subprocess.PIPE, stderr=subprocess.STDOUT, text=True)
    return "--anew" in said.stdout


def rt_words(*words):
    """The words of a command that runs rt with these."""
    return [sys.executable, os.path.realpath(__file__), *words]


def once_in_a_call(method):
    """The method of a crate, where each crate is asked once while one call from outside runs: what it answers is the same."""
    running = threading.local()

    @functools.wraps(method)
    def ask(crate):
        is_outermost = not hasattr(running, "answers")
        if is_outermost:
            running.answers = {}
        try:
            if crate not in running.answers:
                running.answers[crate] = method(crate)
            return running.answers[crate]
        finally:
            if is_outermost:
                del running.answers

    return ask


def with_idle_lanes(check, lanes):
    """The check of a crate under rt ci, shared by the lanes that are idle when it begins. With a number of lanes given, rt takes one for each check,
    and what the others wait for is checked by one processor while the rest have nothing to do."""
    running, lock = [], threading.Lock()

    def shared(crate, _, of_tests):
        with lock:
            running.append(crate)
        # those that begin with it are counted
        time.sleep(1)
        try:
            return check(crate, ["--jobs", str(min(MOST_JOBS, max(1, lanes // len(running))))], of_tests)
        finally:
            with lock:
                running.remove(crate)

    return shared


def checks_of(check):
    """The checks of rt ci: by the lanes that are idle, and, where a folder for them is named, not again where one of the same texts is kept."""
    shared, kept_at = with_idle_lanes(check, int(os.environ["RT_JOBS"])), os.environ.get(KEPT_AT)
    return KeptChecks(kept_at).checking(shared) if kept_at else shared


def module_of(path):
    """The module that a program of Python is."""
    loader = importlib.machinery.SourceFileLoader("rt", path)
    made = importlib.util.module_from_spec(importlib.util.spec_from_loader("rt", loader))
    loader.exec_module(made)
    return made


def main(words):
    path = os.path.realpath(shutil.which("rt"))
    try:
        rt = module_of(path)
        crate, run = rt.rtlib.Crate, rt.main
        for name in SUMMED_ONCE if keeps_proofs() else ASKED_DOWN:
            setattr(crate, name, once_in_a_call(getattr(crate, name)))
        if words == ["ci"] and not keeps_proofs():
            rt.Crate.ci = checks_of(rt.Crate.ci)
    except (AttributeError, KeyError, SyntaxError, ValueError):
        os.execv(path, ["rt", *words])
    sys.argv = [path, *words]
    return run(words)


if __name__ == "__main__":
    sys.dont_write_bytecode = True
    sys.exit(main(sys.argv[1:]))
