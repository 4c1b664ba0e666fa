"""Runs rt ci over one copy of the repository, and beside it the must-fail edits over another."""

import os
import re
import shutil
import subprocess
import threading
import time

from following import Following
from house import House
from lanes import Lanes
from quick_rt import KEPT_AT, keeps_proofs, rt_words
from trial import Trial
from verdicts import Verdicts


class Proofs:
    """A run of rt ci over a copy without must-fail edits: what passed and failed, how long it took, and how much of the processors' time."""

    def __init__(self, top, jobs, anew, kept_at=None):
        self.top, self.jobs, self.anew, self.kept_at = top, jobs, anew, kept_at
        self.passed, self.failed, self.seconds, self.used = 0, 1, 0.0, 0.0

    def command(self):
        """The words of the run, and what it finds around it. What earlier runs have proved is kept by rt ci itself, or else here. An rt that keeps proofs gives
        idle processors to the checks at hand, unless it is told how many jobs there may be."""
        around = {name: it for name, it in os.environ.items() if name not in (KEPT_AT, "RT_JOBS")}
        if keeps_proofs():
            fixed = {} if self.jobs == len(os.sched_getaffinity(0)) else {"RT_JOBS": str(self.jobs)}
            return rt_words("ci", *(["--anew"] if self.anew else [])), {**around, **fixed}
        kept_at = {} if self.anew or not self.kept_at else {KEPT_AT: self.kept_at}
        return rt_words("ci"), {**around, "RT_JOBS": str(self.jobs), **kept_at}

    def run(self, hear):
        """Runs it, and hands on each line that it says."""
        for name in os.listdir(f"{self.top}/crates"):
            shutil.rmtree(f"{self.top}/crates/{name}/must-fail", ignore_errors=True)
        start, last = time.monotonic(), ""
        words, around = self.command()
        how = {"stdin": subprocess.DEVNULL, "stdout": subprocess.PIPE, "stderr": subprocess.STDOUT, "text": True, "errors": "replace"}
        with subprocess.Popen(words, cwd=self.top, env=around, **how) as ran:
            for line in ran.stdout:
                last = line.rstrip("\n")
                hear(last)
            _, status, used = os.wait4(ran.pid, 0)
            ran.returncode, self.used = os.waitstatus_to_exitcode(status), used.ru_utime + used.ru_stime
        counts = re.fullmatch(r"(\d+) passed, (\d+) failed", last)
        if counts:
            self.passed, self.failed = int(counts[1]), int(counts[2])
        if ran.returncode and not self.failed:
            self.failed = 1
        self.seconds = time.monotonic() - start


def prove_and_try(place, jobs, anew, say, show, verdicts_at=None, until=None):
    """Proves the copy `proofs` of a folder, and tries the edits of its copy `edits`, each once rt ci has proved what it stands on: the run of rt ci, and the trial. Proofs come first.
    From the given time on no check of an edit begins."""
    house, proofs = House(f"{place}/edits"), Proofs(f"{place}/proofs", jobs, anew, verdicts_at)
    following = Following(house, proofs.top, Lanes(jobs, say), place)
    trial = Trial(house, list(house.direct), following, place, say, Verdicts(house, verdicts_at, anew), until)
    trial.begin()

    def hear(line):
        show(line)
        following.hear(line)

    def follow():
        try:
            proofs.run(hear)
        finally:
            following.end()

    prover = threading.Thread(target=follow, daemon=True)
    prover.start()
    # a thread's niceness is handed on to the threads and processes that it makes
    os.nice(19)
    trial.run()
    prover.join()
    return proofs, trial
