"""Checks of a crate's copy by the toolchain's own command, over libraries wherever they lie: `rt check` takes only those that it built itself."""

import functools
import os
import re
import subprocess

from house import measured, tells_errors

NO_FUNCTION = re.compile(r"rattle: error: `\w+` has no function `([^`]+)`")


@functools.lru_cache(maxsize=None)
def kit():
    """The folder of the toolchain."""
    return os.path.dirname(subprocess.run(["rt", "doc"], stdout=subprocess.PIPE, text=True, check=True).stdout.strip())


def words_of(house, name):
    """What rt tells rattle of a crate whose libraries lie in this house."""
    root = "main" if os.path.isfile(f"{house.folder(name)}/src/main.rt") else "lib"
    words = ["--crate-name", name, f"src/{root}.rt", "-L", f"dependency={kit()}/rlibs"]
    for it in ["std", *house.of_kit[name]]:
        words += ["--extern", f"{it}={kit()}/rlibs/{it}.rlib"]
    for it in house.direct[name]:
        words += ["--extern", f"{it}={house.library(it)}"]
    for it in house.stack_of(name):
        words += ["-L", f"dependency={os.path.dirname(house.library(it))}"]
    words += ["--antt-project", f"{kit()}/rattle/logic/antt-project.json", "--logic-built", f"{kit()}/logic_built"]
    return [*words, "--links", f"{name}=", "--jobs", "1"]


def check(house, name, folder, functions, kept):
    """Checks the crate in a folder, over what another folder keeps if one is named, or these of its functions, where the proofs of others may be holes:
    the status, what was said, and the processor's seconds. A check that fails without a reason was broken off, and is begun once more."""
    words = [f"{kit()}/bin/rattle", "check", *words_of(house, name), *(["--incremental", kept] if kept else [])]
    for it in functions:
        words += ["--only", it]
    if functions:
        words.append("--allow-holes")
    seconds = 0.0
    for _ in range(2):
        status, lines, used = measured(words, folder)
        seconds += used
        if not status or any(tells_errors(it) or NO_FUNCTION.match(it) for it in lines):
            break
    return status, lines, seconds


def is_judged(lines):
    """Whether a check of some functions came to their proofs, and each proof in the crate was one of a function."""
    return any(it.startswith("only=") for it in lines) and not any("for this file to be the proof of" in it for it in lines)


def unknown_functions(lines):
    """The functions asked for that the crate does not have, as far as a check says so."""
    return {it[1] for it in map(NO_FUNCTION.match, lines) if it}
