"""The test of tools/shown: a small program with a page of what it prints, of which a wrong body comes out as shown, and a right body, which the page has
nothing to do with, as not shown; and what was seen is taken as it is kept for the same texts alone."""

import os
import shutil

from edit_files import write_text
from house import House, measured
from unproved import NotMade, make_program

PROGRAM = """//! Prints the double of a number.
#![tactic(auto)]

use counts::double;
use std::io;

fn main(rt: HostRuntime) -> io::Result<()> {
    let number = double(4);
    println!(rt; "{number}")?;
    Ok(())
}
"""
COUNTS = """//! Doubles numbers.
#![tactic(auto)]

ghost use Rattle.std.specs.Prelude.{◌≡◌, ◌*◌};

/// The double of a number.
pub fn double(number: u8) -> u16
    ensures { result ≡ number * 2 }
{
    number as u16 * 2
}
"""
PAGE = "tests/numbers.md"
EDIT = f"shown: {PAGE}\nfile: src/lib.rt\nold: number as u16 * 2\nnew: "
WRONG, RIGHT = "counts/must-fail/double-is-threefold.edit", "counts/must-fail/double-in-other-words.edit"
NO_CODE = "counts/must-fail/double-is-no-code.edit"
FILES = {
    "crates.txt": "counts:\naom: counts\n",
    "HANDLES": "Handles allowed: none.\n",
    "docs/none.md": "",
    "examples/none.md": "",
    PAGE: "# Numbers\n\n```sh\n$ ./aom\n8\n```\n",
    "crates/aom/src/main.rt": PROGRAM,
    "crates/counts/src/lib.rt": COUNTS,
    f"crates/{WRONG}": f"{EDIT}number as u16 * 3\n",
    f"crates/{RIGHT}": f"{EDIT}number as u16 + number as u16\n",
}


def shown_is_well(top, tell):
    """Whether just the right body comes out as not shown, the wrong one is kept until its page is another, and one that is no code is told where no other is left to try."""
    for file, text in FILES.items():
        write_text(f"{top}/{file}", text)
    here = os.path.dirname(os.path.realpath(__file__))
    shutil.copytree(here, f"{top}/tools", ignore=shutil.ignore_patterns("__pycache__"))
    try:
        make_program(House(top), "aom", f"{top}/program")
    except NotMade as fault:
        tell(f"no program was made: {fault}")
        return False

    def said():
        status, lines, _ = measured(["env", f"XDG_CACHE_HOME={top}/cache", f"{top}/tools/shown", "--jobs", "1", f"{top}/program"], top)
        for it in lines:
            tell(it)
        return status, lines

    unshown = f"shown: FAILED: {RIGHT.replace('must-fail/', '')}: {PAGE} does not show it"
    both = said() == (1, [unshown, "shown: 0 of 2 seen by an earlier run here, of the same texts", "2 tried, 1 failed"])
    os.remove(f"{top}/crates/{RIGHT}")
    kept = said() == (0, ["shown: 1 of 1 seen by an earlier run here, of the same texts", "1 tried, 0 failed"])
    write_text(f"{top}/{PAGE}", FILES[PAGE].replace("# Numbers", "# Doubles"))
    anew = said() == (0, ["shown: 0 of 1 seen by an earlier run here, of the same texts", "1 tried, 0 failed"])
    write_text(f"{top}/crates/{NO_CODE}", f"{EDIT}number.of_no_type()\n")
    status, lines = said()
    no_code = status == 1 and lines[0].startswith(f"shown: FAILED: {NO_CODE.replace('must-fail/', '')}: no program was made: ")
    return both and kept and anew and no_code
