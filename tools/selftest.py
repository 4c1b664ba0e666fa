"""The test of the gate's own tools: a small repository of which one crate is false, and whose edits are known to be refused, or must not pass;
of what is kept of its proofs and of its verdicts; of the reading of sources; and of the trial of pages."""

import os
import re
import shutil

from edit_files import write_text
from freshness import PROGRAM, is_fresh, texts_sum, write_record
from house import House
from proving import Proofs, prove_and_try
from quick_rt import keeps_proofs
from selftest_reading import reading_is_well
from selftest_shown import shown_is_well
from showing import FALSE as FALSE_AT, LOST, OPEN
from verdicts import Verdicts

SAMPLE = """//! A small crate on which the trial of edits is tried.
#![tactic(auto)]

ghost use Rattle.std.specs.Prelude.{◌≡◌, ◌≤◌, ◌<◌, ◌+◌, ◌*◌, length, slice_index};

/// The double of a number.
pub fn double(number: u8) -> u16
    ensures { result ≡ number * 2 }
{
    number as u16 * 2
}

/// At most the number.
pub fn part(number: u8) -> u8
    ensures { result ≤ number }
{
    number / 2
}

/// Three times the number.
pub fn threefold(number: u8) -> u16
    ensures { result ≡ number * 3 }
{
    double(number) + number as u16
}

/// Four times the number.
pub fn fourfold(number: u8) -> u16
    ensures { result ≡ number * 4 }
{
    double(number) + double(number)
}

/// Five times the number.
pub fn fivefold(number: u8) -> u16
    ensures { result ≡ number * 5 }
{
    fourfold(number) + number as u16
}

/// The number again.
pub fn again(number: u8) -> u16
    ensures { result ≡ number }
{
    let once = number as u16;
    once
}

/// The sum of two bytes beside each other.
pub fn pair(items: &[u8], at: usize) -> u16
    requires { at + 1 < length items.now }
    ensures { result ≡ slice_index items.now at + slice_index items.now (at + 1) }
{
    let one = items[at] as u16;
    let other = items[at + 1] as u16;
    one + other
}
"""
# answers by hand, of which one names a call
FIVEFOLD = """use Rattle.std.proofs.Common.{arith}
use Rattle.sample.proofs.fivefold.Goals as goal

pub returns : goal.returns
returns c = omega (arith, c.fourfold.ensures)
"""
AGAIN = """use Rattle.std.proofs.Common.{refl}
use Rattle.sample.proofs.again.Goals as goal

pub returns : goal.returns
returns c = refl
"""
AMOUNTS = """-- What comes of a number.
use Rattle.std.specs.Prelude.{ℕ, ◌≡◌, ◌*◌}

-- six times a number
abbrev pub sixfold : ℕ → ℕ
sixfold n = n * 6

abbrev pub SixfoldIsSo : Type 0
SixfoldIsSo = (n : ℕ) → sixfold n ≡ n * 6
"""
STATED_LAWS = """//! A law, as the contract of a function that does nothing.
ghost use Rattle.stated.specs.Amounts.{SixfoldIsSo};

/// What sixfold is.
pub fn sixfold_is_so()
    ensures { SixfoldIsSo }
{}
"""
STATED = """//! A small crate of laws over the other.
#![tactic(auto)]

pub mod laws;
"""
FALSE = """//! A small crate that is not proved.
#![tactic(auto)]

ghost use Rattle.std.specs.Prelude.{◌≡◌};

/// The number 2.
pub fn two() -> u8
    ensures { result ≡ 2 }
{
    1
}
"""
WHERE = """- no-text-of-the-logic.edit: laws::sixfold_is_so
- sixfold-in-other-words.edit: laws::sixfold_is_so
- sixfold-is-sevenfold.edit: laws::sixfold_is_so
"""
FILES = {
    "crates.txt": "sample:\nstated: sample\nfalse_one: sample\n",
    "HANDLES": "Handles allowed: none.\n",
    "tests/numbers.md": "# Numbers\n",
    "crates/sample/src/lib.rt": SAMPLE,
    "crates/sample/proofs/fivefold/Answers.antt": FIVEFOLD,
    "crates/sample/proofs/again/Answers.antt": AGAIN,
    "crates/stated/src/lib.rt": STATED,
    "crates/stated/src/laws.rt": STATED_LAWS,
    "crates/stated/specs/Lib.antt": "pub mod Amounts\n",
    "crates/stated/specs/Amounts.antt": AMOUNTS,
    "crates/stated/must-fail/where.md": WHERE,
    "crates/false_one/src/lib.rt": FALSE,
}
# a count without an invariant, and one without a measure
BY_A_COUNT = "let mut total = 0; for _ in 0..2 { total += number as u16; } total"
BY_A_WHILE = "let mut total = 0; let mut count = 0; while count < 2 { total += number as u16; count += 1; } total"
CODE, DEFINITIONS = "src/lib.rt", "specs/Amounts.antt"
# an edit's crate, name and file, the text that it takes away, the text in its place, and by what it is refused, if it is
EDITS = [
    ("sample", "double-is-threefold", CODE, "number as u16 * 2", "number as u16 * 3", FALSE_AT),
    ("sample", "threefold-is-double", CODE, "double(number) + number as u16", "double(number)", FALSE_AT),
    # beside another that it calls, and that is refused
    ("sample", "fourfold-in-other-words", CODE, "double(number) + double(number)", "double(number) * 2", ""),
    ("sample", "harmless", CODE, "number / 2", "number / 4", ""),
    # of a double, which is refused for what it turns alone
    ("sample", "harmless-too", CODE, "number / 2", "number / 8", ""),
    ("sample", "part-is-more", CODE, "number / 2", "number | 1", FALSE_AT),
    ("sample", "stands-nowhere", CODE, "number / 3", "number", ""),
    ("sample", "fivefold-is-sixfold", CODE, "fourfold(number) + number as u16", "fourfold(number) + double(number)", FALSE_AT),
    ("sample", "fivefold-in-other-words", CODE, "fourfold(number) + number as u16", "threefold(number) + double(number)", LOST),
    ("sample", "fivefold-the-other-way", CODE, "fourfold(number) + number as u16", "number as u16 + fourfold(number)", ""),
    ("sample", "fivefold-is-fourfold", CODE, "fourfold(number) + number as u16", "fourfold(number)", FALSE_AT),
    ("sample", "again-in-other-words", CODE, "let once = number as u16;", "let once = number as u16 * 1;", LOST),
    # the same way, and no page shows it
    ("sample", "again-without-a-page", CODE, "let once = number as u16;", "let once = number as u16 + 0;", LOST),
    # right bodies of other forms: none is refused by a goal that is false at a case
    ("sample", "double-by-a-count", CODE, "number as u16 * 2", f"{{ {BY_A_COUNT} }}", LOST),
    ("sample", "double-by-a-while", CODE, "number as u16 * 2", f"{{ {BY_A_WHILE} }}", LOST),
    ("sample", "fivefold-after-a-call", CODE, "fourfold(number) + number as u16", "{ let _ = fourfold(number / 2); fourfold(number) + number as u16 }", ""),
    ("sample", "sum-after-a-read", CODE, "let one = items[at] as u16;", "let _ = items[at + 1]; let one = items[at] as u16;", ""),
    ("sample", "sum-of-one-twice", CODE, "one + other", "one + one", FALSE_AT),
    ("stated", "sixfold-is-sevenfold", DEFINITIONS, "sixfold n = n * 6", "sixfold n = n * 7", FALSE_AT),
    ("stated", "sixfold-in-other-words", DEFINITIONS, "sixfold n = n * 6", "sixfold n = 6 * n", ""),
    ("stated", "no-text-of-the-logic", DEFINITIONS, "sixfold n = n * 6", "sixfold n =", ""),
    ("false_one", "two-is-three", CODE, "    1", "    3", ""),
]
# the pages that show edits
PAGES = dict.fromkeys(("fivefold-in-other-words", "again-in-other-words", "double-by-a-count", "double-by-a-while"), "tests/numbers.md")


def text_of(name, file, old, new):
    """An edit as a file says it."""
    page = f"shown: {PAGES[name]}\n" if name in PAGES else ""
    return f"{page}file: {file}\nold: {old}\nnew: {new}\n"


def keeping_is_well(top, jobs, tell):
    """Whether a crate that was proved is taken as it is kept, and one whose text is another is proved again, where rt ci itself keeps nothing."""
    if keeps_proofs():
        return True
    write_text(f"{top}/proofs/crates/stated/{DEFINITIONS}", AMOUNTS.replace("six times a number", "a number, six times"))
    said, again = [], Proofs(f"{top}/proofs", jobs, False, f"{top}/kept")
    again.run(said.append)
    kept = [told[1] for told in map(re.compile(r"rt: (\w+) is kept\b").match, said) if told]
    tell(f"kept of its proofs: {' '.join(kept) or 'nothing'}")
    return kept == ["sample"] and (again.passed, again.failed) == (2, 1)


def verdicts_are_well(top, at, wanted, tell):
    """Whether the verdicts of a trial stand for the same texts alone: not where a text that a check reads is another, or gone, and again once it is as it was."""

    def known():
        verdicts = Verdicts(House(top), at)
        return {it: verdicts.kind_of(*it.split("/")) for it in wanted if verdicts.is_refused(*it.split("/"))}

    first = known()
    write_text(f"{top}/crates/stated/{DEFINITIONS}", AMOUNTS.replace("six times a number", "a number, six times"))
    other = known()
    write_text(f"{top}/crates/stated/{DEFINITIONS}", AMOUNTS)
    again = known()
    os.remove(f"{top}/crates/sample/proofs/again/Answers.antt")
    gone = known()
    write_text(f"{top}/crates/sample/proofs/again/Answers.antt", AGAIN)
    tell(f"verdicts: {len(first)} at first, {len(other)} of other texts, {len(again)} of the first again, {len(gone)} where one is gone")
    of_sample = {it: kind for it, kind in wanted.items() if it.startswith("sample/")}
    return (first, other, again, gone) == (wanted, of_sample, wanted, {}) and len(of_sample) < len(wanted)


# a tree of a program: the program, a crate below it and one that it does not use
TREE = {
    "crates.txt": "low:\naom: low\nother: low\n",
    "HANDLES": "Handles allowed: none.\n",
    "crates/low/src/lib.rt": "low\n",
    "crates/aom/src/main.rt": "main\n",
    "crates/other/src/lib.rt": "other\n",
    PROGRAM: "#!/bin/sh\n",
}
# what is done to that tree, and whether its program is still what it makes
CHANGES = [
    ("a crate that the program does not use", lambda top: write_text(f"{top}/crates/other/src/lib.rt", "more\n"), True),
    ("a file that is new", lambda top: write_text(f"{top}/crates/low/proofs/Lib.antt", ""), False),
    ("that file gone again", lambda top: os.unlink(f"{top}/crates/low/proofs/Lib.antt"), True),
    ("a file that is older, with another text", lambda top: write_as_old(f"{top}/crates/low/src/lib.rt", "lower\n"), False),
    ("its text as it was", lambda top: write_text(f"{top}/crates/low/src/lib.rt", "low\n"), True),
    ("another program", lambda top: write_text(f"{top}/{PROGRAM}", "#!/bin/sh\nfalse\n"), False),
]


def write_as_old(file, text):
    write_text(file, text)
    os.utime(file, (0, 0))


def freshness_is_well(top, tell):
    """Whether a program is fresh just where its tree and it are as they were when it was made."""
    for file, text in TREE.items():
        write_text(f"{top}/{file}", text)
    os.chmod(f"{top}/{PROGRAM}", 0o755)
    found = [is_fresh(f"{top}/{PROGRAM}", top)]
    write_record(f"{top}/{PROGRAM}", "yes", texts_sum(top), "")
    found.append(is_fresh(f"{top}/{PROGRAM}", top))
    for name, change, wanted in CHANGES:
        change(top)
        found.append(is_fresh(f"{top}/{PROGRAM}", top))
        tell(f"after {name}: the program is {'fresh' if found[-1] else 'stale'}, as it must be" if found[-1] == wanted else f"after {name}: WRONG")
    return found == [False, True, *(wanted for _, _, wanted in CHANGES)]


def faults_are_well(trial, tell):
    """Whether a trial fails for just the edit that is lost and that nothing shows, and, where more than a quarter of all are open, for that."""
    unshown = ["must-fail sample/again-without-a-page.edit: its proof is lost, and no page, test or closed case shows it"]
    as_seen, kinds = list(trial.faults()), trial.kinds
    quarter, names = len(EDITS) // 4, [it for it in trial.passed if it not in trial.unshown]
    trial.kinds = {**kinds, **dict.fromkeys(names[:quarter], OPEN)}
    at_most = list(trial.faults())
    trial.kinds = {**kinds, **dict.fromkeys(names[: quarter + 1], OPEN)}
    above = list(trial.faults())
    trial.kinds = kinds
    tell(f"faults of edits: {len(as_seen)} as seen, {len(at_most)} with {quarter} open ones, {len(above)} with one more")
    return len(names) > quarter and as_seen == at_most == unshown and above[:1] == unshown and len(above) == 2 and f"{quarter + 1} edits" in above[1]


def tools_are_well(place, jobs, say):
    """Whether just the edits that are wrong come out as refused, just the crate that is false as not proved, and just what has not changed as kept."""
    top = f"{place}/selftest"
    for file, text in FILES.items():
        write_text(f"{top}/edits/{file}", text)
    for crate, name, file, old, new, _ in EDITS:
        write_text(f"{top}/edits/crates/{crate}/must-fail/{name}.edit", text_of(name, file, old, new))
    shutil.copytree(f"{top}/edits", f"{top}/proofs")

    def tell(text):
        say(f"of the tools' own test: {text}")

    proofs, trial = prove_and_try(top, jobs, False, tell, tell, f"{top}/kept")
    wanted = {f"{crate}/{name}.edit": kind for crate, name, *_, kind in EDITS if kind}
    is_told = {it: trial.kinds[it] for it in trial.passed} == wanted and len(trial.failed) == len(EDITS) - len(wanted)
    is_told = is_told and faults_are_well(trial, tell) and (proofs.passed, proofs.failed) == (2, 1)
    is_told = is_told and verdicts_are_well(f"{top}/edits", f"{top}/kept", wanted, tell) and freshness_is_well(f"{place}/fresh", tell)
    return is_told and reading_is_well(tell) and keeping_is_well(top, jobs, tell) and shown_is_well(f"{top}/shown", tell)
