"""What a refusal shows, by what the check said of the functions that an edit turns. It is *false* where a goal does not hold at a case that the check
tells; *open* where it names clauses of the functions' own contract as not proved, and nothing else is wrong; and *lost* otherwise: a search met a limit, a
measure, an invariant or a name is missing, an answer by hand no longer fits, or one of these stands beside the others. What is lost says that some proof is
of another body, and not that the contract refuses this one: there a page, a test or a closed case has to show what the edit turns. A right body of another
form can come out as open or lost, so these are counted apart."""

import re

from batches import FUNCTION

FALSE, OPEN, LOST = "a goal that is false at a case", "an open goal of its contract", "a proof that is lost"
KINDS = (FALSE, OPEN, LOST)
# of so many edits one may be open
OPEN_IS_ONE_OF = 4
# what a proof written by hand is refused for, with the goal that it answers
REFUSED = re.compile(r"(?:\./)?((?:proofs|specs)/\S+)/[^/ ]+\.antt:\d+:\d+: error: (.*)")
ANSWERED = re.compile(r"`([^`]*)`: (.*)")
# a goal that no answer names, told before its function
NOT_PROVED = re.compile(r"note: (?:\./)?src/\S+:\d+:\d+: it is not proved that .*?\(`([^`]*)`\)")
# goals by which a function keeps its own contract: what it ensures, and the invariant of its type
OF_CONTRACT = re.compile(r"(returns|invariant_of)\b")
# values at which a goal is false: found and tried by the check, or met by a tactic in all that it read
TRIED = re.compile(r"allow values at which this goal is false")
CASE = re.compile(r"the goal fails,? at")
# it stands on what was left out, so the goal may hold there
UNSURE = re.compile(r"so the goal may hold|nor every instance of a hypothesis|It did not look into .*\bwhether `")
LIMIT = re.compile(r"at one of its limits|at its own limit|met a bound of its own|so the goal may hold")
MISSING = re.compile(r"has no field|can be named from here|is not in scope|is no name|is not a name|unknown name|has no `")
# a tactic that tried and found nothing, as against an answer that is of another goal
NOT_FOUND = re.compile(r"`(search|grind|omega|cc|simp)`")
# what a function's loop wants before its goals say anything
WANTED = re.compile(r"(?:of|expected a measure in|write|add these lines to) (?:\./)?(proofs/\S+)/Invariants\.antt(?: is yours to choose|;|,|$| with)")
# what is seen of a function
IS_TRIED, IS_FALSE, IS_OPEN, IS_LOST, IS_WANTED = range(5)


def messages(lines):
    """What a check says, each message with the lines that belong to it."""
    found = []
    for line in lines:
        if found and line.startswith("  "):
            found[-1] += f" {line.strip()}"
        else:
            found.append(line)
    return found


def seen_of_answer(said):
    """What an error in a proof by hand shows."""
    goal = ANSWERED.match(said)
    if LIMIT.search(said) or MISSING.search(said):
        return IS_LOST
    if CASE.search(said) and not UNSURE.search(said):
        return IS_FALSE
    return IS_OPEN if goal and OF_CONTRACT.match(goal[1]) and NOT_FOUND.match(goal[2]) else IS_LOST


def seen_of_goal(said):
    """What a goal that no answer names shows."""
    if TRIED.search(said):
        return IS_TRIED
    return IS_OPEN if OF_CONTRACT.match(NOT_PROVED.match(said)[1]) and not LIMIT.search(said) else IS_LOST


def kind_of(seen):
    """The kind of a refusal of which all this was seen."""
    if IS_WANTED in seen:
        return LOST
    if IS_TRIED in seen:
        return FALSE
    # what stands beside a proof that is lost may be an answer of another goal
    if IS_LOST in seen or not seen:
        return LOST
    return FALSE if IS_FALSE in seen else OPEN


def own_messages(lines, folders, is_told):
    """The messages of a check that tell of some functions: those in the folders of their proofs, and their goals with what is said of them."""
    goals = []
    for it in messages(lines):
        told, refused, wanted = FUNCTION.match(it), REFUSED.match(it), WANTED.search(it)
        if NOT_PROVED.match(it):
            goals.append(it)
        elif told:
            yield from [*goals, it] if is_told(told[1]) else []
            goals = []
        elif refused and is_in(refused[1], folders) or wanted and is_in(wanted[1], folders):
            yield it


def is_in(folder, folders):
    """Whether a proof is one of these, which may be one of several functions that call one another."""
    return folders is None or folder.replace("/+", "/") in folders


def seen_in(said):
    """What is seen in the messages that tell of some functions."""
    for it in said:
        refused, told = REFUSED.match(it), FUNCTION.match(it)
        if WANTED.search(it) and not refused:
            yield IS_WANTED
        elif refused:
            yield seen_of_answer(refused[2])
        elif NOT_PROVED.match(it):
            yield seen_of_goal(it)
        elif told and "did not prove" in told[2] and not any(map(NOT_PROVED.match, said)):
            yield IS_OPEN if all(map(OF_CONTRACT.match, re.findall(r"`([^`]*)`", told[2].partition("did not prove")[2].partition(";")[0]))) else IS_LOST


def said_in_batch(lines, turned):
    """What a check says of an edit that turns these functions there."""
    folders = {it.folder() for it in turned} | {it.closures_folder() for it in turned}
    return list(own_messages(lines, folders, lambda path: any(it.is_told_by(path) for it in turned)))


def said_alone(lines):
    """What a check says of an edit that it tries alone: all that it says is of this one."""
    return list(own_messages(lines, None, lambda path: True))


def most_open(count):
    """How many of so many edits may be open."""
    return count // OPEN_IS_ONE_OF


def kind_by(said):
    """The kind of a refusal of which a check says this."""
    return kind_of(set(seen_in(said)))
