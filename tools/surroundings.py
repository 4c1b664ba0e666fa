"""What an example is run beside: its scripts, and the kinds of its natives."""

import glob
import os
import re

# the kinds of natives beside a run without a script; with one they are lines
KINDS = ("line", "counter", "delay")


def read(file):
    with open(file, "rb") as it:
        return it.read()


def natives_of(text):
    """How many natives the image of a text names."""
    named = re.search(rb"natives (\d+)", read(text))
    return int(named[1]) if named else 0


def surroundings(text, source=None):
    """The scripts beside an example, each with the kind of its natives: those of its name; or, in the first hour, those of its part. There is always the empty one.
    A source that stands for the text can be named."""
    folder, name = os.path.split(text)
    part = re.match(r"\d+-", name)
    scripts = sorted(glob.glob(f"{folder}/{part[0]}*.script" if part else text.removesuffix("aom") + "*script"))
    return [*((None, kind) for kind in KINDS[: 3 if natives_of(source or text) else 1]), *((script, KINDS[0]) for script in scripts)]
