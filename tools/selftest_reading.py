"""The test of the reading of sources: what it says of some, by hand; and that a trial tells a transcript that differs."""

from reading import Source
from source_trials import in_any_order

# a source, the timed lines of its script, the places that are refused, and the lines of its run
READ = [
    (
        "// operators, words and what goes at a block's end\n"
        "cells 3; const TWO = 1 + 1; enum Mode { Off, On = 5 } class A { word v; construct(x: word) { v = x; } destruct { print v; } }\n"
        "fn keep(a: A, w: word) { print w; }\n"
        "main { let a = new A(1); let b = new A(7 - 2 * TWO - 1); if Mode.On > 4 { keep(a, 6 & 3 | 8); } print 0; }",
        [],
        [],
        ["@0 main", "out 10", "out 1", "gone A", "out 0", "out 2", "gone A", "end waiting cells 0"],
    ),
    (
        "cells 3; class A { word v; construct(x: word) { v = x; } destruct { print v; } } undo back(x) { print x; }\n"
        "fn f() { let a = new A(1); defer back(9); let b = new A(2); leave -7; }\n"
        "main { trap f() catch code { print code; } stop; }",
        [],
        [],
        ["@0 main", "out 2", "gone A", "out 9", "out 1", "gone A", "leave -7", "out -7", "end stopped cells 0"],
    ),
    (
        "cells 3; class A; main { let a = new A; let b = maybe new A; if b { print 1; } else { print 2; } }",
        [],
        [3],
        ["@0 main", "out 2", "gone A", "end waiting cells 0"],
    ),
    (
        "cells 3; messages 2; root V; session class S { own kept: msg else -15; service(f) { if kept { reply message, f; } else { kept = message; } } }\n"
        "server class V of S max 1 { construct() { enlist 0; } } main { root = new V(); }",
        [(1, ["connect", "0", "V", "2"]), (2, ["send", "0", "4", "0", "0", "0", "0"]), (3, ["send", "0", "5", "0", "0", "0", "0"]), (4, ["die", "0"])],
        [],
        ["@0 main", "@1 serve V connect 0", "reply 0 0", "@2 serve V message 0", "@3 serve V message 0", "reply 0 5", "@4 serve V close 0", "discard 0 -15"]
        + ["gone S", "end waiting cells 1"],
    ),
]


def reading_is_well(tell):
    """Whether the reading says of each source what is known of it, and whether lines in another order are told apart but before a leave."""
    found = [Source(text).run(refused, events=events).lines == lines for text, events, refused, lines in READ]
    tell(f"readings of sources: {sum(found)} of {len(found)} as they must be")
    parted = in_any_order(["out 1", "gone A"]) != in_any_order(["gone A", "out 1"])
    alike = in_any_order(["out 1", "gone A", "leave 0"]) == in_any_order(["gone A", "out 1", "leave 0"])
    return all(found) and parted and alike
