"""Random sources of all kinds of classes, and scripts for them, for tools/sources.

A source is a frame of classes whose methods have gaps, each a line of its own. A gap is filled with random statements that are likely to be
taken: what has been moved is not named again, and a gap calls only what stands below it. A gap that the translator refuses is filled again."""

import random

# the frame: a line with a gap has the gap's name between @ and @
FRAME = """cells @@cells@@; messages 5; natives 1; root Top;
const BUSY = -16; const STEP = 2 * 3 - 1; enum Mode { Idle, Open = 4, Shut }
class A { word v; construct(x: word) { v = x; } destruct { print v; } fn get() -> word { return v; } fn set(x: word) { v = x; } }
class B { own x: A; own y: A; word n; destruct { print n; }
construct() { n = 9; @Bc@ }
fn area(q: word) -> word { @Ba@ return q - n; }
fn put(a: A) { @Bp@ x = a; }
fn swap() { @Bs@ let o = take x; x = take y; y = o; }
}
class C : B { own z: A;
construct() { super(); @Cc@ }
override fn area(q: word) -> word { @Ca@ return q + n; }
}
class Box { own inner: A; own spare: B; word w;
construct(g: A, size: word) { w = size; @Xc@ inner = g; }
fn open() -> A? { @Xo@ return take inner; }
}
undo back(x) { @ub@ print x; }
undo twice(x) { print x + x; }
fn mk(q: word) -> B? { @mk@ if q < 2 { return maybe new C(); } return maybe new B(); }
fn mk2(q: word) -> A { @mk2@ return new A(q); }
fn eat(b: B, w: word) { @eat@ }
fn two(a: A, b: A) noleave { @two@ }
fn pick(a: A, b: B) -> A { @pick@ return a; }
fn many(p: word, q: word) -> word { @many@ return p * q - p; }
fn sink(m: msg) { @sink@ reply m, 1; }
timer class T { own kept: msg else -15; own a: A; word k;
construct() { enlist @@low@@; @Tc@ }
run { if let m = take kept { reply m, status; } k += 1; @Tr@ print k; if k < 3 && !active { after 2; } }
fn hold(m: msg) { if kept { reply m, BUSY; } else { kept = m; } }
fn go(w: word) noleave { if enlisted && !active { after w; } @Tg@ }
fn count(q: word) -> word { @Tn@ if active { return k + q; } return k; }
cancel { @Tx@ print k; }
destruct { @Td@ print k; }
}
class U : T { own c: A; word j;
construct() { super(); j = 3; @Uc@ }
override fn count(q: word) -> word { @Un@ return q - j; }
cancel { @Ux@ print j; }
destruct { @Ud@ print j + 100; }
}
token class K { own t: T; own mine: msg else -3; word g;
construct() { t = maybe new @@made@@(); enlist @@high@@; @Kc@ }
run { print status; if t { print t.count(1); } @Kr@ }
fn start() { if enlisted && !active && !mine { mine = hand; } @Ks@ }
fn fire(w: word) { if let m = take mine { reply m, w; } @Kf@ }
}
native 0 class N { word h;
construct() { enlist 4; print connect; @Nc@ }
run { print status; h += 1; @Nr@ if h < 3 && !active { request h, h; } }
error(code) { print code; @Ne@ return 0; }
fn go(f: word, w: word) { if enlisted && !active { request f, w; } @Ng@ }
fn total(w: word) -> word { @Nt@ return ask(0, w); }
}
session class S { own t: T; own b: B; word s;
construct() { t = maybe new @@kept@@(); @Sc@ }
service(f, g) { s += 1; @Ss@ leaveif f; if f == 3 { stop; } if f == 1 && t { t.hold(message); t.go(g); return; } let m = message; @Sm@ reply m, g + s; }
destruct { @Sd@ print s; }
}
server class D of S max 2 { own b: B; word d;
construct() { enlist 0; @Dc@ }
accept { d += 1; @Da@ return new S(); }
}
active class Top { own k: K; own b: B; own d: D; own v: N; word n;
construct() { enlist 3; d = maybe new D(); k = maybe new K(); v = maybe new N(); @Oc@ if !active { resume 0; } }
run { n += 1; print n; if k { k.start(); } if v { v.go(0, n); print v.total(n); } @Or@ if k { k.fire(n); } if n < 4 { if !active { resume n; } } @Os@ }
error(code) { print code; @Oe@ return 0; }
cancel { @Ox@ print status; }
fn more(q: word) -> word { @Om@ return q + n; }
}
main { @M0@ loop 1 { @M1@ } @M2@ root = new Top(); }
"""
# what a class has: its kind, words and owning fields
CLASSES = {
    "A": ("class", ["v"], {}),
    "B": ("class", ["n"], {"x": "A", "y": "A"}),
    "C": ("class", ["n"], {"x": "A", "y": "A", "z": "A"}),
    "Box": ("class", ["w"], {"inner": "A", "spare": "B"}),
    "T": ("timer", ["k"], {"a": "A"}),
    "U": ("timer", ["k", "j"], {"a": "A", "c": "A"}),
    "K": ("token", ["g"], {"t": "T"}),
    "N": ("native", ["h"], {}),
    "S": ("session", ["s"], {"t": "T", "b": "B"}),
    "D": ("server", ["d"], {"b": "B"}),
    "Top": ("active", ["n"], {"k": "K", "b": "B", "v": "N"}),
}
# the gaps: of which class, what they give, their parameters, what they may make and call
LOW, MIDDLE, HIGH = 1, 2, 3
GAPS = {
    "Bc": ("B", None, {}, LOW),
    "Ba": ("B", "word", {"q": "word"}, LOW),
    "Bp": ("B", None, {"a": "A"}, LOW),
    "Bs": ("B", None, {}, LOW),
    "Cc": ("C", None, {}, LOW),
    "Ca": ("C", "word", {"q": "word"}, LOW),
    "Xc": ("Box", None, {"g": "A", "size": "word"}, LOW),
    "Xo": ("Box", None, {}, LOW),
    "ub": (None, "", {"x": "word"}, LOW),
    "mk": (None, "B", {"q": "word"}, MIDDLE),
    "mk2": (None, "A", {"q": "word"}, MIDDLE),
    "eat": (None, None, {"b": "B", "w": "word"}, MIDDLE),
    "two": (None, "", {"a": "A", "b": "A"}, MIDDLE),
    "pick": (None, "A", {"a": "A", "b": "B"}, MIDDLE),
    "many": (None, "word", {"p": "word", "q": "word"}, MIDDLE),
    "sink": (None, None, {}, MIDDLE),
    "Tc": ("T", None, {}, HIGH),
    "Tr": ("T", None, {}, HIGH),
    "Tg": ("T", "", {"w": "word"}, LOW),
    "Tn": ("T", "word", {"q": "word"}, HIGH),
    "Tx": ("T", "", {}, LOW),
    "Td": ("T", "", {}, LOW),
    "Uc": ("U", None, {}, HIGH),
    "Un": ("U", "word", {"q": "word"}, HIGH),
    "Ux": ("U", "", {}, LOW),
    "Ud": ("U", "", {}, LOW),
    "Kc": ("K", None, {}, HIGH),
    "Kr": ("K", None, {}, HIGH),
    "Ks": ("K", None, {}, HIGH),
    "Kf": ("K", None, {"w": "word"}, HIGH),
    "Nc": ("N", None, {}, HIGH),
    "Nr": ("N", None, {}, HIGH),
    "Ne": ("N", "", {"code": "word"}, LOW),
    "Ng": ("N", None, {"f": "word", "w": "word"}, HIGH),
    "Nt": ("N", "word", {"w": "word"}, HIGH),
    "Sc": ("S", None, {}, HIGH),
    "Ss": ("S", None, {"f": "word", "g": "word"}, HIGH),
    "Sm": ("S", None, {"f": "word", "g": "word", "m": "msg"}, HIGH),
    "Sd": ("S", "", {}, LOW),
    "Dc": ("D", None, {}, HIGH),
    "Da": ("D", None, {}, HIGH),
    "Oc": ("Top", None, {}, HIGH),
    "Or": ("Top", None, {}, HIGH),
    "Os": ("Top", None, {}, HIGH),
    "Oe": ("Top", "", {"code": "word"}, LOW),
    "Ox": ("Top", "", {}, LOW),
    "Om": ("Top", "word", {"q": "word"}, HIGH),
    "M0": (None, None, {}, HIGH),
    "M1": (None, None, {}, HIGH),
    "M2": (None, None, {}, HIGH),
}
# a method of its own that a class's gaps call, and the gaps that do not
OWN_METHODS = {"B": ("area", ("Ba",)), "C": ("area", ("Ca",)), "T": ("count", ("Tn", "Tx", "Tg")), "U": ("count", ("Un", "Ux")), "Top": ("more", ("Om", "Oe", "Ox")), "N": ("total", ("Nt", "Ne"))}
MARKS = ("+", "-", "*", "&", "|", "^")
COMPARISONS = ("==", "!=", "<", "<=", ">", ">=")
# gaps in which nothing may be made or leave
QUIET = ("ub", "two", "Tg", "Tx", "Td", "Ux", "Ud", "Ne", "Sd", "Oe", "Ox")
SERVICE = ("Ss", "Sm")
MOST_DEEP, MOST_LOOPS = 3, 2


class Gap:
    """What may be named at a place of a gap: locals with their kinds, and how deep it lies."""

    def __init__(self, name):
        self.name = name
        self.cls, self.gives, params, self.level = GAPS[name]
        self.locals, self.fixed, self.depth, self.loops, self.moved = dict(params), set(), 0, 0, set()
        self.is_quiet = name in QUIET
        _, self.words, self.fields = CLASSES.get(self.cls, (None, [], {}))
        self.kind = CLASSES[self.cls][0] if self.cls else None

    def inner(self, is_loop=False, **more):
        """A block within: what it moves is gone behind it, and in a loop nothing from outside is moved."""
        it = Gap(self.name)
        it.locals, it.fixed, it.depth, it.loops = {**self.locals, **more}, set(self.fixed), self.depth + 1, self.loops + is_loop
        it.moved = self.moved
        if is_loop:
            it.fixed |= set(self.locals)
        return it

    def of(self, *kinds):
        return [name for name, kind in self.locals.items() if kind in kinds and name not in self.moved]

    def movable(self, *kinds):
        return [name for name in self.of(*kinds) if name not in self.fixed]


class Maker:
    """Makes statements, by a random source of its own."""

    def __init__(self, chance):
        self.chance, self.count = chance, 0

    def fresh(self, letter):
        self.count += 1
        return f"{letter}{self.count}"

    def is_so(self, share):
        return self.chance.random() < share

    def pick(self, *things):
        return self.chance.choice(things)

    # words and conditions

    def word(self, gap, depth=0):
        names = gap.of("word") + gap.words
        share = self.chance.random()
        if share < 0.3 or depth > 2:
            return self.pick("0", "1", "2", "5", "-1", "7", "100", "STEP", "Mode.Open", "Mode.Shut", "BUSY")
        if share < 0.6 and names:
            return self.chance.choice(names)
        if share < 0.8:
            left, right = self.word(gap, depth + 1), self.word(gap, depth + 1)
            made = f"{left} {self.chance.choice(MARKS)} {right}"
            return made if self.is_so(0.5) else f"({made})"
        return self.called_word(gap, depth)

    def called_word(self, gap, depth):
        own = OWN_METHODS.get(gap.cls)
        if own and gap.name not in own[1] and (not gap.is_quiet or gap.name in ("Td", "Ud")) and self.is_so(0.8 if gap.is_quiet else 0.25):
            return f"{self.pick('', 'self.')}{own[0]}({self.word(gap, depth + 1)})"
        objects = gap.of("A", "B", "C", "N") if gap.level > LOW else gap.of("A")
        if objects and not gap.is_quiet and self.is_so(0.7):
            name = self.chance.choice(objects)
            of = gap.locals[name]
            return {"A": f"{name}.get()", "N": f"{name}.total({self.word(gap, depth + 1)})"}.get(of, f"{name}.area({self.word(gap, depth + 1)})")
        if gap.level == HIGH and self.is_so(0.5):
            return f"many({self.word(gap, depth + 1)}, {self.word(gap, depth + 1)})"
        return "status" if gap.kind in ("timer", "token", "active", "native") else "3"

    def condition(self, gap, depth=0):
        share = self.chance.random()
        tested = gap.of(*(f"{of}?" for of in CLASSES)) + list(gap.fields)
        if share < 0.2 and depth < 2:
            made = f"{self.condition(gap, depth + 1)} {self.pick('&&', '||')} {self.condition(gap, depth + 1)}"
            return made if self.is_so(0.4) else f"({made})"
        if share < 0.3 and depth < 2:
            return f"!({self.condition(gap, depth + 2)})"
        if share < 0.55 and tested:
            return self.chance.choice(tested)
        if share < 0.7 and gap.kind in ("timer", "token", "active", "native"):
            return self.pick("active", "enlisted")
        return f"{self.word(gap, 1)} {self.chance.choice(COMPARISONS)} {self.word(gap, 1)}"

    # owners

    def owner(self, gap, wanted=None):
        """An expression that owns, and its kind; or None, where there is none to be had."""
        share = self.chance.random()
        if share < 0.45 and not gap.is_quiet:
            return self.made(gap, wanted)
        if share < 0.6 and gap.level > LOW and not gap.is_quiet and gap.name not in ("mk", "mk2", "pick"):
            return self.called(gap, wanted)
        if share < 0.75 and (fields := [name for name, of in gap.fields.items() if wanted in (None, of)]):
            name = self.chance.choice(fields)
            return f"take {name}", gap.fields[name] + "?"
        kinds = (wanted, f"{wanted}?") if wanted else [mark for of in CLASSES for mark in (of, f"{of}?")]
        if names := gap.movable(*kinds):
            name = self.chance.choice(names)
            gap.moved.add(name)
            return name, gap.locals[name]
        return None if gap.is_quiet else self.made(gap, wanted)

    def made(self, gap, wanted):
        classes = {LOW: "A", MIDDLE: "AABC", HIGH: "AABBCX"}[gap.level]
        of = wanted or self.chance.choice(classes)
        of = {"X": "Box", "B": self.pick("B", "C") if gap.level > LOW and wanted is None else "B"}.get(of, of)
        if of not in ("A", "B", "C", "Box") or gap.level == LOW and of != "A" or gap.level < HIGH and of == "Box":
            return None
        if of == "Box":
            given = self.owner(gap, "A")
            return (f"new Box({given[0]}, {self.word(gap)})", "Box") if given and not given[1].endswith("?") else None
        is_maybe = self.is_so(0.35)
        values = self.word(gap) if of == "A" else ""
        return f"{'maybe ' if is_maybe else ''}new {of}({values})", of + ("?" if is_maybe else "")

    def called(self, gap, wanted):
        if wanted in (None, "B") and self.is_so(0.5):
            return f"mk({self.word(gap)})", "B?"
        if wanted not in (None, "A"):
            return None
        if self.is_so(0.6):
            return f"mk2({self.word(gap)})", "A"
        first, second = self.owner(gap, "A"), self.owner(gap, "B")
        if not first or not second or first[1] != "A" or second[1] not in ("B", "C"):
            return None
        return f"pick({first[0]}, {second[0]})", "A"

    def sure(self, gap, wanted):
        """An expression that owns surely, or None."""
        for _ in range(4):
            found = self.owner(gap, wanted)
            if found and found[1] == wanted:
                return found[0]
        return None

    # statements

    def block(self, gap):
        return "{ " + self.statements(gap, self.chance.randint(1, 3)) + " }"

    def statements(self, gap, most):
        made = []
        for _ in range(most):
            one = self.statement(gap)
            if one:
                made.append(one)
            if one and one.split()[0] in ("return", "return;", "leave", "break;", "continue;"):
                break
        return " ".join(made)

    def statement(self, gap):
        kind = self.chance.choice(STATEMENTS)
        return getattr(self, "a_" + kind)(gap)

    def a_word(self, gap):
        name, value = self.fresh("w"), self.word(gap)
        gap.locals[name] = "word"
        return f"let {name} = {value};"

    def a_print(self, gap):
        return f"print {self.word(gap)};"

    def a_set(self, gap):
        names = gap.of("word") + gap.words
        return f"{self.chance.choice(names)} {self.pick('=', '+=', '-=', '*=', '^=', '|=', '&=')} {self.word(gap)};" if names else None

    def a_let(self, gap):
        found = self.owner(gap)
        if not found:
            return None
        name, (value, of) = self.fresh("o"), found
        base, mark = of.rstrip("?"), of[len(of.rstrip("?")) :]
        declared = ""
        if base == "C" and self.is_so(0.5):
            base, declared = "B", f": B{mark}"
        elif not mark and self.is_so(0.2):
            mark, declared = "?", f": {base}?"
        gap.locals[name] = base + mark
        return f"let {name}{declared} = {value};"

    def a_if(self, gap):
        if gap.depth >= MOST_DEEP:
            return None
        test = self.condition(gap)
        kinds = {name: gap.locals[name][:-1] for name in gap.locals if test == name and gap.locals[name].endswith("?")}
        then = self.block(gap.inner(**kinds))
        return f"if {test} {then}" + (f" else {self.block(gap.inner())}" if self.is_so(0.4) else "")

    def a_if_let(self, gap):
        found = self.owner(gap) if gap.depth < MOST_DEEP else None
        if not found or not found[1].endswith("?"):
            return None
        name = self.fresh("i")
        then = self.block(gap.inner(**{name: found[1][:-1]}))
        return f"if let {name} = {found[0]} {then}" + (f" else {self.block(gap.inner())}" if self.is_so(0.3) else "")

    def a_field(self, gap):
        if not gap.fields:
            return None
        name, of = self.chance.choice(list(gap.fields.items()))
        found = self.owner(gap, of)
        return f"{name} = {found[0]};" if found else None

    def a_use(self, gap):
        names = gap.of("A", "B", "C", "Box")
        if not names or gap.is_quiet:
            return None
        name = self.chance.choice(names)
        of = gap.locals[name]
        if of == "A":
            return self.pick(f"{name}.set({self.word(gap)});", f"print {name}.get();")
        if of == "Box":
            return f"if let {self.fresh('i')} = {name}.open() {{ print 8; }}" if gap.level == HIGH else None
        return self.use_b(gap, name) if gap.level > LOW else None

    def use_b(self, gap, name):
        given = self.sure(gap, "A")
        ways = [f"print {name}.area({self.word(gap)});", f"{name}.swap();"] + ([f"{name}.put({given});"] if given else [])
        if given is None and name in gap.movable("B", "C") and gap.level == HIGH:
            gap.moved.add(name)
            return f"eat({name}, {self.word(gap)});"
        return self.chance.choice(ways[-1:] if given else ways)

    def a_field_use(self, gap):
        if not gap.fields or gap.is_quiet:
            return None
        name, of = self.chance.choice(list(gap.fields.items()))
        calls = {"A": f"set({self.word(gap)})", "T": f"go({self.word(gap)})", "N": f"go(1, {self.word(gap)})", "K": "start()", "B": "swap()"}
        if of == "B" and gap.level == LOW:
            return None
        return f"{name}?.{calls[of]};"

    def a_trap(self, gap):
        if gap.is_quiet or gap.level == LOW:
            return None
        value, of = self.pick(("new B()", "B"), ("new C()", "C"), ("mk2(3)", "A"), ("mk(1)", "B?"), ("new A(4)", "A"), ("many(2, 3)", "word"))
        if value.split("(")[0] == gap.name or "(" in value and value.split("(")[0] in ("mk", "mk2", "many") and gap.level < HIGH:
            return None
        name, code = self.fresh("t"), self.fresh("c")
        if self.is_so(0.5):
            gap.locals.update({name: of if of == "word" else of.rstrip("?") + "?", code: "word"})
            return f"let {name}, {code} = trap {value};"
        made = f"let {name} = trap {value} catch {code} {self.block(gap.inner(**{code: 'word'}))}"
        gap.locals[name] = of
        return made

    def a_trap_alone(self, gap):
        if gap.level < HIGH or gap.is_quiet:
            return None
        first, second = self.sure(gap, "A"), self.sure(gap, "A")
        if not first or not second:
            return None
        call, code = f"two({first}, {second})", self.fresh("c")
        return self.pick(f"{call};", f"trap {call} catch {code} {{ print {code}; }}")

    def a_loop(self, gap):
        if gap.depth >= MOST_DEEP or gap.loops >= MOST_LOOPS:
            return None
        name = self.fresh("n")
        kinds = self.pick(
            (f"loop {self.chance.randint(1, 3)}", {}), (f"while {self.condition(gap)} max 3", {}), (f"for {name} in {self.pick('0..3', '-1..2')}", {name: "word"})
        )
        return f"{kinds[0]} {self.block(gap.inner(is_loop=True, **kinds[1]))}"

    def a_out(self, gap):
        if not gap.loops or gap.depth < 2:
            return None
        word = self.pick("break;", "continue;")
        return self.pick(word, f"if {self.condition(gap)} {{ {word} }}")

    def a_end(self, gap):
        if gap.depth == 0 or gap.is_quiet and gap.gives == "":
            return None
        if self.is_so(0.5):
            return f"{self.pick('leave', 'leaveif')} {self.word(gap)};"
        if gap.gives is None:
            return None if gap.name in (*SERVICE, "Da", "Oe", "Ne", "Xo", "sink") else "return;"
        value = self.word(gap) if gap.gives == "word" else self.sure(gap, gap.gives)
        return f"return {value};" if value else None

    def a_assert(self, gap):
        return None if gap.is_quiet else f"assert {self.condition(gap)};"

    def a_delete(self, gap):
        names = gap.movable(*CLASSES, *(f"{of}?" for of in CLASSES))
        if not names:
            return None
        name = self.chance.choice(names)
        gap.moved.add(name)
        return f"delete {name};"

    def a_defer(self, gap):
        return None if gap.is_quiet else f"defer {self.pick('back', 'twice')}({self.word(gap)});"

    def a_again(self, gap):
        """A local gets another value."""
        names = [name for name in gap.of("A", "B", "A?", "B?") if name not in gap.fixed or self.is_so(0.5)]
        if not names:
            return None
        name = self.chance.choice(names)
        found = self.owner(gap, gap.locals[name].rstrip("?"))
        gap.moved.discard(name)
        return f"{name} = {found[0]};" if found and found[0] != name else None

    def a_request(self, gap):
        ways = {
            "timer": ["cancel;", "if !active { after 3; }", "if enlisted && !active { after 4; }", "cancel; if enlisted { after 1; }"],
            "active": ["cancel;", "if !active { resume 1; }", "if enlisted && !active { resume 2; }"],
            "native": ["cancel;", "if enlisted && !active { request 1, 2; }", "cancel; close;", "print connect;"],
            "token": ["cancel;", "if enlisted && !active { if let h = hand { reply h, 4; } }"],
        }
        return self.chance.choice(ways[gap.kind]) if gap.kind in ways and not gap.is_quiet else None

    def a_stop(self, gap):
        return "stop;" if self.is_so(0.1) and not gap.is_quiet else None


STATEMENTS = [name for name, weight in {
    "word": 6, "print": 4, "set": 5, "let": 12, "if": 9, "if_let": 6, "field": 7, "use": 9, "field_use": 4, "trap": 5, "trap_alone": 3, "loop": 6,
    "out": 4, "end": 4, "assert": 2, "delete": 2, "defer": 3, "again": 4, "request": 4, "stop": 1,
}.items() for _ in range(weight)]  # fmt: skip


class Source:
    """A random source: its frame, and what fills its gaps."""

    def __init__(self, seed):
        self.maker = Maker(random.Random(seed))
        chance = self.maker.chance
        self.frame = FRAME
        choices = {"cells": "6 9 14 40", "low": "0 1 5", "high": "2 4", "made": "T U", "kept": "T U"}
        for name, values in choices.items():
            value = chance.choice(values.split())
            self.frame = self.frame.replace(f"@@{name}@@", value)
        self.filled = dict.fromkeys(GAPS, "")
        for name in chance.sample(sorted(GAPS), chance.randint(8, 18)):
            self.fill(name)
        self.fill("M1")

    def fill(self, name):
        gap = Gap(name)
        self.filled[name] = self.maker.statements(gap, self.maker.chance.randint(1, 6))

    def text(self):
        made = self.frame
        for name, filling in self.filled.items():
            made = made.replace(f"@{name}@", filling)
        return made

    def gaps_of_line(self, number):
        line = self.frame.splitlines()[number - 1]
        return [name for name in GAPS if f"@{name}@" in line and self.filled[name]]


def script_of(seed):
    """The timed lines of a random script, with the server's class by its name."""
    chance = random.Random(f"script {seed}")
    lines, time, connected = [], 0, set()
    for _ in range(chance.randint(0, 14)):
        time += chance.choice((0, 0, 1, 2, 7))
        client = chance.randint(0, 3)
        if client not in connected and chance.random() < 0.8:
            connected.add(client)
            lines.append(f"{time} connect {client} D {chance.randint(0, 3)}")
            continue
        send = f"{time} send {client} {chance.choice((0, 1, 1, 2, 3, -5))} {chance.choice((0, 1, 4, 9))} 0 0 0"
        others = (f"{time} close {client}", f"{time} die {client}", f"{time} event 0 {chance.choice((3, -2, 40))}", f"{time} kill 0")
        lines.append(send if chance.random() < 0.6 else chance.choice(others))
    return lines, chance.choice(("counter", "line", "line", "delay"))
