"""Images that are dear to check, and that nobody would write: of each kind in KINDS one whose sizes are drawn, and what it is, told in words. Those of code
alone are bytes, spelled here; the others are texts, which are to be assembled."""

import struct
from typing import NamedTuple

MOST_BYTES = 1 << 20
MOST_METHODS = 1024
MOST_PLACES = 1024

# ---- images of code alone, spelled byte by byte, since a text of so many instructions would be too long

CONST, MOVE, JUMP_EQUAL, LOOP, NEXT, NEW, NEW_OR_LEAVE, DELETE, PUSH, PUSH_OPERATION, CALL, RETURN, LEAVE, STOP = (
    0x01, 0x03, 0x0B, 0x11, 0x12, 0x18, 0x19, 0x1A, 0x1B, 0x1C, 0x20, 0x22, 0x23, 0x30
)
DO, MAIN, UNDO = 0, 1, 9
LEAVES, QUIET = 1, 2
NONE, WORD = 0xFFFF, b"\xff\xff"


def step(opcode, a=0, b=0, c=0, large=0):
    """The bytes of an instruction."""
    return struct.pack(">BBBBI", opcode, a, b, c, large)


def method(code, role=DO, flags=0, arguments=0):
    """The bytes of a method of no class, which takes words and gives nothing."""
    head = struct.pack(">HBBBBBB", NONE, role, flags, 0, 0, arguments, 0)
    return head + (WORD * arguments).ljust(12, b"\0") + struct.pack(">HH", NONE, len(code)) + b"".join(code)


def spelled(methods):
    """An image of one plain class, an operation, these methods as far as there is room, and main."""
    last = method([step(STOP), step(RETURN)], MAIN)
    kept, size = [method([step(RETURN)], UNDO, QUIET, 1)], 24 + 28 + 32 + len(last)
    for it in methods:
        if len(kept) + 1 == MOST_METHODS or size + len(it) > MOST_BYTES:
            break
        kept.append(it)
        size += len(it)
    head = b"AOIM" + struct.pack(">HHHHHBBHHI", 1, 1, len(kept) + 1, 8, 0, 0, 0, NONE, 0, 4000000000)
    return head + struct.pack(">BBBBBBH", 0, 0, 0, 0, 0, 0, NONE) + bytes(20) + b"".join(kept) + last


def rings_of(high, ring, most=MOST_METHODS):
    """Loops one after another, in each of which what registers own goes round, under a high cleanup stack, in so many methods."""
    code = [step(CONST)] + [step(PUSH_OPERATION)] * high + [step(NEW), step(DELETE)] + [step(MOVE, it) for it in range(1, ring)] + [step(NEW)]
    while len(code) + 3 * ring + 6 <= MOST_PLACES:
        code.append(step(LOOP, 0, large=2))
        back = len(code)
        code += [step(DELETE, ring - 1)] + [step(MOVE, it, it - 1) for it in range(ring - 1, 0, -1)] + [step(NEXT, 0, large=back)]
        code += [step(MOVE, 0, ring - 1)] + [step(DELETE, it) for it in range(1, ring)]
    code += [step(DELETE, it) for it in range(ring)] + [step(CONST), step(LEAVE)]
    return spelled([method(code, flags=LEAVES)] * most)


def rings(draw):
    """Such loops, in as many methods as there is room for."""
    high, ring = draw.randint(0, 900), draw.randint(2, 16)
    return rings_of(high, ring), f"{ring} registers go round under {high} entries"


def nests(draw):
    """Loops in loops, with moves in each, under a cleanup stack."""
    high, deep, ring = draw.randint(0, 800), draw.randint(2, 4), draw.randint(2, 16)
    code = [step(CONST)] + [step(PUSH_OPERATION)] * high + [step(NEW), step(DELETE)] + [step(MOVE, it) for it in range(1, ring)] + [step(NEW)]
    turn = [step(DELETE, ring - 1)] + [step(MOVE, it, it - 1) for it in range(ring - 1, 0, -1)]
    while len(code) + deep * (len(turn) + 2) + ring + 2 <= MOST_PLACES:
        backs = []
        for depth in range(deep):
            code.append(step(LOOP, depth, large=2))
            backs.append(len(code))
            code += turn
        for depth in reversed(range(deep)):
            code.append(step(NEXT, depth, large=backs[depth]))
    code += [step(DELETE, it) for it in range(ring)] + [step(CONST), step(LEAVE)]
    return spelled([method(code, flags=LEAVES)] * MOST_METHODS), f"loops {deep} deep, {ring} registers, {high} entries"


def stacks(draw):
    """High cleanup stacks of operations and of objects."""
    high, objects = draw.randint(1, 330), draw.randint(0, 9)
    code = [step(CONST)]
    code += [it for entry in range(high) for it in ([step(NEW_OR_LEAVE, 1), step(PUSH, 1)] if entry % 10 < objects else [step(PUSH_OPERATION)])]
    code += [step(CONST, 0), step(LEAVE)]
    return spelled([method(code, flags=LEAVES)] * MOST_METHODS), f"{high} entries, {objects} of ten of them objects"


def joins(draw):
    """Branches that meet again, each with its own registers, under a cleanup stack."""
    high, apart = draw.randint(0, 700), draw.randint(1, 4)
    code = [step(CONST), step(CONST, 1)] + [step(PUSH_OPERATION)] * high
    while len(code) + 2 * apart + 3 <= MOST_PLACES:
        code.append(step(JUMP_EQUAL, 0, 1, large=len(code) + apart + 1))
        code += [step(CONST, 2 + draw.randrange(14)) for _ in range(2 * apart)]
    code += [step(CONST), step(LEAVE)]
    return spelled([method(code, flags=LEAVES)] * MOST_METHODS), f"branches {apart} long under {high} entries"


def calls(draw):
    """Methods that each call some of those before them again and again."""
    often, back = draw.randint(1, 120), draw.randint(1, 250)
    methods = []
    for number in range(1, MOST_METHODS):
        least = max(1, number - number % 250)
        code = [step(CALL, 0, 0, 0, draw.randint(max(least, number - back), number - 1)) for _ in range(often)] if number > least else []
        methods.append(method(code + [step(RETURN)]))
    return spelled(methods), f"{often} calls in a method, of those up to {back} before"


# ---- images of classes, as texts


class Texts(NamedTuple):
    """A text that is to be assembled."""

    lines: list


def parents(draw, count):
    """For each class its parent, in a chain, a tree or under one class."""
    form = draw.choice(("chain", "tree", "wide", "chains"))
    if form == "chain":
        return form, [None] + list(range(count - 1))
    if form == "tree":
        return form, [None] + [(it - 1) // 2 for it in range(1, count)]
    if form == "wide":
        return form, [None] + [0] * (count - 1)
    long = draw.randint(2, 64)
    return f"chains of {long}", [it - 1 if it % long else None for it in range(count)]


def families_of(above, each, often):
    """Classes with these parents, each with so many methods, which override the parent's, and so many instructions in each."""
    lines = ["image version 2 cells 4 budget 4000000000"]
    lines += [f"class k{it} plain" + ("" if up is None else f" from k{up}") for it, up in enumerate(above)]
    for it, up in enumerate(above):
        for place in range(each):
            lines.append(f"method a{it}_{place} do of k{it}" + ("" if up is None else f" over a{up}_{place}"))
            lines += [f"const r{at % 16} 1" for at in range(often)] + ["ret", "end"]
    return Texts(lines + ["method main main", "stop", "ret", "end"])


def families(draw):
    """Classes with parents, each with overriders of all that the parent has."""
    count, often = draw.randint(100, 255), draw.randint(0, 40)
    form, above = parents(draw, count)
    each = (MOST_METHODS - 1) // count
    return families_of(above, each, often), f"{count} classes, {form}, {each} methods each, {often} more instructions"


def roles(draw):
    """Active classes, of which some have what they need from far above; methods of none fill the table."""
    count, each = draw.randint(100, 256), draw.choice((1, 4, 32, 256))
    form, above = parents(draw, count)
    own = [it for it, up in enumerate(above) if up is None or it % each == 0][: (MOST_METHODS - 1) // 3]
    lines = ["image version 2 cells 4 budget 4000000000"]
    lines += [f"class k{it} active self" + ("" if up is None else f" from k{up}") + " budget 60" for it, up in enumerate(above)]
    for it in own:
        lines += [f"method c{it} cancel of k{it}", "abort", "ret", "end"]
    for it in own:
        lines += [f"method d{it} destruct of k{it}", "cancel", "ret", "end", f"method r{it} run of k{it}", "const r0 0", "issue r0 r0", "setactive", "ret", "end"]
    for it in range(MOST_METHODS - 1 - 3 * len(own)):
        lines += [f"method m{it} do", "ret", "end"]
    return Texts(lines + ["method main main", "stop", "ret", "end"]), f"{count} active classes, {form}, every {each}th with its own methods"


def owners(draw):
    """Classes that own eight of those before them, with destructors."""
    count, fields = draw.randint(50, 255), draw.randint(1, 8)
    lines = ["image cells 4096 budget 4000000000", "class k0 plain"]
    lines += [f"class k{it} plain own " + ",".join(f"k{draw.randint(max(0, it - 4), it - 1)}" for _ in range(fields)) for it in range(1, count)]
    for it in range(1, count):
        lines.append(f"method d{it} destruct of k{it}")
        for field in range(fields):
            lines += [f"take r0 f{field}", "delete r0"]
        lines += ["ret", "end"]
    return Texts(lines + ["method main main", "stop", "ret", "end"]), f"{count} classes that own {fields} each"


KINDS = (rings, nests, stacks, joins, calls, families, roles, owners)
