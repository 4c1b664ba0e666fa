"""Where the functions of a Rattle source file stand, and what a check calls them."""

import re
from dataclasses import dataclass

# what is no code: comments, texts, characters (a lifetime has no second quote)
NO_CODE = re.compile(
    r'//[^\n]*|/\*.*?\*/|b?"(?:\\.|[^"\\])*"|b?\'(?:\\.|[^\'\\])\'|b?\'\\u\{[0-9a-fA-F]+\}\'', re.S
)
WORD = re.compile(r"[A-Za-z_][A-Za-z0-9_]*")
# what stands before a block that is a clause of a contract, or a ghost member
CLAUSE = re.compile(r"\b(requires|ensures|ghost)\b")


@dataclass(frozen=True)
class Function:
    """A function with a body: its words in the names of a check, the span of its body, braces included, where its `fn` stands, and
    whether a trait says which functions stand beside it."""

    name: str
    owner: str
    start: int
    end: int
    at: int
    is_of_trait: bool

    def holds(self, start, end):
        return self.start < start and end < self.end


def blanked(text):
    """The text with each comment, text and character blanked, so that places stay."""
    return NO_CODE.sub(lambda it: re.sub(r"[^\n]", " ", it[0]), text)


def closing(code, at):
    """The place behind the bracket that closes the one at this place."""
    depth = 0
    for place in range(at, len(code)):
        depth += (code[place] in "([{") - (code[place] in ")]}")
        if not depth:
            return place + 1
    return len(code)


def plain(words):
    """A type or a trait as a check's names spell it: its words in a row, with no brackets, and of each path the last."""
    return "".join(WORD.findall(re.sub(r"'[a-z_]+|\b(dyn|mut)\b|\w+\s*::\s*(?=\w)", " ", words)))


def without_parameters(words):
    """What follows the parameters of an `impl`, as of `impl<W: Sink> Page<W>`, without their names in the arguments of a trait."""
    if not words.startswith("<"):
        return words
    depth = 0
    for place, char in enumerate(words):
        depth += (char == "<") - (char == ">" and words[place - 1] != "-")
        if not depth:
            names = re.findall(r"[<,]\s*([A-Z]\w*)", words[:place])
            return re.sub(rf"\b({'|'.join(names)})\b", "", words[place + 1 :]) if names else words[place + 1 :]
    return words


def owner_of(head):
    """What stands before the functions of an `impl` or a `trait` in a check's names."""
    kind, _, rest = head.partition(" ") if head.startswith("trait") else ("impl", "", head[len("impl") :])
    if kind == "trait":
        return plain(re.split(r"[:<{]", rest)[0])
    rest = re.split(r"\bwhere\b", without_parameters(rest.strip()))[0]
    trait, made_for, subject = rest.partition(" for ")
    if not made_for:
        return plain(re.split("<", rest)[0])
    return plain(re.split("<", subject)[0]) + plain(trait)


def body_of(code, at):
    """The span of the body of the function whose name ends at this place: the first block that is no clause. None where it has none."""
    last = at
    while at < len(code):
        if code[at] in "([":
            at = closing(code, at)
        elif code[at] == ";":
            return None
        elif code[at] == "{":
            end = closing(code, at)
            if not CLAUSE.search(code[last:at]):
                return at, end
            at = last = end
        else:
            at += 1
    return None


def functions_of(text):
    """The functions of a file, those of its `impl` blocks, traits and inner modules too."""
    code = blanked(text)
    found = []
    collect(code, 0, len(code), "", False, found)
    return found


ITEM = re.compile(r"\b(?:(?P<fn>fn)\s+(?P<name>[a-z_][A-Za-z0-9_]*)|(?P<block>impl|trait|mod)\b(?P<head>[^{;]*)\{)")


def collect(code, at, end, owner, is_of_trait, found):
    while at < end:
        item = ITEM.search(code, at, end)
        if not item:
            return
        if item["fn"]:
            body = body_of(code, item.end())
            if body:
                found.append(Function(item["name"], owner, *body, item.start(), is_of_trait))
            at = body[1] if body else item.end()
            continue
        block = closing(code, item.end() - 1)
        inner = owner_of(item["block"] + item["head"]) if item["block"] != "mod" else plain(item["head"])
        of_trait = item["block"] == "trait" or bool(re.search(r"\bfor\s", item["head"]))
        collect(code, item.end(), block - 1, inner, of_trait, found)
        at = block
