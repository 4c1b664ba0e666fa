"""Sources as trees, for the reading of sources (reading.py): an own small parser, which shares nothing with the translator.

A node has a kind, the number of its first token, and the parts of its kind. What is no source of the grammar of docs/source.md raises
NotRead: the reading is for sources that the translator takes."""

import re

TOKEN = re.compile(
    r"//[^\n]*|\s+|(?P<number>0x[0-9A-Fa-f_]+|[0-9][0-9_]*)|(?P<name>[A-Za-z][A-Za-z0-9_]*)"
    r"|(?P<mark>->|\?\.|\.\.|==|!=|<=|>=|&&|\|\||\+=|-=|\*=|&=|\|=|\^=|[{}(),;:=<>+\-*&|^!.?])"
)
KINDS = ("timer", "active", "token", "native", "session", "server")
ROLES = ("construct", "destruct", "run", "cancel", "error", "accept", "service")
# from the weakest
LEVELS = (("||",), ("&&",), ("==", "!=", "<", "<=", ">", ">="), ("|",), ("^",), ("&",), ("+", "-"), ("*",))
WORDS = ("hand", "message", "status", "connect", "active", "enlisted")
ALONE = ("break", "continue", "stop", "cancel", "close")
OF_ONE_WORD = ("leave", "leaveif", "print", "enlist", "after", "resume")
SETS = ("=", "+=", "-=", "*=", "&=", "|=", "^=")


class NotRead(Exception):
    """No source, or one of what the reading does not have."""


class Node:
    """A statement or an expression."""

    def __init__(self, kind, at, **parts):
        self.kind, self.at = kind, at
        self.__dict__.update(parts)


class Method:
    """A method: its role is its name where it has one, else `fn`."""

    def __init__(self, name, role, owner, params, gives, body):
        self.name, self.role, self.owner, self.params, self.gives, self.body = name, role, owner, params, gives, body
        self.is_noleave = False


class Class:
    """A class. Its parent is a class once the whole source is read."""

    def __init__(self, name, kind):
        self.name, self.kind, self.parent, self.session, self.most, self.native = name, kind, None, None, 0, 0
        self.words, self.owns, self.roles, self.methods = [], [], {}, {}

    def line(self):
        """The class, its parent, and so on."""
        while self:
            yield self
            self = self.parent

    def all_words(self):
        return [word for it in self.line() for word in it.words]

    def all_owns(self):
        """The owning fields by name, with their kinds; those of the first ancestor come first."""
        return [own for it in reversed(list(self.line())) for own in it.owns]

    def role(self, name):
        return next((it.roles[name] for it in self.line() if name in it.roles), None)

    def find(self, name):
        return next((it.methods[name] for it in self.line() if name in it.methods), None)

    def is_active(self):
        return self.kind in ("timer", "active", "token", "native")

    def is_listed(self):
        return self.is_active() or self.kind == "server"


class Program:
    """A source."""

    def __init__(self):
        self.cells = self.messages = self.natives = 0
        self.root, self.constants, self.classes, self.functions = None, {}, {}, {}


def wrapped(number):
    """A number as a word of 32 bits."""
    return (number + (1 << 31)) % (1 << 32) - (1 << 31)


def computed(mark, left, right):
    """What an operator makes of two words."""
    results = {"+": left + right, "-": left - right, "*": left * right, "&": left & right, "|": left | right, "^": left ^ right}
    return wrapped(results[mark])


def tokens_of(text):
    """The words of a source: kind and text of each."""
    found, at = [], 0
    while at < len(text):
        token = TOKEN.match(text, at)
        if not token:
            raise NotRead(f"a byte that begins no word: {text[at]!r}")
        if token.lastgroup:
            found.append((token.lastgroup, token.group()))
        at = token.end()
    return [*found, ("end", "")]


class Reader:
    """Reads a source, a word at a time."""

    def __init__(self, text):
        self.tokens, self.at, self.asserts, self.program = tokens_of(text), 0, 0, Program()

    def word(self, ahead=0):
        return self.tokens[min(self.at + ahead, len(self.tokens) - 1)][1]

    def next(self):
        self.at += 1
        return self.tokens[self.at - 1][1]

    def take(self, word):
        """Whether the next word is that one, which is read then."""
        if self.word() != word:
            return False
        self.at += 1
        return True

    def want(self, word):
        if not self.take(word):
            raise NotRead(f"{word!r} is wanted where {self.word()!r} stands")

    def name(self):
        if self.tokens[self.at][0] != "name":
            raise NotRead(f"a name is wanted where {self.word()!r} stands")
        return self.next()

    def listed(self, one):
        """What stands between brackets, with commas."""
        self.want("(")
        found = []
        while self.word() != ")":
            found.append(one())
            if not self.take(","):
                break
        self.want(")")
        return found

    # declarations

    def read(self):
        self.read_constants()
        while self.word():
            self.declaration()
        for it in self.program.classes.values():
            it.parent = self.program.classes[it.parent] if it.parent else None
            it.session = self.program.classes[it.session] if it.session else None
        for it in self.program.classes.values():
            if it.parent and it.kind == "class":
                ancestor = list(it.line())[-1]
                it.kind, it.native = ancestor.kind, ancestor.native
        return self.program

    def read_constants(self):
        """Reads constants and enums first, in their order: they may stand behind what names them."""
        for at, (_, word) in enumerate(self.tokens):
            if word in ("const", "enum"):
                self.at = at
                self.declaration()
        self.at = 0

    def declaration(self):
        first = self.word()
        if first in ("cells", "messages", "natives", "budget"):
            self.next()
            setattr(self.program, first, self.constant())
            self.want(";")
        elif first == "root":
            self.next()
            self.program.root = self.name()
            self.want(";")
        elif self.take("const"):
            name = self.name()
            self.want("=")
            self.program.constants[name] = self.constant()
            self.want(";")
        elif self.take("enum"):
            self.enum()
        elif first == "class" or first in KINDS:
            self.a_class()
        else:
            self.function(first)

    def function(self, first):
        functions = self.program.functions
        if self.take("fn"):
            method = self.method(None)
            functions[method.name] = method
        elif self.take("undo"):
            name = self.name()
            params = [(word, "word") for word in self.listed(self.name)]
            functions[name] = Method(name, "undo", None, params, "", self.block())
        elif self.take("main"):
            functions["main"] = Method("main", "main", None, [], "", self.block())
        else:
            raise NotRead(f"no declaration begins with {first!r}")

    def enum(self):
        name, number = self.name(), 0
        self.want("{")
        while not self.take("}"):
            member = self.name()
            number = self.constant() if self.take("=") else number
            self.program.constants[f"{name}.{member}"] = number
            number += 1
            if self.word() != "}":
                self.want(",")
        self.program.constants.setdefault(f"enum {name}", 0)

    def constant(self):
        """The number that an expression of numbers and constants comes to."""
        return self.folded(self.expression())

    def folded(self, it):
        if it.kind == "number":
            return it.value
        if it.kind == "name":
            return self.program.constants[it.name]
        if it.kind == "member":
            return self.program.constants[f"{it.of}.{it.name}"]
        return computed(it.mark, self.folded(it.left), self.folded(it.right))

    def a_class(self):
        kind = self.next()
        native = self.constant() if kind == "native" else 0
        if kind != "class":
            self.want("class")
        made = Class(self.name(), kind)
        made.native = native
        self.program.classes[made.name] = made
        if self.take(":"):
            made.parent = self.name()
        if self.take("of"):
            made.session = self.name()
            self.want("max")
            made.most = self.constant()
        if self.take("budget"):
            self.constant()
        if self.take(";"):
            return
        self.want("{")
        while not self.take("}"):
            self.member(made)

    def member(self, made):
        if self.take("word"):
            made.words.append(self.name())
            while self.take(","):
                made.words.append(self.name())
            self.want(";")
        elif self.take("own"):
            name = self.name()
            self.want(":")
            kind = self.next()
            code = self.expression() if kind == "msg" and self.take("else") else None
            made.owns.append((name, kind, code))
            self.want(";")
        elif self.word() in ROLES:
            self.role(made)
        else:
            self.take("override")
            self.want("fn")
            method = self.method(made)
            made.methods[method.name] = method

    def role(self, made):
        role, params = self.next(), []
        if role == "construct":
            params = self.listed(self.parameter)
        elif role in ("error", "service"):
            params = [(word, "word") for word in self.listed(self.name)]
        gives = {"error": "word", "accept": made.session}.get(role, "")
        made.roles[role] = Method(role, role, made, params, gives, self.block())

    def method(self, owner):
        name = self.name()
        params = self.listed(self.parameter)
        gives = self.type() if self.take("->") else ""
        is_noleave = self.take("noleave")
        method = Method(name, "fn", owner, params, gives, self.block())
        method.is_noleave = is_noleave
        return method

    def parameter(self):
        name = self.name()
        self.want(":")
        return name, self.type()

    def type(self):
        """`word`, a class or `msg`, with `?` where it may be null; an enum is `word`."""
        name = self.name()
        name = "word" if f"enum {name}" in self.program.constants else name
        return name + "?" if self.take("?") else name

    # statements

    def block(self):
        self.want("{")
        found = []
        while not self.take("}"):
            found.append(self.statement())
        return found

    def statement(self):
        at, first = self.at, self.word()
        if first in ("let", "trap", "if", "loop", "while", "for"):
            return getattr(self, "a_" + first)(at)
        if first in ALONE:
            self.next()
            made = Node(first, at)
        elif first == "return":
            self.next()
            made = Node("return", at, value=None if self.word() == ";" else self.expression())
        elif first == "assert":
            self.next()
            made = Node("assert", at, value=self.expression(), code=-1000 - self.asserts)
            self.asserts += 1
        elif first in OF_ONE_WORD:
            self.next()
            made = Node(first, at, value=self.expression())
        elif first in ("request", "reply"):
            made = self.of_two(at)
        elif self.take("delete"):
            made = Node("delete", at, name=self.name())
        elif self.take("defer"):
            name = self.name()
            self.want("(")
            made = Node("defer", at, name=name, value=self.expression())
            self.want(")")
        elif self.word(1) in SETS:
            made = self.a_set(at)
        else:
            made = Node("call", at, value=self.expression())
        self.want(";")
        return made

    def of_two(self, at):
        kind, first = self.next(), self.expression()
        self.want(",")
        return Node(kind, at, first=first, second=self.expression())

    def a_set(self, at):
        name, mark = self.name(), self.next()
        value = self.expression()
        if mark != "=":
            value = Node("binary", at, mark=mark[0], left=Node("name", at, name=name), right=value)
        return Node("set", at, name=name, value=value)

    def a_let(self, at):
        self.next()
        name = self.name()
        if self.take(","):
            code = self.name()
            self.want("=")
            self.want("trap")
            made = Node("trap", at, name=name, code=code, value=self.expression(), body=None)
        else:
            kind = self.type() if self.take(":") else None
            self.want("=")
            if self.word() == "trap":
                return self.a_trap(at, name)
            made = Node("let", at, name=name, type=kind, value=self.expression())
        self.want(";")
        return made

    def a_trap(self, at, name=None):
        self.want("trap")
        value = self.expression()
        self.want("catch")
        code = self.name()
        return Node("trap", at, name=name, code=code, value=value, body=self.block())

    def a_if(self, at):
        self.next()
        name = None
        if self.take("let"):
            name = self.name()
            self.want("=")
        test, then, other = self.expression(), self.block(), None
        if self.take("else"):
            other = [self.a_if(self.at)] if self.word() == "if" else self.block()
        return Node("if", at, name=name, test=test, then=then, other=other)

    def a_loop(self, at):
        self.next()
        return Node("loop", at, rounds=self.constant(), test=None, name=None, first=0, body=self.block())

    def a_while(self, at):
        self.next()
        test = self.expression()
        self.want("max")
        return Node("loop", at, rounds=self.constant(), test=test, name=None, first=0, body=self.block())

    def a_for(self, at):
        self.next()
        name = self.name()
        self.want("in")
        first = self.constant()
        self.want("..")
        return Node("loop", at, rounds=self.constant() - first, test=None, name=name, first=first, body=self.block())

    # expressions

    def expression(self, level=0):
        if level == len(LEVELS):
            return self.unary()
        left = self.expression(level + 1)
        while self.word() in LEVELS[level]:
            at, mark = self.at, self.next()
            left = Node("binary", at, mark=mark, left=left, right=self.expression(level + 1))
        return left

    def unary(self):
        at = self.at
        if self.take("!"):
            return Node("not", at, value=self.unary())
        if self.take("-"):
            return Node("binary", at, mark="-", left=Node("number", at, value=0), right=self.unary())
        return self.primary(at)

    def primary(self, at):
        kind, first = self.tokens[self.at]
        if kind == "number":
            word = self.next().replace("_", "")
            return Node("number", at, value=wrapped(int(word, 16 if word.startswith("0x") else 10)))
        if self.take("("):
            made = self.expression()
            self.want(")")
            return made
        if first in ("maybe", "new"):
            is_maybe = self.take("maybe")
            self.want("new")
            return Node("new", at, of=self.name(), arguments=self.arguments() if self.word() == "(" else [], is_maybe=is_maybe)
        if self.take("take"):
            return Node("take", at, name=self.name())
        if first in WORDS:
            return Node(self.next(), at)
        if self.take("ask"):
            return Node("ask", at, arguments=self.arguments())
        if first == "super":
            self.next()
            return Node("call", at, target="super", name=None, arguments=self.arguments(), is_maybe=False)
        return self.named(at)

    def named(self, at):
        name = self.name()
        if self.word() == "(":
            return Node("call", at, target=None, name=name, arguments=self.arguments(), is_maybe=False)
        if self.word() not in (".", "?."):
            return Node("name", at, name=name)
        is_maybe = self.next() == "?."
        method = self.name()
        if self.word() != "(":
            return Node("member", at, of=name, name=method)
        return Node("call", at, target=name, name=method, arguments=self.arguments(), is_maybe=is_maybe)

    def arguments(self):
        return self.listed(self.expression)


def read_source(text):
    """A source as a program."""
    return Reader(text).read()
