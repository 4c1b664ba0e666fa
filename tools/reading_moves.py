"""Which owners go where ways come together, by the rule of docs/source.md alone: what one way has moved, the others delete.

It goes through a method as often as it learns something, with what is known at each place: of each local that owns whether it owns surely,
may be null, is null or has been moved; of each field of the object whether it is full, empty or perhaps; how far the request may be."""

from reading_text import NotRead

ALL = {"timer": "uia", "active": "uia", "token": "uia", "native": "uia", "server": "ui"}
BEGINS = {"construct": "u", "run": "i", "cancel": "o", "error": "ia", "accept": "i"}
STATEMENTS_OF_REQUESTS = ("after", "resume", "request", "enlist")
MOST_PASSES = 60


class Unknown(NotRead):
    """Whether a way is one depends on what the reading does not infer."""


class State:
    """What is known at a place. A doubt is a test that may always turn out otherwise, so that no run comes here."""

    def __init__(self, owners, fields, request, is_exact, doubts=frozenset()):
        self.owners, self.fields, self.request, self.is_exact, self.doubts = owners, fields, request, is_exact, doubts

    def copy(self):
        return State(dict(self.owners), dict(self.fields), self.request, self.is_exact, self.doubts)

    def known(self):
        """What a loop's head compares."""
        return [*sorted(self.owners.items()), *sorted(self.fields.items()), *sorted(self.request)]


class Moves:
    """The deletes of one method: at the end of each way, which locals, by the tokens that declare them."""

    def __init__(self, program, method):
        self.program, self.method, self.cls = program, method, method.owner
        self.deletes, self.wider, self.is_new = {}, {}, False
        self.scopes, self.loops, self.state, self.tests = [], [], None, 0

    def found(self):
        for _ in range(MOST_PASSES):
            self.is_new = False
            self.walk()
            if not self.is_new:
                return self.deletes
        raise Unknown("no end of passes")

    def walk(self):
        role, kind = self.method.role, self.cls.kind if self.cls else ""
        is_empty = role in ("construct", "main")
        fields = {name: "empty" if is_empty else "perhaps" for name, _ in self.fields()}
        request = BEGINS.get(role, ALL.get(kind, "")) if kind in ALL else ""
        is_narrowed = role == "fn" and asks(self.method.body)
        self.state, self.scopes, self.loops = State({}, fields, frozenset(request), not is_narrowed), [{}], []
        for number, (name, of) in enumerate(self.method.params):
            self.bind(name, -1 - number, of, "own")
        self.block(self.method.body)

    def fields(self):
        if self.method.role == "main":
            return [("root", self.program.root)] if self.program.root else []
        return [(name, of) for name, of, _ in self.cls.all_owns()] if self.cls else []

    def local(self, name):
        return next((it[name] for it in reversed(self.scopes) if name in it), None)

    def bind(self, name, declared, of, status):
        """A local: the token that declares it, and whether it owns."""
        is_owner = of != "word"
        self.scopes[-1][name] = (declared, of)
        if is_owner:
            self.state.owners[declared] = status

    # ways

    def end_way(self, key):
        if self.state:
            for declared in self.deletes.get(key, ()):
                if declared in self.state.owners:
                    self.state.owners[declared] = "gone"

    def join(self, ways):
        """What is known where ways come together, each with the key of its end."""
        ways = [(key, state) for key, state in ways if state]
        if not ways:
            return None
        joined = ways[0][1].copy()
        joined.doubts = frozenset.intersection(*(state.doubts for _, state in ways))
        for declared in ways[0][1].owners:
            found = [(key, state.owners.get(declared), state.doubts > joined.doubts) for key, state in ways]
            if any(status is None for _, status, _ in found):
                del joined.owners[declared]
            else:
                joined.owners[declared] = self.join_owner(declared, found)
        for name in joined.fields:
            if any(state.fields[name] != joined.fields[name] for _, state in ways):
                joined.fields[name] = "perhaps"
        joined.request = frozenset().union(*(state.request for _, state in ways))
        joined.is_exact = all(state.is_exact for _, state in ways)
        return joined

    def join_owner(self, declared, found):
        statuses = {status for _, status, _ in found}
        if len(statuses) == 1:
            return statuses.pop()
        if "gone" not in statuses:
            return "maybe"
        is_known = any(status == "gone" and not is_doubtful for _, status, is_doubtful in found)
        for key, status, _ in found:
            if status in ("own", "maybe"):
                if not is_known:
                    raise Unknown("a way that a run may not take has moved an owner")
                self.note(key, declared)
        return "gone"

    def note(self, key, declared):
        noted = self.deletes.setdefault(key, [])
        if key is not None and declared not in noted:
            noted.append(declared)
            self.is_new = True

    # expressions

    def words(self, it):
        """A word is computed."""
        if it.kind == "binary":
            self.words(it.left)
            self.words(it.right)
        elif it.kind == "call":
            self.call(it)
        elif it.kind == "ask":
            for argument in it.arguments:
                self.words(argument)

    def callee(self, it):
        """What a call names: the method, and whether it works on the object itself."""
        if it.target == "super":
            return self.cls.parent.role("construct"), True
        if it.target in (None, "self"):
            own = self.cls.find(it.name) if self.cls else None
            method, is_own = own or self.program.functions.get(it.name), bool(own)
        else:
            local = self.local(it.target)
            of = local[1] if local else dict(self.fields()).get(it.target, "")
            cls = self.program.classes.get(of.rstrip("?"))
            method, is_own = cls and cls.find(it.name), False
        # the translator does not look at a block to which no way leads
        if method is None:
            raise NotRead(f"no method: {it.name}")
        return method, is_own

    def is_word(self, it):
        if it.kind == "name":
            local = self.local(it.name)
            return local[1] == "word" if local else True
        if it.kind == "call":
            return self.callee(it)[0].gives == "word"
        return it.kind not in ("take", "new", "hand", "message")

    def arguments(self, arguments, params):
        moved = []
        for it, (_, of) in zip(arguments, params):
            if of == "word":
                self.words(it)
            elif it.kind == "name":
                moved.append(self.local(it.name)[0])
            else:
                self.owner(it)
        for declared in moved:
            self.state.owners[declared] = "gone"

    def call(self, it):
        method, is_own = self.callee(it)
        self.arguments(it.arguments, method.params)
        if is_own:
            self.forget_fields()
            if self.cls.kind in ALL:
                self.state.request, self.state.is_exact = frozenset(ALL[self.cls.kind]), False
        return method

    def forget_fields(self):
        self.state.fields = dict.fromkeys(self.state.fields, "perhaps")

    def owner(self, it):
        """What is known of what comes from an expression that owns, and its kind."""
        if it.kind == "name":
            declared, of = self.local(it.name)
            status, self.state.owners[declared] = self.state.owners[declared], "gone"
            return status, of
        if it.kind == "take":
            full = self.state.fields[it.name]
            self.state.fields[it.name] = "empty"
            of = dict(self.fields())[it.name]
            return {"full": "own", "empty": "null", "perhaps": "maybe"}[full], of if full == "full" else of + "?"
        if it.kind == "new":
            construct = self.program.classes[it.of].role("construct")
            self.arguments(it.arguments, construct.params if construct else [])
            return ("maybe", it.of + "?") if it.is_maybe else ("own", it.of)
        if it.kind == "call":
            gives = self.call(it).gives
            return ("maybe" if gives.endswith("?") else "own"), gives
        if it.kind == "hand":
            self.state.request = frozenset("a")
            return "maybe", "msg?"
        return "own", "msg"

    # conditions

    def test(self, it):
        """What is known where it holds, and where it does not."""
        if it.kind == "not":
            return tuple(reversed(self.test(it.value)))
        if it.kind == "binary" and it.mark in ("&&", "||"):
            return self.test_both(it)
        if it.kind == "name":
            return self.test_name(it.name)
        if it.kind in ("active", "enlisted"):
            return self.test_request("aod" if it.kind == "active" else "iasod")
        self.words(it.left)
        self.words(it.right)
        return self.state, self.state.copy()

    def test_both(self, it):
        first = self.test(it.left)
        goes_on, ends = first if it.mark == "&&" else reversed(first)
        self.state = goes_on
        if not goes_on:
            return (None, ends) if it.mark == "&&" else (ends, None)
        holds, fails = self.test(it.right)
        if it.mark == "&&":
            return holds, self.join([(None, ends), (None, fails)])
        return self.join([(None, ends), (None, holds)]), fails

    def test_name(self, name):
        local, holds, fails = self.local(name), self.state.copy(), self.state.copy()
        if local:
            declared = local[0]
            if self.state.owners[declared] == "null":
                holds = None
            else:
                holds.owners[declared] = "own"
            fails.owners[declared] = "null"
            return holds, fails
        known = self.state.fields[name]
        holds.fields[name], fails.fields[name] = "full", "empty"
        return (None if known == "empty" else holds), (None if known == "full" else fails)

    def test_request(self, letters):
        holds, fails = self.state.copy(), self.state.copy()
        holds.request, fails.request = self.state.request & set(letters), self.state.request - set(letters)
        if not self.state.is_exact:
            self.tests += 1
            holds.doubts, fails.doubts = holds.doubts | {self.tests}, fails.doubts | {-self.tests}
        return (holds if holds.request else None), (fails if fails.request else None)

    # statements

    def block(self, body):
        self.scopes.append({})
        for it in body:
            if not self.state:
                break
            getattr(self, "do_" + it.kind, self.do_word)(it)
        self.shut()

    def shut(self):
        for declared, of in self.scopes.pop().values():
            if self.state and of != "word":
                self.state.owners.pop(declared, None)

    def do_word(self, it):
        """Statements that take words alone, or nothing."""
        if getattr(it, "value", None):
            self.words(it.value)
        if it.kind in STATEMENTS_OF_REQUESTS:
            self.state.request = frozenset("i" if it.kind == "enlist" else "a")

    def do_request(self, it):
        self.words(it.first)
        self.words(it.second)
        self.state.request = frozenset("a")

    def do_cancel(self, it):
        self.forget_fields()
        request = self.state.request
        self.state.request = request - {"a"} | ({"i"} if "a" in request else set())

    def do_let(self, it):
        if self.is_word(it.value):
            self.words(it.value)
            return self.bind(it.name, it.at, "word", None)
        status, of = self.owner(it.value)
        return self.bind(it.name, it.at, it.type or of, status)

    def do_set(self, it):
        local = self.local(it.name)
        if self.is_word(it.value):
            return self.words(it.value)
        status, _ = self.owner(it.value)
        if local:
            self.state.owners[local[0]] = status
        else:
            self.state.fields[it.name] = {"own": "full", "maybe": "perhaps", "null": "empty"}[status]
        return None

    def do_call(self, it):
        call = it.value
        if not call.is_maybe:
            return self.call(call)
        holds, fails = self.test_name(call.target)
        self.state = holds
        if holds:
            self.call(call)
        self.end_way((it.at, "then"))
        holds, self.state = self.state, fails
        self.end_way((it.at, "else"))
        self.state = self.join([((it.at, "then"), holds), ((it.at, "else"), self.state)])
        return None

    def do_if(self, it):
        if it.name:
            _, of = self.owner(it.test)
            holds, fails = self.state, self.state.copy()
        else:
            holds, fails = self.test(it.test)
        self.state = holds
        self.scopes.append({})
        if it.name:
            self.bind(it.name, it.at + 2, of.rstrip("?"), "own")
        if self.state:
            self.block(it.then)
        self.shut()
        self.end_way((it.at, "then"))
        holds, self.state = self.state, fails
        if self.state and it.other:
            self.block(it.other)
        self.end_way((it.at, "else"))
        self.state = self.join([((it.at, "then"), holds), ((it.at, "else"), self.state)])

    def do_loop(self, it):
        self.scopes.append({})
        if it.name:
            self.bind(it.name, it.at, "word", None)
        wider = self.wider.setdefault(it.at, {})
        for name, value in wider.items():
            self.widen(name, value)
        head = self.state.copy()
        self.loops.append((len(self.scopes), [], []))
        self.round(it)
        self.end_way((it.at, "end"))
        _, outs, rounds = self.loops.pop()
        self.state = self.join([((it.at, "end"), self.state), *rounds])
        if self.state:
            self.compare(it, head, wider)
        self.end_way((it.at, "out"))
        self.state = self.join([((it.at, "out"), self.state), *outs])
        self.shut()

    def round(self, it):
        self.scopes.append({})
        if it.test:
            holds, fails = self.test(it.test)
            self.state = fails
            self.out(it.test.at, 1)
            self.state = holds
        if self.state:
            self.block(it.body)
        self.shut()

    def widen(self, name, value):
        if name == "request":
            self.state.request = self.state.request | value
        elif isinstance(name, str):
            self.state.fields[name] = "perhaps"
        elif name in self.state.owners:
            self.state.owners[name] = "maybe"

    def compare(self, it, head, wider):
        """What a round changes is not known as a round begins."""
        before = len(wider), wider.get("request")
        for declared, status in head.owners.items():
            after = self.state.owners.get(declared, "gone")
            if status == "gone" and after in ("own", "maybe"):
                self.note((it.at, "end"), declared)
            elif (status, after) in (("own", "maybe"), ("own", "null"), ("null", "own"), ("null", "maybe")):
                wider[declared] = True
        for name, full in head.fields.items():
            if full != "perhaps" and full != self.state.fields[name]:
                wider[name] = True
        if not self.state.request <= head.request:
            wider["request"] = wider.get("request", frozenset()) | self.state.request
        self.is_new = self.is_new or before != (len(wider), wider.get("request"))

    def out(self, at, which):
        """Out of the innermost loop, or to its next round."""
        if not self.state:
            return
        depth, outs, rounds = self.loops[-1]
        for scope in self.scopes[depth:]:
            for declared, _ in scope.values():
                self.state.owners.pop(declared, None)
        self.end_way((at, "out"))
        (outs if which == 1 else rounds).append(((at, "out"), self.state))
        self.state = None

    def do_break(self, it):
        self.out(it.at, 1)

    def do_continue(self, it):
        self.out(it.at, 2)

    def do_return(self, it):
        self.state = None

    do_leave = do_return

    def do_assert(self, it):
        self.state = self.test(it.value)[0]

    def do_reply(self, it):
        self.words(it.second)
        self.owner(it.first)

    def do_delete(self, it):
        self.state.owners[self.local(it.name)[0]] = "gone"

    def do_trap(self, it):
        if it.value.kind == "new":
            construct = self.program.classes[it.value.of].role("construct")
            self.arguments(it.value.arguments, construct.params if construct else [])
            gives = it.value.of
        else:
            gives = self.call(it.value).gives
        if it.name:
            self.bind(it.name, it.at, gives, "maybe")
        if it.body is None:
            return self.bind(it.code, it.at + 1, "word", None)
        fails = self.state.copy()
        if it.name and gives != "word" and not gives.endswith("?"):
            self.state.owners[it.at], fails.owners[it.at] = "own", "null"
        self.end_way((it.at, "ok"))
        holds, self.state = self.state, fails
        self.scopes.append({it.code: (it.at + 1, "word")})
        self.block(it.body)
        self.shut()
        self.end_way((it.at, "then"))
        self.state = self.join([((it.at, "ok"), holds), ((it.at, "then"), self.state)])
        return None


def asks(body):
    """Whether a block makes a request, so that its method may not begin in each state."""
    for it in body:
        if it.kind in STATEMENTS_OF_REQUESTS or any(asks(part) for part in inner(it)):
            return True
        if any(getattr(getattr(it, part, None), "kind", "") == "hand" for part in ("value", "test", "first")):
            return True
    return False


def inner(it):
    """The blocks of a statement."""
    return [part for name in ("then", "other", "body") if (part := getattr(it, name, None))]


def moves_of(program, method):
    """What a method deletes at the ends of its ways."""
    return Moves(program, method).found()
