"""A reading of sources: what docs/source.md says that a source does, over statements and owners. It shares nothing with the translator, and
knows no registers, no labels and no cleanup stack: what is owned stands in one list, the last that came last, and a leave ends what has come
since its trap. Its transcript is that of `run --names`.

What a source does not say is where guards ask for memory. The reading has each place at which one may (World.may_guard)."""

from reading_moves import moves_of
from reading_text import NotRead, computed, read_source
from reading_world import Left, Thing, World

CANNOT_LEAVE = ("destruct", "cancel", "undo", "error")
COMPARED = {
    "==": lambda left, right: left == right,
    "!=": lambda left, right: left != right,
    "<": lambda left, right: left < right,
    "<=": lambda left, right: left <= right,
    ">": lambda left, right: left > right,
    ">=": lambda left, right: left >= right,
}


class Returned(Exception):
    """A method is over, with what it gives."""

    def __init__(self, value):
        super().__init__()
        self.value = value


class Broken(Exception):
    """A loop is over, or its round."""

    def __init__(self, at, is_break):
        super().__init__()
        self.at, self.is_break = at, is_break


class Cell:
    """A local that owns, or something that is computed: what it owns, or None."""

    def __init__(self, value=None):
        self.value = value


class Deferred:
    """What runs at a block's end, and at a leave."""

    def __init__(self, method, word):
        self.method, self.word = method, word


class Frame:
    """A method that runs: on what, as which class, and its locals by blocks."""

    def __init__(self, method, this, view):
        self.method, self.this, self.view, self.scopes, self.cells = method, this, view, [], {}
        self.may_leave = method.role not in CANNOT_LEAVE and not method.is_noleave

    def local(self, name):
        return next((names[name] for names, _ in reversed(self.scopes) if name in names), None)


class Reading(World):
    """A run of a source."""

    def __init__(self, program, deletes, **around):
        super().__init__(program, **around)
        self.deletes, self.served = deletes, None

    # objects

    def main(self):
        try:
            self.invoke(self.program.functions["main"], None, None, [])
        except Left:
            self.unwind()
            raise

    def call_role(self, thing, role, arguments):
        method = thing.cls.role(role)
        if method is None and role == "accept":
            return self.accept(thing)
        trap = self.begin_trap()
        try:
            words = arguments[: len(method.params)]
            return self.invoke(method, thing, thing.cls, words)
        except Left:
            self.unwind()
            raise
        finally:
            self.trap = trap

    def begin_trap(self):
        """Begins a trap: the one around it."""
        around, self.traps = self.trap, self.traps + 1
        self.trap = (len(self.held), self.traps)
        return around

    def unwind(self):
        """What has come since the innermost trap goes, the last first."""
        while len(self.held) > self.trap[0]:
            last = self.held.pop()
            if isinstance(last, Deferred):
                self.invoke(last.method, None, None, [last.word])
            else:
                value, last.value = last.value, None
                self.destroy(value)

    def destroy(self, thing):
        if thing is None:
            return
        for session in thing.sessions:
            self.destroy(session)
        for cls in thing.cls.line():
            self.destruct(thing, cls)
        if thing.cls.kind == "server":
            self.server_goes(thing)
        if thing in self.enlisted:
            self.enlisted.remove(thing)
        self.count -= 1
        self.write(f"gone {thing.cls.name}")

    def destruct(self, thing, cls):
        """The destructor of one class: its request is cancelled, its own body runs, what that has begun is cancelled too, its fields go."""
        body = cls.roles.get("destruct")
        if cls.is_active() and (body or cls.owns or not cls.parent):
            self.cancel(thing, cls)
        if body:
            self.invoke(body, thing, cls, [])
            self.cancel(thing, cls)
        for name, of, code in cls.owns:
            value, thing.fields[name] = thing.fields[name], None
            if of != "msg":
                self.destroy(value)
            elif value:
                self.reply(value, self.constant(code))

    def constant(self, it):
        return self.word(None, it)

    def cancel(self, thing, view):
        if thing.phase != "active":
            return
        thing.phase = "cancelled"
        method = view.role("cancel")
        if method:
            self.invoke(method, thing, view, [])
        self.abort(thing)
        thing.phase = "idle"

    def make(self, cls, frame, arguments, is_maybe):
        """A new object, in both phases; or none, where memory is refused."""
        construct = cls.role("construct")
        params = construct.params if construct else []
        owns = any(of != "word" for _, of in params)
        values = [] if owns else self.arguments(frame, arguments, params)
        if self.asks(self.count >= self.program.cells):
            if is_maybe:
                return None
            raise Left(-4)
        self.count += 1
        cell = self.hold(Thing(cls))
        if construct:
            if frame is None or frame.may_leave:
                self.may_guard()
            values = self.arguments(frame, arguments, params) if owns else values
            self.invoke(construct, cell.value, cls, values)
        return self.take(cell)

    def accept(self, server):
        """The session that a server without an accept of its own gives."""
        around = self.begin_trap()
        try:
            return self.make(server.cls.session, None, [], False)
        except Left:
            self.unwind()
            raise
        finally:
            self.trap = around

    # what is held

    def hold(self, value):
        cell = Cell(value)
        self.held.append(cell)
        return cell

    def take(self, cell):
        """What a cell owns is moved on."""
        self.changes += 1
        if cell in self.held:
            self.held.remove(cell)
        value, cell.value = cell.value, None
        return value

    # methods

    def invoke(self, method, this, view, values):
        self.spend()
        frame = Frame(method, this, view)
        self.open(frame)
        for number, ((name, of), value) in enumerate(zip(method.params, values)):
            self.bind(frame, name, -1 - number, value, of)
        self.settle(frame)
        result = None
        try:
            self.block(frame, method.body)
        except Returned as returned:
            result = returned.value
            while frame.scopes:
                self.shut(frame)
            return result
        self.shut(frame)
        return result

    def settle(self, frame):
        if frame.may_leave and any(cell.value is not None for cell in frame.cells.values()):
            self.may_guard()

    def open(self, frame):
        frame.scopes.append(({}, []))

    def bind(self, frame, name, declared, value, of):
        names, items = frame.scopes[-1]
        if of == "word":
            names[name] = value
        else:
            cell = self.hold(value)
            names[name] = frame.cells[declared] = cell
            items.append(cell)

    def shut(self, frame):
        _, items = frame.scopes[-1]
        for item in reversed(items):
            self.drop(item)
        frame.scopes.pop()

    def drop(self, item):
        if item in self.held:
            self.held.remove(item)
        if isinstance(item, Deferred):
            self.invoke(item.method, None, None, [item.word])
        elif item.value is not None:
            value, item.value = item.value, None
            self.destroy(value)

    def end_way(self, frame, key):
        """What another way has moved goes."""
        for declared in self.deletes[frame.method].get(key, ()):
            if declared in frame.cells:
                self.drop(frame.cells[declared])

    # words

    def word(self, frame, it):
        kind = it.kind
        if kind == "number":
            return it.value
        if kind == "binary":
            left = self.word(frame, it.left)
            return computed(it.mark, left, self.word(frame, it.right))
        if kind == "name":
            return self.named(frame, it.name)
        if kind == "member":
            return computed("+", self.program.constants[f"{it.of}.{it.name}"], 0)
        if kind == "call":
            return self.call(frame, it)
        if kind == "status":
            return frame.this.status if frame.this.phase != "none" else 0
        if kind == "connect":
            return self.connect(frame.this)
        if kind == "ask":
            function, word = (self.word(frame, one) for one in it.arguments)
            return self.ask(frame.this, function, word)
        raise NotRead(f"no word: {kind}")

    def named(self, frame, name):
        value = frame.local(name) if frame else None
        if value is None and frame and frame.this and name in frame.this.words:
            return frame.this.words[name]
        return computed("+", self.program.constants[name], 0) if value is None else value

    def is_word(self, frame, it):
        if it.kind == "name":
            return not isinstance(frame.local(it.name), Cell)
        if it.kind == "call":
            return self.named_method(frame, it).gives == "word"
        return it.kind not in ("take", "new", "hand", "message")

    # calls

    def fields(self, frame):
        """The owning fields that a method names: those of its object, and in main the root."""
        return frame.this.fields if frame.this else {"root": self.root}

    def on(self, frame, it):
        """The object that a call names by a local or a field."""
        local = frame.local(it.target)
        return local.value if isinstance(local, Cell) else self.fields(frame)[it.target]

    def named_method(self, frame, it):
        """The method that a call names, whichever overrides it."""
        cls = frame.method.owner
        if it.target == "super":
            return cls.parent.role("construct")
        if it.target in (None, "self"):
            return (cls.find(it.name) if cls else None) or self.program.functions[it.name]
        return self.on(frame, it).cls.find(it.name)

    def prepared(self, frame, it):
        """A call of which the arguments have been computed: its method, its object, as which class, and the values."""
        named = self.named_method(frame, it)
        values = self.arguments(frame, it.arguments, named.params)
        if it.target == "super":
            return named, frame.this, frame.view, values
        if it.target in (None, "self"):
            return (frame.view.find(it.name) if named.owner else named), (frame.this if named.owner else None), frame.view, values
        thing = self.on(frame, it)
        return thing.cls.find(it.name), thing, thing.cls, values

    def call(self, frame, it):
        return self.invoke(*self.prepared(frame, it))

    def arguments(self, frame, arguments, params):
        """The values of arguments, from left to right. What owns is moved once all are computed."""
        found = []
        for it, (_, of) in zip(arguments, params):
            if of == "word":
                found.append(self.word(frame, it))
            elif it.kind == "name":
                found.append(frame.local(it.name))
            else:
                found.append(self.hold(self.owner(frame, it)))
                self.guard_computed(frame)
        return [self.take(one) if isinstance(one, Cell) else one for one in found]

    def guard_computed(self, frame):
        if frame.may_leave:
            self.may_guard()

    # owners

    def owner(self, frame, it):
        if it.kind == "name":
            return self.take(frame.local(it.name))
        if it.kind == "take":
            return self.take_field(frame, it.name)
        if it.kind == "new":
            return self.make(self.program.classes[it.of], frame, it.arguments, it.is_maybe)
        if it.kind == "call":
            return self.call(frame, it)
        if it.kind == "hand":
            return self.hand(frame.this)
        if it.kind == "message":
            self.taken_under = self.trap
            return self.served
        raise NotRead(f"no owner: {it.kind}")

    def take_field(self, frame, name):
        self.changes += 1
        if frame.this is None:
            value, self.root = self.root, None
        else:
            value, frame.this.fields[name] = frame.this.fields[name], None
        return value

    def put_field(self, frame, name, value):
        self.changes += 1
        if frame.this is None:
            self.root = value
        else:
            frame.this.fields[name] = value

    # conditions

    def holds(self, frame, it):
        if it.kind == "not":
            return not self.holds(frame, it.value)
        if it.kind == "binary" and it.mark == "&&":
            return self.holds(frame, it.left) and self.holds(frame, it.right)
        if it.kind == "binary" and it.mark == "||":
            return self.holds(frame, it.left) or self.holds(frame, it.right)
        if it.kind == "binary":
            left = self.word(frame, it.left)
            return COMPARED[it.mark](left, self.word(frame, it.right))
        if it.kind == "active":
            return frame.this.phase in ("active", "cancelled")
        if it.kind == "enlisted":
            return frame.this.phase != "none"
        local = frame.local(it.name)
        return (local.value if isinstance(local, Cell) else self.fields(frame)[it.name]) is not None

    # statements

    def block(self, frame, body):
        depth = len(frame.scopes)
        self.open(frame)
        try:
            for it in body:
                self.spend()
                getattr(self, "do_" + it.kind)(frame, it)
                self.settle(frame)
        except Broken:
            while len(frame.scopes) > depth:
                self.shut(frame)
            raise
        self.shut(frame)

    def do_let(self, frame, it):
        if self.is_word(frame, it.value):
            self.bind(frame, it.name, it.at, self.word(frame, it.value), "word")
        else:
            self.bind(frame, it.name, it.at, self.owner(frame, it.value), "own")

    def do_set(self, frame, it):
        local = frame.local(it.name)
        if isinstance(local, Cell):
            self.set_owner(frame, local, it)
        elif local is not None:
            next(names for names, _ in reversed(frame.scopes) if it.name in names)[it.name] = self.word(frame, it.value)
        elif frame.this and it.name in frame.this.words:
            frame.this.words[it.name] = self.word(frame, it.value)
            self.changes += 1
        else:
            self.set_field(frame, it)

    def set_owner(self, frame, local, it):
        """What a local owned goes once the new value is there."""
        computed_cell = self.hold(self.owner(frame, it.value))
        self.guard_computed(frame)
        self.drop(local)
        local.value = self.take(computed_cell)
        self.held.append(local)

    def set_field(self, frame, it):
        source = frame.local(it.value.name) if it.value.kind == "name" else self.hold(self.owner(frame, it.value))
        self.guard_computed(frame)
        self.destroy(self.take_field(frame, it.name))
        self.put_field(frame, it.name, self.take(source))

    def do_call(self, frame, it):
        if not it.value.is_maybe:
            self.call(frame, it.value)
            return
        there = self.on(frame, it.value) is not None
        if there:
            self.call(frame, it.value)
        self.end_way(frame, (it.at, "then" if there else "else"))

    def do_if(self, frame, it):
        value = self.owner(frame, it.test) if it.name else None
        is_so = value is not None if it.name else self.holds(frame, it.test)
        if is_so:
            depth = len(frame.scopes)
            self.open(frame)
            if it.name:
                self.bind(frame, it.name, it.at + 2, value, "own")
            self.inner(frame, it.then, depth)
        elif it.other:
            self.settle(frame)
            self.block(frame, it.other)
        self.end_way(frame, (it.at, "then" if is_so else "else"))

    def inner(self, frame, body, depth):
        """A block within one that is open already, which ends with it."""
        try:
            self.settle(frame)
            self.block(frame, body)
        except Broken:
            while len(frame.scopes) > depth:
                self.shut(frame)
            raise
        self.shut(frame)

    def do_loop(self, frame, it):
        self.open(frame)
        if it.name:
            self.bind(frame, it.name, it.at, it.first, "word")
        try:
            for _ in range(it.rounds):
                self.round(frame, it)
                if it.name:
                    frame.scopes[-1][0][it.name] = computed("+", frame.scopes[-1][0][it.name], 1)
            self.end_way(frame, (it.at, "out"))
        except Broken as broken:
            self.end_way(frame, (broken.at, "out"))
        self.shut(frame)

    def round(self, frame, it):
        self.spend()
        if it.test and not self.holds(frame, it.test):
            raise Broken(it.test.at, True)
        try:
            self.block(frame, it.body)
            self.end_way(frame, (it.at, "end"))
        except Broken as broken:
            if broken.is_break:
                raise
            self.end_way(frame, (broken.at, "out"))

    def do_break(self, _frame, it):
        raise Broken(it.at, True)

    def do_continue(self, _frame, it):
        raise Broken(it.at, False)

    def do_return(self, frame, it):
        if it.value is None:
            raise Returned(None)
        raise Returned(self.word(frame, it.value) if frame.method.gives == "word" else self.owner(frame, it.value))

    def do_leave(self, frame, it):
        raise Left(self.word(frame, it.value))

    def do_leaveif(self, frame, it):
        code = self.word(frame, it.value)
        if code < 0:
            raise Left(code)

    def do_assert(self, frame, it):
        if not self.holds(frame, it.value):
            raise Left(it.code)

    def do_print(self, frame, it):
        self.write(f"out {self.word(frame, it.value)}")

    def do_stop(self, _frame, _it):
        self.has_stopped = True

    def do_delete(self, frame, it):
        self.drop(frame.local(it.name))

    def do_defer(self, frame, it):
        item = Deferred(self.program.functions[it.name], self.word(frame, it.value))
        self.held.append(item)
        frame.scopes[-1][1].append(item)
        if self.asks():
            raise Left(-4)

    def do_trap(self, frame, it):
        gives, code, value = self.trapped(frame, it)
        if it.name:
            value = (value or 0) if gives == "word" else value
            self.bind(frame, it.name, it.at, value, gives)
        if it.body is None:
            self.bind(frame, it.code, it.at + 1, code, "word")
            return
        is_own = it.name and gives != "word" and not gives.endswith("?")
        has_left = value is None if is_own else code != 0
        if has_left:
            self.open(frame)
            self.bind(frame, it.code, it.at + 1, code, "word")
            self.inner(frame, it.body, len(frame.scopes) - 1)
        self.end_way(frame, (it.at, "then" if has_left else "ok"))

    def trapped(self, frame, it):
        """What a trap's call gives, the code with which it left, or 0, and what it gave. Arguments are computed before."""
        call = it.value
        if call.kind == "new":
            cls = self.program.classes[call.of]
            construct = cls.role("construct")
            values = self.arguments(frame, call.arguments, construct.params if construct else [])
            gives, todo = cls.name, lambda: self.made_of(cls, values)
        else:
            method, this, view, values = self.prepared(frame, call)
            gives, todo = method.gives, lambda: self.invoke(method, this, view, values)
        around = self.begin_trap()
        try:
            return gives, 0, todo()
        except Left as left:
            self.unwind()
            self.write(f"leave {left.code}")
            return gives, left.code, None
        finally:
            self.trap = around

    def made_of(self, cls, values):
        """A new object of values that are there: those that own are held until its construct takes them."""
        cells = [self.hold(value) if isinstance(value, Thing) else value for value in values]
        if cells:
            self.may_guard()
        if self.asks(self.count >= self.program.cells):
            raise Left(-4)
        self.count += 1
        made = self.hold(Thing(cls))
        self.may_guard()
        construct = cls.role("construct")
        if construct:
            self.invoke(construct, made.value, cls, [self.take(one) if isinstance(one, Cell) else one for one in cells])
        return self.take(made)

    # requests and messages

    def do_enlist(self, frame, it):
        self.enlist(frame.this, self.word(frame, it.value))

    def do_after(self, frame, it):
        self.after(frame.this, self.word(frame, it.value))

    def do_resume(self, frame, it):
        self.resume(frame.this, self.word(frame, it.value))

    def do_request(self, frame, it):
        function = self.word(frame, it.first)
        self.request(frame.this, function, self.word(frame, it.second))

    def do_cancel(self, frame, _it):
        self.cancel(frame.this, frame.view)

    def do_close(self, frame, _it):
        frame.this.has_session = False
        self.changes += 1

    def do_reply(self, frame, it):
        code = self.word(frame, it.second)
        self.reply(self.owner(frame, it.first), code)


class Source:
    """A source that can be run."""

    def __init__(self, text):
        self.program = read_source(text)
        methods = [it for cls in self.program.classes.values() for it in (*cls.roles.values(), *cls.methods.values())]
        methods += self.program.functions.values()
        self.deletes = {method: moves_of(self.program, method) for method in methods}

    def run(self, refused=(), **around):
        """A run in which these of the places that ask for memory are refused."""
        reading = Reading(self.program, self.deletes, **around)
        reading.refused = set(refused)
        reading.run()
        return reading
