"""What is around the methods of a source as the reading runs it: objects with their requests, timers, natives, servers, clients and
messages, and the turns between dispatches. It knows no cells, no numbers of classes and no order in memory."""

from reading_text import NotRead

PENDING, GENERAL = -(2**31) + 1, -2
NO_MEMORY, CANCELLED, GONE, BUSY, NOT_FOUND, DIED = -4, -3, -15, -16, -1, -13
REFUSED = {"connecting": BUSY, "open": BUSY, "closing": BUSY, "dead": DIED, "dying": DIED}
MOST_OWED = 16


class Left(Exception):
    """A leave on its way."""

    def __init__(self, code):
        super().__init__(code)
        self.code = code


class TooLong(NotRead):
    """A run that takes more statements than the reading does."""


class Thing:
    """An object."""

    def __init__(self, cls):
        self.cls = cls
        self.words = dict.fromkeys(cls.all_words(), 0)
        self.fields = {name: None for name, _, _ in cls.all_owns()}
        # the request of an active object: none, idle, active or cancelled
        self.phase, self.status, self.priority, self.due, self.is_timed, self.token, self.has_session = "none", 0, 0, None, 0, None, False
        # the queue and the sessions of a server
        self.queue, self.sessions = [], []

    def complete(self, code):
        """Its request completes."""
        self.status, self.due, self.token = (GENERAL if code == PENDING else code), None, None

    def is_ready(self):
        return bool(self.queue) or self.phase == "active" and self.status != PENDING


class Message:
    """A message of a client, or a token of an object."""

    def __init__(self, client=None, words=(), of=None):
        self.client, self.words, self.of, self.has_slot, self.is_discarded = client, words, of, client is not None, False


class Client:
    """A client of the script."""

    def __init__(self, number):
        self.number, self.state, self.server, self.session, self.slots, self.used = number, "unconnected", None, None, 0, 0
        self.held = []


class Counter:
    """The native that counts."""

    def __init__(self):
        self.owed, self.total, self.words = [], 0, []

    def start(self, _thing, _function, _word):
        return -5

    def call(self, function, word):
        if function != 0:
            return -5
        self.total = (self.total + word + (1 << 31)) % (1 << 32) - (1 << 31)
        return self.total

    def event(self, word):
        """Nothing but a line has a use for it."""

    def poll(self):
        return None

    def cancel(self, thing):
        self.owed = [one for one in self.owed if one[0] is not thing]


class Line(Counter):
    """The native that completes requests with the words of events."""

    def start(self, thing, _function, _word):
        if len(self.owed) == MOST_OWED:
            return BUSY
        self.owed.append((thing,))
        return 0

    def call(self, _function, _word):
        return -5

    def event(self, word):
        if len(self.words) < MOST_OWED:
            self.words.append(word)

    def poll(self):
        if not self.owed or not self.words:
            return None
        return self.owed.pop(0)[0], self.words.pop(0)


class Delay(Line):
    """The native that completes a request after so many turns."""

    def start(self, thing, function, word):
        if word < 0:
            return -6
        if len(self.owed) == MOST_OWED:
            return BUSY
        self.owed.append([thing, word, function])
        return 0

    def event(self, word):
        """Nothing."""

    def poll(self):
        for one in self.owed:
            if one[1] == 0:
                self.owed.remove(one)
                return one[0], one[2]
        for one in self.owed:
            one[1] -= 1
        return None


NATIVES = {"counter": Counter, "line": Line, "delay": Delay}


class World:
    """A run. `events` are the timed lines of a script, as (time, words). A place that asks for memory is refused if its number is in `refused`,
    counted with those of guards."""

    def __init__(self, program, events=(), natives=(), limit=1000000, most=20000):
        self.program, self.events, self.limit, self.most = program, list(events), limit, most
        self.natives = [NATIVES[name]() for name in natives]
        self.lines, self.clock, self.dispatches, self.has_stopped, self.root = [], 0, 0, False, None
        self.count = self.messages = self.timings = self.statements = 0
        self.enlisted, self.held, self.clients, self.polled = [], [], {}, set()
        # the innermost trap: what was held as it began, and its number; and under which the service has taken its message
        self.trap, self.traps, self.taken_under = (0, 0), 0, None
        # places that ask for memory: whether it is one of the source or one where a guard may be, and how many lines are written there
        self.refused, self.places, self.changes, self.seen = set(), [], 0, -1

    def write(self, line):
        self.changes += 1
        self.lines.append(line)

    def spend(self):
        self.statements += 1
        if self.statements > self.most:
            raise TooLong("too many statements")

    # memory

    def asks(self, is_full=False):
        """A request for memory that the source says. Whether it is refused."""
        self.changes += 1
        self.places.append((True, len(self.lines)))
        return len(self.places) in self.refused or is_full

    def may_guard(self):
        """Here a guard may ask for memory, which leaves where it is refused; but not while a message would be lost by that."""
        if self.changes != self.seen and not self.holds_message():
            self.seen = self.changes
            self.places.append((False, len(self.lines)))
            if len(self.places) in self.refused:
                raise Left(NO_MEMORY)

    def holds_message(self):
        """Whether something since the innermost trap holds a message, or the service has taken its own."""
        return self.trap == self.taken_under or any(isinstance(getattr(it, "value", None), Message) for it in self.held[self.trap[0] :])

    # requests

    def enlist(self, thing, priority):
        self.changes += 1
        thing.phase, thing.status, thing.priority = "idle", 0, priority
        self.enlisted.append(thing)

    def after(self, thing, time):
        self.changes += 1
        self.timings += 1
        thing.phase, thing.status, thing.due, thing.is_timed = "active", PENDING, self.clock + max(time, 0), self.timings

    def resume(self, thing, code):
        self.changes += 1
        thing.phase = "active"
        thing.complete(code)

    def native_of(self, thing):
        return self.natives[thing.cls.native]

    def request(self, thing, function, word):
        self.changes += 1
        native = self.native_of(thing)
        thing.phase, thing.status = "active", PENDING
        answer = GONE if native is None else NOT_FOUND if not thing.has_session else native.start(thing, function, word)
        if answer < 0:
            thing.complete(answer)

    def connect(self, thing):
        self.changes += 1
        if self.native_of(thing) is None:
            return NOT_FOUND
        thing.has_session = True
        return 0

    def ask(self, thing, function, word):
        self.changes += 1
        native = self.native_of(thing)
        return GONE if native is None else NOT_FOUND if not thing.has_session else native.call(function, word)

    def hand(self, thing):
        """A token, or none where there is no place for a message."""
        self.changes += 1
        thing.phase = "active"
        if self.messages >= self.program.messages:
            thing.complete(BUSY)
            return None
        self.messages += 1
        thing.status, thing.token = PENDING, Message(of=thing)
        return thing.token

    def abort(self, thing):
        self.changes += 1
        if thing.status == PENDING:
            if thing.cls.kind == "native" and self.native_of(thing):
                self.native_of(thing).cancel(thing)
            thing.complete(CANCELLED)

    # messages

    def reply(self, message, code):
        self.changes += 1
        self.messages -= 1
        if message.of:
            if message.of.token is message:
                message.of.complete(code)
            return
        client = self.clients[message.client]
        if message.has_slot:
            client.used -= 1
        if not message.is_discarded:
            client.held = [it for it in client.held if it is not message]
        self.write(f"{'discard' if message.is_discarded else 'reply'} {message.client} {code}")

    def client(self, number):
        return self.clients.setdefault(number, Client(number))

    def command(self, words):
        """A client does something."""
        client = self.client(int(words[1]))
        code = getattr(self, "client_" + words[0])(client, words[2:])
        if code:
            self.write(f"refuse {client.number} {code}")

    def client_connect(self, client, words):
        if client.state not in ("unconnected", "gone"):
            return REFUSED[client.state]
        server = next((it for it in self.enlisted if it.cls.name == words[0]), None)
        if server is None:
            return NOT_FOUND
        if len(server.sessions) + sum(one[0] == "connect" for one in server.queue) >= server.cls.most:
            return BUSY
        client.state, client.server, client.slots, client.used = "connecting", server, int(words[1]), 0
        server.queue.append(("connect", client, None))
        return 0

    def client_send(self, client, words):
        if client.state != "open":
            return {"unconnected": NOT_FOUND, "gone": GONE}.get(client.state) or REFUSED[client.state]
        if client.used >= client.slots or self.messages >= self.program.messages:
            return BUSY
        self.messages += 1
        client.used += 1
        client.server.queue.append(("message", client, Message(client.number, [int(word) for word in words])))
        return 0

    def client_close(self, client, _words):
        return self.client_ends(client, {"connecting": "unconnected", "open": "closing", "gone": "unconnected"})

    def client_die(self, client, _words):
        ends = {"unconnected": "dead", "connecting": "dead", "gone": "dead", "open": "dying", "closing": "dying"}
        return self.client_ends(client, ends)

    def client_ends(self, client, ends):
        """A client closes or dies: its messages leave the queue, and those that are held are for nobody."""
        if client.state not in ends:
            return 0
        if client.state in ("connecting", "open"):
            queue = client.server.queue
            self.messages -= sum(one[0] == "message" and one[1] is client for one in queue)
            queue[:] = [one for one in queue if one[1] is not client]
            if client.state == "open":
                queue.append(("close", client, None))
        for message in client.held:
            message.is_discarded, message.has_slot = True, False
        client.held = []
        client.state = ends[client.state]
        return 0

    def server_goes(self, server):
        for kind, client, message in server.queue:
            if kind != "close":
                self.write(f"reply {client.number} {GONE}")
                self.messages -= kind == "message"
        server.queue = []
        ends = {"open": "gone", "closing": "unconnected", "dying": "dead", "connecting": "unconnected"}
        for client in self.clients.values():
            if client.server is server:
                client.state, client.server = ends.get(client.state, client.state), None
                for message in client.held:
                    message.has_slot = False

    # turns

    def run(self):
        """The lines of a run."""
        self.write("@0 main")
        try:
            self.main()
        except Left as left:
            self.write(f"leave {left.code}")
            return self.end(f"left {left.code}")
        self.clock += 1
        ending = None
        while ending is None:
            ending = self.destroyed_root() if self.has_stopped else self.turn()
        return self.end(ending)

    def end(self, words):
        self.write(f"end {words} cells {self.count}")
        return self.lines

    def destroyed_root(self):
        root, self.root = self.root, None
        self.destroy(root)
        return "stopped"

    def turn(self):
        """One turn: its ending, if the run ends with it."""
        if self.dispatches >= self.limit:
            return "limit"
        timed = [it for it in self.enlisted if it.due is not None]
        due = min((it for it in timed if it.due <= self.clock), key=lambda it: (it.due, it.is_timed), default=None)
        if due:
            due.complete(0)
        elif self.events and self.events[0][0] <= self.clock:
            self.event(self.events.pop(0)[1])
        elif number := next((at + 1 for at, it in enumerate(self.natives) if it and at not in self.polled), 0):
            self.poll(number - 1)
        elif ready := [it for it in self.enlisted if it.is_ready()]:
            return self.dispatch(max(ready, key=lambda it: it.priority))
        elif timed or self.events:
            times = [it.due for it in timed] + [time for time, _ in self.events[:1]]
            self.clock = max(self.clock, min(times))
            self.polled = set()
        else:
            return "waiting"
        return None

    def poll(self, number):
        self.polled.add(number)
        if answer := self.natives[number].poll():
            answer[0].complete(answer[1])

    def event(self, words):
        if words[0] == "event":
            native = self.native_at(int(words[1]))
            if native:
                native.event(int(words[2]))
        elif words[0] == "kill":
            self.kill(int(words[1]))
        else:
            self.command(words)

    def native_at(self, number):
        return self.natives[number] if number < len(self.natives) else None

    def kill(self, number):
        native = self.native_at(number)
        if native is None:
            return
        self.write(f"killed {number}")
        for one in native.owed:
            one[0].complete(GONE)
        self.natives[number] = None
        for it in self.enlisted:
            if it.cls.kind == "native" and it.cls.native == number:
                it.has_session = False

    def dispatch(self, thing):
        """Its ending, if the run ends with it."""
        self.polled = set()
        answer = self.serve(thing) if thing.queue else self.run_object(thing)
        self.clock += 1
        self.dispatches += 1
        return f"error {answer}" if answer else None

    def run_object(self, thing):
        self.write(f"@{self.clock} run {thing.cls.name} {thing.status}")
        thing.phase = "idle"
        try:
            self.call_role(thing, "run", [])
        except Left as left:
            self.write(f"leave {left.code}")
            error = thing.cls.role("error")
            return self.call_role(thing, "error", [left.code]) if error else left.code
        return 0

    def serve(self, server):
        kind, client, message = server.queue.pop(0)
        self.write(f"@{self.clock} serve {server.cls.name} {kind} {client.number}")
        getattr(self, "serve_" + kind)(server, client, message)
        return 0

    def serve_connect(self, server, client, _message):
        code = 0
        try:
            session = self.call_role(server, "accept", [])
            server.sessions.append(session)
            client.state, client.session = "open", session
        except Left as left:
            self.write(f"leave {left.code}")
            code, client.state, client.server = left.code, "unconnected", None
        self.write(f"reply {client.number} {code}")

    def serve_message(self, _server, client, message):
        self.served = message
        client.held.append(message)
        try:
            self.call_role(client.session, "service", message.words)
        except Left as left:
            self.write(f"leave {left.code}")
            self.reply(message, left.code)

    def serve_close(self, server, client, _message):
        server.sessions.remove(client.session)
        session, client.session = client.session, None
        self.destroy(session)
        client.state, client.server = ("dead" if client.state == "dying" else "unconnected"), None
