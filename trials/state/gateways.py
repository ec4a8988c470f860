"""Gateways that log users in and report on them, ask again where no reply comes, and keep books of every request and reply.

All of them are in this process, which sends, receives and waits in turn (`Load.run`). What a gateway does for one user is a generator: it
gives each request that it asks, and gets it back, with its first reply if one came.
"""

import collections
import hashlib
import heapq
import hmac
import itertools
import select
import socket
import time
from typing import NamedTuple

from serving import SECRET, access_request, accounting_request, attribute, attributes_of, chap_request, judge

AUTH, ACCT = 0, 1  # the server's ports, as the journal numbers them
ACCEPT, REJECT, RESPONSE, CHALLENGE = 2, 3, 5, 11
START, STOP, INTERIM, ON = 1, 2, 3, 7

RESEND = 0.3  # seconds that a gateway waits for a reply before it asks again
LAST = 0.5  # seconds before the end of the window from which on it doesn't ask a log-in again
REPEATS = 0.4  # how many of the requests that have a reply are asked again all the same, as if it had been lost
WRONG = 0.1  # how many passwords and answers are wrong
PATIENCE = 60  # seconds in which all that is asked must be answered once no server is killed


class User(NamedTuple):
    """A user of the configuration."""

    name: str
    sessions: int = 1
    has_address: bool = True
    is_challenged: bool = False


class About(NamedTuple):
    """What a request is about: the user of a log-in, the challenge of an answer, the number of the session of a report."""

    status: int = 0
    user: User = None
    challenge: "Asked" = None
    is_wrong: bool = False
    number: int = 0


class Reply(NamedTuple):
    """A reply, when it was read, and in which life of the server."""

    octets: bytes
    moment: float
    life: int


class Asked:
    """A request, what it is about, when it was first sent, and each reply to it."""

    def __init__(self, gateway, door, about, client, request):
        self.gateway, self.door, self.about, self.client, self.request = gateway, door, about, client, request
        self.source = client.getsockname()
        self.first = time.monotonic()
        self.replies = []
        self.is_over = False  # whether nobody waits for a reply any more

    @property
    def reply(self):
        """The octets of the first reply, if there is one."""
        return self.replies[0].octets if self.replies else b""

    @property
    def code(self):
        return self.reply[0] if self.replies else None

    @property
    def text(self):
        return attribute(self.reply, 18)


class Ask(NamedTuple):
    """A request to ask: what makes it, given the Identifier."""

    door: int
    about: About
    make: object


class Wait(NamedTuple):
    seconds: float


class Visit(NamedTuple):
    """What a gateway does for one user, until the gateway starts anew."""

    gateway: "Gateway"
    boot: int
    steps: object


def is_reply_to(reply, request):
    """Whether a reply has the Identifier of a request and the right Response Authenticator (RFC 2865, section 3)."""
    right = hashlib.md5(reply[:4] + request[4:20] + reply[20:] + SECRET).digest()
    return reply[1] == request[1] and reply[4:20] == right


def without_sums(reply):
    """The Code and the attributes, as they are before a reply gets its digests."""
    attributes = reply[20:]
    if attributes[:2] == b"\x50\x12":
        attributes = attributes[:2] + bytes(16) + attributes[18:]
    return reply[:1] + attributes


def is_signed(reply, request):
    """Whether a reply begins with its right Message-Authenticator (RFC 3579, section 3.2)."""
    bare = reply[:4] + request[4:20] + without_sums(reply)[1:]
    return reply[20:22] == b"\x50\x12" and reply[22:38] == hmac.new(SECRET, bare, hashlib.md5).digest()


class Gateway:
    """An access server of this address. One that `names_address` reports by Framed-IP-Address and User-Name, others by Class."""

    def __init__(self, load, address, names_address=False):
        self.load, self.address, self.names_address = load, address, names_address
        self.boot = 0
        self.visitors = []
        self.free = (collections.deque(), collections.deque())  # sockets and Identifiers of each port, and when they may be used

    def slot(self, door):
        """A socket and an Identifier that no request to this port had for two windows."""
        free = self.free[door]
        if not free or free[0][0] > time.monotonic():
            client = self.load.client_of(self)
            for slots in self.free:
                slots.extendleft((0, client, identifier) for identifier in range(256))
        return free.popleft()[1:]

    def release(self, asked):
        moment = time.monotonic() + 2 * self.load.window
        self.free[asked.door].append((moment, asked.client, asked.request[1]))

    def begin(self):
        """Begins a visit of each visitor."""
        for user, stays in self.visitors:
            self.load.visit(self, visits(self.load, self, user, stays))

    def restarts(self):
        """Forgets all users after some seconds, says so by an Accounting-On, and begins anew."""
        yield Wait(self.load.random.uniform(2, 6))
        self.boot += 1
        self.load.forget(self)
        self.load.visit(self, self.begins_anew())

    def begins_anew(self):
        yield self.report(ON)
        self.begin()
        yield from self.restarts()

    def report(self, status, user=None, accept=b""):
        """A report, on the session that an Access-Accept granted if it isn't on the gateway itself."""
        session = attribute(accept, 25)
        about = About(status, user, number=int.from_bytes(session[4:], "big"))
        rest = attributes_of((44, b"%d" % next(self.load.count)))
        if self.names_address and accept:
            rest += attributes_of((1, user.name.encode()), (8, attribute(accept, 8)))
            session = b""
        return Ask(ACCT, about, lambda identifier: accounting_request(identifier, status, session, rest))


class Load:
    """Gateways, what they are about to do, and the books."""

    def __init__(self, random, window):
        self.random, self.window = random, window
        self.count = itertools.count(1)
        self.books = []
        self.waiting = set()  # requests without a reply
        self.by_slot = {}  # the requests of a socket, a port and an Identifier, the last one last
        self.timers = []
        self.clients = {}
        self.poll = select.epoll()
        self.ports, self.life, self.is_ending = (0, 0), 0, False

    def client_of(self, gateway):
        client = socket.socket(socket.AF_INET, socket.SOCK_DGRAM)
        client.bind((gateway.address, 0))
        client.setblocking(False)
        self.clients[client.fileno()] = client
        self.poll.register(client, select.EPOLLIN)
        return client

    def turn_to(self, server):
        """Asks this server from now on, a new life of the one before, whose last replies are read first."""
        self.read_all()
        self.ports = (server.auth, server.acct)
        self.life += 1

    # ---- time

    def after(self, seconds, act):
        heapq.heappush(self.timers, (time.monotonic() + seconds, next(self.count), act))

    def run(self, seconds, is_done=lambda: False):
        """Sends, receives and waits for so long, or until it is done."""
        until = time.monotonic() + seconds
        while (now := time.monotonic()) < until and not is_done():
            while self.timers and self.timers[0][0] <= now:
                heapq.heappop(self.timers)[2]()
            due = min(until, self.timers[0][0]) if self.timers else until
            self.receive(max(0, due - time.monotonic()))

    def receive(self, seconds=0):
        """Receives what waits, or what comes first within this time, and says whether anything did."""
        ready = self.poll.poll(seconds)
        for number, _ in ready:
            client = self.clients[number]
            for _ in range(256):
                try:
                    reply, source = client.recvfrom(4096)
                except BlockingIOError:
                    break
                judge(source[1] in self.ports, f"a reply comes from a port of the server: {source}")
                self.enter(client, self.ports.index(source[1]), reply)
        return bool(ready)

    def read_all(self):
        """Receives until nothing waits."""
        while self.receive():
            pass

    def end(self):
        """Lets each begun request be answered, and begins nothing new."""
        self.is_ending = True
        self.run(PATIENCE, lambda: not self.waiting)
        judge(not self.waiting, f"all requests are answered once no server is killed: {len(self.waiting)} aren't")

    # ---- visits

    def visit(self, gateway, steps):
        self.go_on(Visit(gateway, gateway.boot, steps))

    def go_on(self, visit, value=None):
        if visit.boot != visit.gateway.boot:
            return
        try:
            step = visit.steps.send(value)
        except StopIteration:
            return
        if isinstance(step, Ask):
            self.ask(visit, step)
        elif not self.is_ending:
            self.after(step.seconds, lambda: self.is_ending or self.go_on(visit))

    def forget(self, gateway):
        """Waits for no reply to this gateway any more."""
        for asked in [asked for asked in self.waiting if asked.gateway is gateway]:
            self.settle(asked)

    def ask_all(self, gateway, steps):
        """These requests of a gateway, all asked at once, with their replies."""
        begun = len(self.books)
        for step in steps:
            self.visit(gateway, visit_once(step))
        self.run(PATIENCE, lambda: not self.waiting)
        judge(not self.waiting, f"what is asked is answered: {len(self.waiting)} requests aren't")
        return self.books[begun:]

    def ask_again(self, asked):
        """Asks these requests again, some at a time, until each has another reply."""
        for begin in range(0, len(asked), 64):
            part = {one: len(one.replies) for one in asked[begin : begin + 64]}
            for _ in range(100):
                for one in part:
                    self.put(one)
                self.run(RESEND, lambda: all(len(one.replies) > count for one, count in part.items()))
                part = {one: count for one, count in part.items() if len(one.replies) == count}
                if not part:
                    break
            judge(not part, f"what is asked again is answered: {len(part)} requests aren't")

    # ---- requests

    def ask(self, visit, step):
        client, identifier = visit.gateway.slot(step.door)
        asked = Asked(visit.gateway, step.door, step.about, client, step.make(identifier))
        asked.visit = visit
        self.books.append(asked)
        self.by_slot.setdefault((client.fileno(), step.door, identifier), []).append(asked)
        self.waiting.add(asked)
        self.send(asked)

    def send(self, asked):
        """Sends a request until it has a reply, or until it is too late for that."""
        if asked.is_over:
            return
        if asked.door == AUTH and time.monotonic() > asked.first + self.window - LAST:
            self.settle(asked)
            self.go_on(asked.visit, asked)
            return
        self.put(asked)
        self.after(RESEND, lambda: self.send(asked))

    def put(self, asked):
        try:
            asked.client.sendto(asked.request, ("127.0.0.1", self.ports[asked.door]))
        except BlockingIOError:
            pass  # It is lost, as others may be.

    def settle(self, asked):
        asked.is_over = True
        self.waiting.discard(asked)
        asked.gateway.release(asked)

    def enter(self, client, door, reply):
        """Enters a reply into the books."""
        found = self.by_slot.get((client.fileno(), door, reply[1]), [])
        asked = next((asked for asked in reversed(found) if is_reply_to(reply, asked.request)), None)
        judge(asked is not None, f"a reply is one to a request: {reply.hex()}")
        judge(door == ACCT or is_signed(reply, asked.request), f"a reply has its Message-Authenticator: {reply.hex()}")
        asked.replies.append(Reply(reply, time.monotonic(), self.life))
        if asked.is_over:
            return
        self.settle(asked)
        self.repeat(asked)
        self.go_on(asked.visit, asked)

    def repeat(self, asked):
        """Asks some requests again, later in the window. A Stop by address that came after it could mean a later session."""
        left = asked.first + self.window - LAST - time.monotonic()
        names_address = asked.gateway.names_address and asked.door == ACCT
        if left > 0 and not names_address and self.random.random() < REPEATS:
            self.after(self.random.uniform(0, left), lambda: self.put_again(asked))

    def put_again(self, asked):
        if time.monotonic() < asked.first + self.window - LAST and asked.visit.boot == asked.gateway.boot:
            self.put(asked)


def visit_once(step):
    """A visit of one request."""
    yield step


# ---- what is done for a user


def log_in(load, user, state=b"", password=b"pw"):
    """A log-in, or an answer to the challenge of this State."""
    wrong = load.random.random() < WRONG
    authenticator, name, said = load.random.randbytes(16), user.name.encode(), b"no" if wrong else password
    if not state and load.random.random() < 0.5:
        return wrong, lambda identifier: chap_request(identifier, name, said, authenticator)
    rest = attributes_of((24, state)) if state else b""
    return wrong, lambda identifier: access_request(identifier, name, said, authenticator, rest)


def logged_in(load, user):
    """Asks a log-in, and the answer if it is challenged. After a wrong answer a right one comes too late."""
    wrong, make = log_in(load, user)
    asked = yield Ask(AUTH, About(user=user, is_wrong=wrong), make)
    if asked.code != CHALLENGE:
        return asked
    state, challenge, is_used = attribute(asked.reply, 24), asked, False
    while True:
        yield Wait(load.random.uniform(0, 1))
        wrong, make = log_in(load, user, state, b"4711")
        asked = yield Ask(AUTH, About(user=user, challenge=challenge, is_wrong=wrong or is_used), make)
        if is_used:
            judge(asked.text in (b"state unknown", b""), f"a State is good for one answer: {asked.text}")
        if is_used or not wrong or asked.code != REJECT:
            return asked
        is_used = True


def visits(load, gateway, user, stays):
    """Log-ins of a user, one after the other, each with its reports. One who stays never leaves."""
    while True:
        yield Wait(load.random.uniform(0, 1 if stays else 2))
        accept = (yield from logged_in(load, user)).reply
        if accept[:1] != bytes([ACCEPT]):
            continue
        yield gateway.report(START, user, accept)
        while stays or load.random.random() < 0.5:
            yield Wait(load.random.uniform(0.3, 1.5))
            yield gateway.report(INTERIM, user, accept)
        yield gateway.report(STOP, user, accept)
