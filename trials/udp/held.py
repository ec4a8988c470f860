"""Sockets that outlive `radpool serve`, which this trial holds and gives to each life, as systemd does with those of a socket unit."""

import contextlib
import fcntl
import hashlib
import hmac
import os
import random
import select
import socket
import struct
import time

from serving import SECRET, Server, attribute, first_line, judge, serving, start

FIRST = 3  # the first descriptor that a process is given
ROOM = 4_000_000  # octets of datagrams that a socket is to hold
LIVES = 8
SHORTEST, LONGEST = 0.05, 0.3  # seconds that a life serves
AWAY = 0.1  # seconds that none serves, at least
STEP = 0.002  # seconds from one request to the next
TURN = 512  # datagrams of a turn at most
LOOPBACK = "127.0.0.1"


@contextlib.contextmanager
def bound(*addresses, kind=socket.SOCK_DGRAM, family=socket.AF_INET):
    """Sockets that are bound to these addresses, each to a free port, with room for what arrives while no process reads it."""
    with contextlib.ExitStack() as stack:
        made = [stack.enter_context(socket.socket(family, kind)) for _ in addresses]
        for one, address in zip(made, addresses):
            one.setsockopt(socket.SOL_SOCKET, socket.SO_RCVBUF, ROOM)
            one.bind((address, 0))
        yield made


def given(sockets, count=None, to=None):
    """What gives a process that begins these sockets, perhaps another count of them than there are, or to another process."""

    def give():
        # Above those that the process is given, so that none is closed too early.
        copies = [fcntl.fcntl(one, fcntl.F_DUPFD_CLOEXEC, 100) for one in sockets]
        for number, copy in enumerate(copies, FIRST):
            os.dup2(copy, number)
        os.environ.update(LISTEN_PID=str(to or os.getpid()), LISTEN_FDS=str(len(sockets) if count is None else count))

    return {"preexec_fn": give, "close_fds": False}


# ---- lives over the same sockets


class Load:
    """A client that sends Status-Servers to two ports in turn, each once."""

    def __init__(self, client, ports):
        client.setblocking(False)
        self.client, self.ports = client, ports
        self.count, self.answered = 0, set()

    def send(self):
        """Sends one request, and reads the replies that have come."""
        self.client.sendto(numbered(self.count), (LOOPBACK, self.ports[self.count % 2]))
        self.count += 1
        time.sleep(STEP)
        self.read()

    def send_for(self, seconds):
        until = time.monotonic() + seconds
        while time.monotonic() < until:
            self.send()

    def send_until(self, is_so):
        """Sends until something is so, for half a minute at most."""
        until = time.monotonic() + 30
        while time.monotonic() < until and not is_so():
            self.send()

    def read(self):
        with contextlib.suppress(BlockingIOError):
            while True:
                reply, source = self.client.recvfrom(4096)
                number = int.from_bytes(attribute(reply, 33), "big")
                judge(source == (LOOPBACK, self.ports[number % 2]), f"a reply comes from the port that was asked: {source}")
                self.answered.add(number)

    def unanswered(self, begin=0, end=None):
        return set(range(begin, self.count if end is None else end)) - self.answered

    def read_all(self):
        """Reads replies until there is one to each request, or none comes for some seconds."""
        while self.unanswered() and select.select([self.client], [], [], 5)[0]:
            self.read()


def numbered(number):
    """A signed Status-Server with a number in a Proxy-State, which the reply repeats."""
    state = b"\x21\x06" + struct.pack(">I", number)
    begin = struct.pack(">BBH", 12, number % 256, 44) + bytes(16) + state + b"\x50\x12"
    return begin + hmac.new(SECRET, begin + bytes(16), hashlib.md5).digest()


def held():
    """Each request is answered that comes while no server runs, though it is sent once."""
    with bound(LOOPBACK, LOOPBACK) as sockets, socket.socket(socket.AF_INET, socket.SOCK_DGRAM) as client:
        client.setsockopt(socket.SOL_SOCKET, socket.SO_RCVBUF, ROOM)
        load = Load(client, [one.getsockname()[1] for one in sockets])
        ends, waited = [0], 0
        for _ in range(LIVES):
            load.send_for(AWAY)
            waited += one_life(load, sockets, ends[-1])
            ends.append(load.count)
        load.send_for(AWAY)
        with serving(**given(sockets)):
            load.read_all()
        judge_lost(load, ends)
        print(f"held sockets: {LIVES} lives are killed, and answer {waited} requests that came before them; of {load.count} that are sent "
              f"once, {len(load.unanswered())} get no reply, whose turns were under way")


def one_life(load, sockets, begin):
    """A life that answers what has come since an earlier one ended, and is killed. How many requests that was."""
    process = start(bytes(32), **given(sockets))
    try:
        load.send_until(lambda: select.select([process.stdout], [], [], 0)[0])
        server, end = Server(process), load.count
        judge([server.auth, server.acct] == load.ports, "it listens on the ports that it was given")
        load.send_until(lambda: not load.unanswered(begin, end))
        judge(not load.unanswered(begin, end), f"requests {begin} to {end} get their replies: {sorted(load.unanswered(begin, end))}")
        load.send_for(random.uniform(SHORTEST, LONGEST))
        return end - begin
    finally:
        process.kill()
        process.communicate()


def judge_lost(load, ends):
    """Judges that only requests of turns that were under way get no reply: of each life, at most a turn's, one after another at each port."""
    judge(not load.unanswered(ends[-1]), f"the last requests get their replies: {sorted(load.unanswered(ends[-1]))}")
    for begin, end in zip(ends, ends[1:]):
        lost = sorted(load.unanswered(begin, end))
        judge(len(lost) <= TURN, f"at most a turn of requests {begin} to {end} gets no reply: {lost}")
        for port in (0, 1):
            row = [number for number in lost if number % 2 == port]
            judge(not row or row == [*range(row[0], row[-1] + 1, 2)], f"these were received one after another: {row}")


# ---- what isn't served


def judge_refused(what, sockets, text, words=(), auth="0", **options):
    process = start(bytes(32), words, auth, **given(sockets, **options))
    said = process.communicate(timeout=30)
    judge(said == ("", f"radpool: {text}\n") and process.returncode == 1, f"{what} is refused: {process.returncode} {said}")


def listens_on(words=(), auth="0", **options):
    """The ports on which a server listens."""
    process = start(bytes(32), words, auth, **options)
    try:
        return [*map(int, first_line(process).split()[2:])]
    finally:
        process.kill()
        process.communicate()


COUNT = "LISTEN_FDS isn't 2: a socket for authentication and one for accounting are expected"
OTHER = "descriptors 3 and 4 have another address or port than --bind, --auth or --acct"


def no_udp(descriptor):
    return f"descriptor {descriptor} is no UDP socket with an IPv4 address and a port"


def unfit():
    """What sockets are refused, and which aren't taken over."""
    with bound(LOOPBACK, LOOPBACK, LOOPBACK, "127.0.0.2") as (auth, acct, third, other):
        ports = [one.getsockname()[1] for one in (auth, acct)]
        for what, sockets, count in (("one", [auth], None), ("three", [auth, acct, third], None), ("none", [], 0), ("no number", [], "2x")):
            judge_refused(f"a count of {what}", sockets, COUNT, count=count)
        judge_refused("a count of more than there are", [auth], no_udp(4), count=2)
        judge_refused("another address of each", [auth, other], "descriptors 3 and 4 have different addresses")
        judge_refused("another address", [auth, acct], OTHER, ["--bind", "127.0.0.2"])
        judge_refused("another port", [auth, acct], OTHER, auth=str(ports[1]))
        with socket.socket(socket.AF_INET, socket.SOCK_DGRAM) as unbound:
            judge_refused("a socket without a port", [auth, unbound], no_udp(4))
        with bound(LOOPBACK, kind=socket.SOCK_STREAM) as (stream,):
            judge_kind("a TCP socket", stream, auth)
        if has_ipv6():
            with bound("::1", family=socket.AF_INET6) as (newer,):
                judge_kind("a UDP socket of IPv6", newer, auth)
        judge(listens_on(["--bind", LOOPBACK], str(ports[0]), **given([auth, acct])) == ports, "sockets that are as the options say are taken over")
        judge(not set(listens_on(**given([auth, acct], to=os.getpid()))) & set(ports), "sockets that are for another process aren't taken over")
    print(f"held sockets: {11 if has_ipv6() else 10} kinds are refused, and those for another process ignored")


def judge_kind(what, wrong, right):
    judge_refused(f"{what} for accounting", [right, wrong], no_udp(4))
    judge_refused(f"{what} for authentication", [wrong, right], no_udp(3))


def has_ipv6():
    with contextlib.suppress(OSError), bound("::1", family=socket.AF_INET6):
        return True
    return False


TRIALS = (held, unfit)
