"""The transcript of a generation, which `radpool replay --state` prints: what it has, how it is replayed, and which have none."""

import contextlib
import os
import shutil
import signal
import socket
import sqlite3
import subprocess
from typing import NamedTuple

import serving
from books import rows_in, rows_of
from gateways import ACCEPT, ACCT, AUTH, CHALLENGE, INTERIM, REJECT, RESPONSE, START, STOP, is_reply_to, without_sums
from serving import CONFIGURATION, access_request, accounting_request, attribute, attributes_of, chap_request, judge, status_server
from states import ended, file_of, folder, generations, living, newest, sums

# The clients are a network, and the last line has no end.
TEXT = CONFIGURATION.replace("window = 1\nhold = 4\n", "window = 600\nhold = 600\n").replace("127.0.0.1", "127.0.0.0/8") + "# café"
DIVIDED = TEXT + '\n[[user]]\nname = "eve"\npassword = "pw"\nmessage = """\n---\n"""\n'
SNAPSHOT = "# This generation begins with a snapshot, which no transcript has: a replay may answer otherwise."
PADDING = b"\0padding"  # octets of a datagram past the request's Length
EMPTY_LOG = 41  # octets of a log without frames


class Exchange(NamedTuple):
    """A request that got a new reply: the port that was asked, the socket that it came from, and the reply."""

    door: int
    client: socket.socket
    request: bytes
    reply: bytes


class Talk:
    """What two clients ask of the servers of a state, and the exchanges that the state must have."""

    def __init__(self, state, clients):
        self.state, self.clients, self.exchanges, self.server = state, clients, [], None

    def ask(self, door, request, client, rest=b""):
        """The reply to a request."""
        address = ("127.0.0.1", (self.server.auth, self.server.acct)[door])
        client.sendto(request + rest, address)
        while True:
            reply, source = client.recvfrom(4096)
            if source == address and is_reply_to(reply, request):
                return reply

    def new(self, code, door, request, client=0, rest=b""):
        """The new reply to a request, which has this Code."""
        reply = self.ask(door, request, self.clients[client], rest)
        judge(reply[0] == code, f"the reply has the Code {code}: {reply.hex()}")
        self.exchanges.append(Exchange(door, self.clients[client], request, reply))
        return reply

    def repeat_all(self):
        """Judges that each request gets its reply again."""
        for exchange in self.exchanges:
            again = self.ask(exchange.door, exchange.request, exchange.client)
            judge(again == exchange.reply, f"a repeat gets the reply again: {again.hex()}, not {exchange.reply.hex()}")

    def unkept(self):
        """Asks what isn't kept: two Status-Servers, and what is discarded."""
        judge(self.ask(AUTH, status_server(90), self.clients[0])[0] == ACCEPT, "a Status-Server gets a reply")
        judge(self.ask(ACCT, status_server(91), self.clients[1])[0] == RESPONSE, "a Status-Server gets a reply")
        for octets in (b"", accounting_request(92)[:-1], accounting_request(93)[:-1] + b"\0"):
            self.clients[0].sendto(octets, ("127.0.0.1", self.server.acct))


@contextlib.contextmanager
def talking(state):
    """A talk over two sockets of different addresses."""
    with contextlib.ExitStack() as stack:
        clients = [stack.enter_context(socket.socket(type=socket.SOCK_DGRAM)) for _ in range(2)]
        for client, address in zip(clients, ("127.0.0.1", "127.1.2.3")):
            client.bind((address, 0))
            client.settimeout(10)
        yield Talk(state, clients)


# ---- what is asked


def first_life(talk):
    """Requests of each kind, and repeats. Returns the State of a challenge, which isn't answered yet."""
    accept = talk.new(ACCEPT, AUTH, access_request(1, b"ann"))
    talk.new(RESPONSE, ACCT, accounting_request(1, START, attribute(accept, 25)), 1)
    talk.repeat_all()
    talk.new(REJECT, AUTH, access_request(2, b"bo"), 1, PADDING)
    talk.new(REJECT, AUTH, access_request(3, b"dee", b"wrong"))
    challenge = talk.new(CHALLENGE, AUTH, access_request(4), 1)
    talk.unkept()
    talk.new(RESPONSE, ACCT, accounting_request(1, INTERIM, attribute(accept, 25)), rest=PADDING)
    talk.repeat_all()
    return attribute(challenge, 24)


def second_life(talk):
    """Requests whose replies rest on what was kept of the first life."""
    accept = talk.exchanges[0].reply
    talk.unkept()
    talk.repeat_all()
    talk.new(REJECT, AUTH, access_request(5, b"ann"))
    talk.new(RESPONSE, ACCT, accounting_request(2, STOP, attribute(accept, 25)), 1)
    judge(talk.new(ACCEPT, AUTH, chap_request(6, b"dee"), 1)[-1] == 2, "the second session has the number 2")
    # The session that ended keeps its address for the window.
    talk.new(REJECT, AUTH, access_request(7, b"cy"))
    talk.repeat_all()


# ---- the transcript


def replay(words=(), text=b"", out=subprocess.PIPE):
    """What a replay of a transcript comes to, or, by the words, the transcript of a state."""
    return subprocess.run([serving.RADPOOL, "replay", *words], input=text, stdout=out, stderr=subprocess.PIPE, timeout=60)


def dotted(address):
    return socket.inet_ntoa(address.to_bytes(4, "big"))


def transcript_of(state, number):
    ran = replay(["--state", file_of(state, number)])
    judge((ran.returncode, ran.stderr) == (0, b""), f"a generation has a transcript: {ran.returncode} {ran.stderr}")
    return ran.stdout


def contents(state):
    """What the files of a folder have, but for the salts of a log without frames: whoever opens it draws them anew."""
    return {name: EMPTY_LOG if found[0] == EMPTY_LOG else found for name, found in sums(state).items()}


def lines_of(state, number):
    """What a generation's transcript has before its lines, and these, which must be those of its rows. The files stay as they are."""
    before = contents(state)
    head, _, text = transcript_of(state, number).partition(b"\n---\n")
    after = contents(state)
    judge(after == before, f"the files of a state whose transcript was printed are as they were: {after}, not {before}")
    lines = text.decode().splitlines()
    copy = copied(state, number)
    if begins_with_some(copy):
        judge(lines[:1] == [SNAPSHOT], f"a transcript says that a generation begins with a snapshot: {lines[:1]}")
        lines = lines[1:]
    rows = rows_in(copy)
    wanted = [f"{row[2]} {('auth', 'acct')[row[5]]} {dotted(row[3])}:{row[4]} {row[7].hex()}{draw_in(row)}" for row in rows]
    judge(lines == wanted, f"a transcript has a line for each row: {len(lines)} lines, {len(rows)} rows")
    return head, lines, rows


def draw_in(row):
    """What the line of a row has after the request: the draw of an Access-Challenge, and nothing of another reply."""
    return f" {row[6].hex()}" if row[8][0] == CHALLENGE else ""


def begins_with_some(name):
    """Whether the generation in a copy of a file begins with sessions, replies or challenges, or after some."""
    with contextlib.closing(sqlite3.connect(name)) as database:
        return any(database.execute("SELECT session, challenge, (SELECT count(*) FROM reply) FROM snapshot").fetchone())


def copied(state, number):
    """The path of a copy of a generation's file and log."""
    copy = folder("copy")
    for name in os.listdir(state):
        if name.startswith(f"generation-{number}.db"):
            shutil.copy(os.path.join(state, name), copy)
    return file_of(copy, number)


def judge_transcript(talk):
    """Judges that the transcripts of a state have each exchange and no other one, in order. Returns the text of all together."""
    lines, rows = [], rows_of(talk.state)
    for number in generations(talk.state):
        head, more, _ = lines_of(talk.state, number)
        judge(head == TEXT.encode(), f"a transcript begins with the configuration: {head}")
        lines.extend(more)
    judge(len(lines) == len(talk.exchanges), f"each exchange is kept once: {len(lines)} lines, {len(talk.exchanges)} exchanges")
    for exchange, line, row in zip(talk.exchanges, lines, rows):
        address, port = exchange.client.getsockname()
        wanted = f"{('auth', 'acct')[exchange.door]} {address}:{port} {exchange.request.hex()}{draw_in(row)}"
        judge(line.partition(" ")[2] == wanted, f"a line has what the client sent: {line}, not {wanted}")
        judge(row[8] == without_sums(exchange.reply), f"a row has what the client got: {row}, not {exchange.reply.hex()}")
    return b"\n".join((head, b"---", *(line.encode() for line in lines), b""))


def judge_replayed(talk, transcript):
    """Judges that a replay of a transcript gives what each client got."""
    ran = replay(text=transcript)
    judge((ran.returncode, ran.stderr) == (0, b""), f"the transcript can be replayed: {ran.returncode} {ran.stderr}")
    lines = ran.stdout.decode().splitlines()
    judge(len(lines) == len(talk.exchanges), f"a replay answers each line: {lines}")
    for number, (exchange, line) in enumerate(zip(talk.exchanges, lines), 1):
        begin, _, octets = line.rpartition(" ")
        judge(begin == f"{number} reply", f"a line of a replay is a reply: {line}")
        judge(octets == exchange.reply.hex(), f"a replay gives what the client got: {octets}, not {exchange.reply.hex()}")


def answered_life(talk, given):
    """The answer to the challenge of the first life, with its State."""
    talk.new(ACCEPT, AUTH, access_request(8, b"kay", b"4711", rest=attributes_of((24, given))), 1)


def transcripts():
    """Transcripts of a state after each of its lives, their replays, and states that have none."""
    with talking(folder("transcripts")) as talk:
        with living(talk.state, configuration=TEXT) as talk.server:
            judge_used(talk.state)
            given = first_life(talk)
            judge_used(talk.state)
            ended(talk.server, signal.SIGTERM)
        judge_replayed(talk, judge_transcript(talk))
        with living(talk.state, configuration=TEXT) as talk.server:
            second_life(talk)
            ended(talk.server)
        judge_replayed(talk, judge_transcript(talk))
        with living(talk.state, configuration=TEXT) as talk.server:
            answered_life(talk, given)
            ended(talk.server)
        judge_replayed(talk, judge_transcript(talk))
        with open("/dev/full", "wb") as full:
            ran = replay(["--state", newest(talk.state)], out=full)
        judge((ran.returncode, ran.stderr) == (1, b"radpool: write failed\n"), f"a transcript can't be written: {ran}")
        print(f"transcripts: the {len(talk.exchanges)} entries of a state, with what the clients sent; a replay answers as the servers did")
    without()


# ---- states that have none


def has_no_transcript(state, text, of=sums):
    """Judges that a state has no transcript, for this reason, and that its files stay as they are."""
    before = of(state)
    ran = replay(["--state", newest(state)])
    said = f"radpool: {newest(state)}: {text}\n"
    judge((ran.returncode, ran.stderr) == (1, said.encode()), f"there is no transcript, it says {said}: {ran}")
    judge(ran.stdout == b"", f"nothing is printed where it says {text}: {ran.stdout}")
    after = of(state)
    judge(after == before, f"nothing is changed where there is no transcript, and it says {text}: {after}, not {before}")


def judge_used(state):
    """Judges that a state that a server uses has no transcript."""
    has_no_transcript(state, "another process uses the state")


def without():
    """A folder without a state, one with an empty file, a file in its place, and a configuration that can't be in a transcript."""
    has_no_transcript(folder("without"), "No such file or directory (os error 2)")
    state = folder("without")
    with open(newest(state), "w"):
        pass
    has_no_transcript(state, "it is no state, or it is damaged")
    state = folder("without")
    os.mkdir(newest(state))
    has_no_transcript(state, "Is a directory (os error 21)", of=os.listdir)
    state = folder("without")
    with living(state, configuration=DIVIDED) as server:
        server.answers("with a divider in its configuration")
        ended(server)
    has_no_transcript(state, "its configuration has a line ---, so it has no transcript")
    print("transcripts: none where there is no state, or none that could be read")
