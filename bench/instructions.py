#!/usr/bin/env python3
"""How many instructions `radpool serve` takes in user space for a request that comes alone, and for one of a turn of 256.

Run it by bench/run instructions. Callgrind counts, so the machine's load doesn't matter. The number for one request is what a run with
twice the requests takes more, divided by those that it has more: what the start takes falls out.
"""
import hashlib
import hmac
import os
import re
import signal
import socket
import struct
import subprocess
import sys

SECRET = b"xyzzy5461"
TURN = 256
ALONE = 200    # requests, one after the other
TURNS = 4

CONFIGURATION = """window = 30
hold = 86400
[[client]]
address = "127.0.0.1"
secret = "xyzzy5461"
[[pool]]
name = "hall"
first = "10.0.0.0"
last = "10.0.255.255"
[[user]]
name = "nemo"
password = "arctangent"
sessions = 4096
pool = "hall"
"""


def attribute(kind, value):
    return bytes([kind, len(value) + 2]) + value


def packet(code, identifier, authenticator, attributes):
    return struct.pack("!BBH", code, identifier, 20 + len(attributes)) + authenticator + attributes


def signed(code, identifier, number, attributes):
    """A request with a Message-Authenticator, which is its first attribute."""
    authenticator = struct.pack("!QQ", 7, number)
    blank = packet(code, identifier, authenticator, attribute(80, bytes(16)) + attributes)
    mac = hmac.new(SECRET, blank, "md5").digest()
    return packet(code, identifier, authenticator, attribute(80, mac) + attributes)


def status_server(identifier, number):
    return signed(12, identifier, number, b"")


def access_request(identifier, number):
    """As an access point sends one: NAS-IP-Address, NAS-Port, NAS-Port-Type, Calling-Station-Id and Called-Station-Id."""
    pad = hashlib.md5(SECRET + struct.pack("!QQ", 7, number)).digest()
    hidden = bytes(a ^ b for a, b in zip(b"arctangent".ljust(16, b"\0"), pad))
    others = (attribute(4, b"\x7f\0\0\1") + attribute(5, struct.pack("!I", number)) + attribute(61, struct.pack("!I", 19))
              + attribute(31, b"02-00-00-00-00-01") + attribute(30, b"02-00-00-00-00-02"))
    return signed(1, identifier, number, attribute(1, b"nemo") + attribute(2, hidden) + others)


def start(identifier, number, session):
    """A Start of the session with this Class."""
    attributes = (attribute(40, struct.pack("!I", 1)) + attribute(1, b"nemo") + attribute(44, struct.pack("!Q", number))
                  + attribute(25, session) + attribute(4, b"\x7f\0\0\1"))
    made = hashlib.md5(packet(4, identifier, bytes(16), attributes) + SECRET).digest()
    return packet(4, identifier, made, attributes)


def connected(port):
    made = socket.socket(socket.AF_INET, socket.SOCK_DGRAM)
    made.connect(("127.0.0.1", port))
    made.settimeout(20)
    return made


class Server:
    """`radpool serve` under callgrind."""

    def __init__(self, program, room):
        config, seed = f"{room}/config.toml", f"{room}/seed"
        with open(config, "w") as it:
            it.write(CONFIGURATION)
        with open(seed, "wb") as it:
            it.write(bytes(range(32)))
        words = ["valgrind", "--tool=callgrind", f"--callgrind-out-file={room}/callgrind.out", program, "serve"]
        words += ["--config", config, "--seed", seed, "--auth", "0", "--acct", "0"]
        self.process = subprocess.Popen(words, stdout=subprocess.PIPE, stderr=subprocess.PIPE, text=True)
        listening = self.process.stdout.readline().split()
        if not listening:
            sys.exit(f"radpool didn't start: {self.process.stderr.read()}")
        self.auth, self.acct = (connected(int(port)) for port in listening[-2:])

    def ask(self, port, requests):
        """Sends requests that the server then finds together, and returns their replies."""
        if len(requests) > 1:
            self.process.send_signal(signal.SIGSTOP)
            os.waitpid(self.process.pid, os.WUNTRACED)
        for request in requests:
            port.send(request)
        self.process.send_signal(signal.SIGCONT)
        return [port.recv(4096) for _ in requests]

    def end(self):
        """Ends it, and returns how many instructions it took."""
        self.process.send_signal(signal.SIGTERM)
        _, said = self.process.communicate()
        self.auth.close()
        self.acct.close()
        return int(re.search(r"Collected : (\d+)", said)[1])


def class_in(reply):
    at = 20
    while reply[at] != 25:
        at += reply[at + 1]
    return reply[at + 2 : at + reply[at + 1]]


def count(program, room, kind, together, times):
    """How many instructions a server takes that gets so many requests together, so many times."""
    server = Server(program, room)
    session = class_in(server.ask(server.auth, [access_request(0, 0)])[0])
    for time in range(times):
        numbers = range(1 + time * together, 1 + (time + 1) * together)
        if kind == "Start":
            replies = server.ask(server.acct, [start(it % 256, it, session) for it in numbers])
        else:
            request = status_server if kind == "Status-Server" else access_request
            replies = server.ask(server.auth, [request(it % 256, it) for it in numbers])
        if {it[0] for it in replies} != {5 if kind == "Start" else 2}:
            sys.exit(f"another reply to a {kind}")
    return server.end()


def main(program, room):
    print("| request | instructions of one alone | of one of 256 together | to that |\n|---|---|---|---|")
    for kind in ("Status-Server", "Access-Request", "Start"):
        each = []
        for together, times in ((1, ALONE), (TURN, TURNS)):
            more = count(program, room, kind, together, 2 * times) - count(program, room, kind, together, times)
            each.append(more / (together * times))
        print(f"| {kind} | {each[0]:.0f} | {each[1]:.0f} | {each[0] / each[1]:.2f} |", flush=True)


main(*sys.argv[1:])
