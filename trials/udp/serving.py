"""What the trials share: requests, and a `radpool serve` to send them to."""

import contextlib
import functools
import hashlib
import hmac
import os
import resource
import select
import socket
import struct
import subprocess
import sys
import tempfile

SECRET = b"xyzzy5461"
CONFIGURATION = """
window = 1
hold = 4
[[client]]
address = "127.0.0.1"
secret = "xyzzy5461"
[[pool]]
name = "one"
first = "10.0.0.1"
last = "10.0.0.1"
[[user]]
name = "kay"
password = "pw"
challenge = "code?"
answer = "4711"
""" + "".join(f'[[user]]\nname = "{name}"\npassword = "pw"\npool = "one"\n' for name in ("ann", "bo", "cy")) + """
[[user]]
name = "dee"
password = "pw"
"""
HERE = os.path.dirname(os.path.abspath(__file__))
RADPOOL = os.path.join(HERE, "../../crates/radpool/out/radpool")
FOLDER = tempfile.TemporaryDirectory()


def path(name):
    return os.path.join(FOLDER.name, name)


def judge(is_so, what):
    if not is_so:
        sys.exit(f"it isn't so that {what}")


@functools.cache
def compiled(source, *words):
    """The path of what cc makes of a source of this folder."""
    made = path(source.removesuffix(".c"))
    subprocess.run(["cc", "-O2", "-Wall", "-Wextra", "-Werror", *words, "-o", made, os.path.join(HERE, source)], check=True)
    return made


# ---- requests


def status_server(identifier):
    """A signed Status-Server (RFC 5997)."""
    begin = struct.pack(">BBH", 12, identifier, 38) + bytes(16) + b"\x50\x12"
    return begin + hmac.new(SECRET, begin + bytes(16), hashlib.md5).digest()


def accounting_request(identifier, status=1, class_value=b"", rest=b""):
    """A signed Start (RFC 2866), or a report with another status, perhaps with a Class or further attributes."""
    attributes = b"\x28\x06" + struct.pack(">I", status)
    if class_value:
        attributes += bytes([25, 2 + len(class_value)]) + class_value
    attributes += rest
    begin = struct.pack(">BBH", 4, identifier, 20 + len(attributes))
    return begin + hashlib.md5(begin + bytes(16) + attributes + SECRET).digest() + attributes


def access_request(identifier, name=b"kay", password=b"pw", authenticator=bytes(16), rest=b""):
    """An Access-Request (RFC 2865) of a user, each of whom has the same password, perhaps with further attributes."""
    digest = hashlib.md5(SECRET + authenticator).digest()
    hidden = bytes(one ^ other for one, other in zip(password.ljust(16, b"\0"), digest))
    return access_request_with(identifier, attributes_of((1, name), (2, hidden)) + rest, authenticator)


def chap_request(identifier, name, password=b"pw", challenge=None):
    """The same with a CHAP-Password, the response to a CHAP-Challenge or to the Request Authenticator."""
    response = b"\x07" + hashlib.md5(b"\x07" + password + (challenge or bytes(16))).digest()
    rest = attributes_of((60, challenge)) if challenge else b""
    return access_request_with(identifier, attributes_of((1, name), (3, response)) + rest)


def access_request_with(identifier, attributes, authenticator=bytes(16)):
    return struct.pack(">BBH", 1, identifier, 20 + len(attributes)) + authenticator + attributes


def attributes_of(*pairs):
    """The octets of attributes, each by its Type and Value."""
    return b"".join(bytes([kind, 2 + len(value)]) + value for kind, value in pairs)


# ---- server and client


def can_be_read(file):
    """Whether a pipe can be read, or is closed, within half a minute."""
    return file in select.select([file], [], [], 30)[0]


def first_line(process):
    """What a process prints first: nothing if it ends, or if it prints nothing for half a minute."""
    return process.stdout.readline() if can_be_read(process.stdout) else ""


class Server:
    """A process that serves, on ports that the system gave."""

    def __init__(self, process):
        self.process = process
        first = first_line(process)
        words = first.split()
        judge(words[:2] == ["listening", "127.0.0.1"] and len(words) == 4, f"the first line is right: {first}")
        self.auth, self.acct = int(words[2]), int(words[3])
        judge(self.auth > 0 and self.acct > 0, "the first line has the ports that the system gave")
        self.replies = []

    def ask(self, port, request, seconds=5, source=("127.0.0.1", 0)):
        """The reply to a request, if it comes from the port that was asked."""
        with socket.socket(socket.AF_INET, socket.SOCK_DGRAM) as client:
            client.bind(source)
            client.settimeout(seconds)
            client.sendto(request, ("127.0.0.1", port))
            try:
                reply, source = client.recvfrom(4096)
            except socket.timeout:
                return b""
            self.replies.append(reply)
            return reply if source == ("127.0.0.1", port) else b""

    def answers(self, what):
        """Judges that both ports answer, the accounting port first."""
        judge(self.ask(self.acct, status_server(7))[:2] == b"\x05\x07", f"the accounting port answers {what}")
        judge(self.ask(self.auth, status_server(8))[:2] == b"\x02\x08", f"the authentication port answers {what}")

    def goes_on(self, what):
        judge(self.process.poll() is None, f"it goes on {what}")


def start(seed, words=(), auth="0", acct="0", configuration=CONFIGURATION, errors=subprocess.PIPE, **options):
    # Another server, which has just started, may be about to read them.
    for name, octets in (("toml", configuration.encode()), ("seed", seed)):
        with open(path(f"{name}.new"), "wb") as file:
            file.write(octets)
        os.replace(path(f"{name}.new"), path(name))
    files = ["--config", path("toml"), "--seed", path("seed"), "--auth", auth, "--acct", acct]
    return subprocess.Popen(
        [RADPOOL, "serve", *files, *words], stdout=subprocess.PIPE, stderr=errors, text=True, **options
    )


def limited(kibibytes):
    """What limits the memory of a process that begins."""
    limit = kibibytes * 1024
    return lambda: resource.setrlimit(resource.RLIMIT_AS, (limit, limit))


@contextlib.contextmanager
def serving(seed=bytes(32), words=(), **options):
    """A server with this seed, its first line read."""
    process = start(seed, words, **options)
    try:
        yield Server(process)
    finally:
        process.kill()
        process.communicate()


def attribute(reply, kind):
    """The Value of the first attribute of a Type."""
    at = 20
    while at < len(reply):
        if reply[at] == kind:
            return reply[at + 2 : at + reply[at + 1]]
        at += reply[at + 1]
    return b""
