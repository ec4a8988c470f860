"""What the trials of states share: folders, servers that keep a state in one, and how these end."""

import contextlib
import ctypes
import functools
import hashlib
import os
import random
import re
import resource
import shutil
import signal
import socket
import sqlite3
import struct
import subprocess
import sys
import time
from typing import NamedTuple

import serving
from gateways import AUTH, About, Ask
from serving import SECRET, access_request, judge, path, start

if len(sys.argv) > 1:
    serving.RADPOOL = os.path.abspath(sys.argv[1])
SEED = sys.argv[2] if len(sys.argv) > 2 else os.urandom(4).hex()
RANDOM = random.Random(SEED)
QUICK = 0.25  # seconds that a start may take without all spans being longer


# ---- servers and their folders


def folder(name):
    """A new folder for a state."""
    shutil.rmtree(path(name), ignore_errors=True)
    os.mkdir(path(name), 0o700)
    return path(name)


def started(state, words=(), generations=2**32 - 1, **options):
    """A process that is to serve from this folder, and keeps so many generations."""
    return start(bytes(32), ["--state", state, "--generations", str(generations), *words], **options)


@contextlib.contextmanager
def living(state, words=(), **options):
    """A server from this folder, its first line read."""
    process = started(state, words, **options)
    try:
        yield serving.Server(process)
    except SystemExit:
        process.kill()
        sys.stderr.write(process.communicate(timeout=60)[1] or "")
        raise
    finally:
        process.kill()
        process.communicate(timeout=60)


def ended(server, number=signal.SIGKILL):
    """Ends a server by a signal, which must be what ends it. Returns what it said on standard error."""
    server.process.send_signal(number)
    _, errors = server.process.communicate(timeout=60)
    judge(server.process.returncode == -number, f"signal {number} ends it, and nothing before: {server.process.returncode} {errors}")
    return errors


@contextlib.contextmanager
def one_client(address="127.0.0.1"):
    """A function that asks a port from one socket of this address, and gives the reply."""
    with socket.socket(socket.AF_INET, socket.SOCK_DGRAM) as client:
        client.bind((address, 0))
        client.settimeout(10)

        def ask(port, request):
            client.sendto(request, ("127.0.0.1", port))
            while True:
                reply, source = client.recvfrom(4096)
                if source == ("127.0.0.1", port) and reply[1] == request[1]:
                    return reply

        yield ask


# ---- the files of a folder


def generations(state):
    """The numbers of the generations that have a file, in their order."""
    return sorted(int(found[1]) for name in os.listdir(state) if (found := re.fullmatch(r"generation-([1-9]\d*)\.db", name)))


def file_of(state, number):
    return os.path.join(state, f"generation-{number}.db")


def newest(state):
    """The path of the newest generation's file, or of the first one that is to be."""
    numbers = generations(state) if os.path.isdir(state) else []
    return file_of(state, max(numbers, default=1))


def octets_of(*names):
    with open(os.path.join(*names), "rb") as file:
        return file.read()


def sums(state):
    """The names in a folder, and what each file has."""
    names = sorted(os.listdir(state)) if os.path.isdir(state) else []
    return {name: (len(octets := octets_of(state, name)), hashlib.sha256(octets).hexdigest()) for name in names}


def database_of(state):
    """The numbers of the generations, and what the newest one has in its file."""
    return generations(state), hashlib.sha256(octets_of(newest(state))).hexdigest()


# ---- files that were changed

PAGE = 4_096  # octets


@contextlib.contextmanager
def other_octet(name, at):
    """Changes an octet of a file meanwhile."""
    with open(name, "r+b", buffering=0) as file:
        octet = os.pread(file.fileno(), 1, at)
        os.pwrite(file.fileno(), bytes([octet[0] ^ RANDOM.randrange(1, 256)]), at)
        try:
            yield
        finally:
            os.pwrite(file.fileno(), octet, at)


def edit(database, statements):
    """Changes the rows of a database, and renews its sums."""
    with contextlib.closing(sqlite3.connect(database)) as connection:
        connection.executescript(statements)
        connection.commit()
    renew_sums(database)


def renew_sums(database):
    """Gives each page the sum that SQLite's cksumvfs has at its end."""
    octets = bytearray(octets_of(database))
    for page in range(0, len(octets), PAGE):
        first = second = 0
        words = struct.unpack_from(f"<{PAGE // 4 - 2}I", octets, page)
        for one, other in zip(words[::2], words[1::2]):
            first = first + one + second & 0xFFFFFFFF
            second = second + other + first & 0xFFFFFFFF
        struct.pack_into("<2I", octets, page + PAGE - 8, first, second)
    with open(database, "wb") as file:
        file.write(octets)


# ---- what is said

DAMAGED = "it is no state, or it is damaged"
OTHER_RULES = "the state was kept under other rules"


def untold(errors):
    """What is said on standard error beside the lines of a start that left nothing out, or set aside what an earlier one had left."""
    lines = r"restored sessions \d+ replies \d+ challenges \d+ left out 0|warning: \S+ has no whole generation: it is now \S+"
    return re.sub(rf"^radpool: ({lines})\n", "", errors, flags=re.M)


def before_that(state):
    """The line, as a pattern, that names the generation before the newest one, which can't be gone on from."""
    number = generations(state)[-1]
    name, end = f"generation-{number}\\.db", r"\d{4}-\d\d-\d\dT\d\d:\d\d:\d\d\.\d{3}Z"
    way = f"to go on from it, move {name} and {name}-wal away; all that was kept since would be lost"
    return f"radpool: {re.escape(file_of(state, number - 1))} is the one before and ends at {end}: {way}\n"


def closing(state):
    """The line, as a pattern, that says how a state is closed whose rules are others."""
    why = "the program that kept it has to close it, since entries are answered again by the rules under which they were kept"
    return re.escape(f"radpool: {why}: radpool state close {state}\n")


def judge_ended(process, state, text, at=None, advice=""):
    """Judges that a process has ended, or ends, for this reason. It names the newest file if no other path; a pattern has its advice."""
    out, errors = process.communicate(timeout=60)
    said = f"radpool: {at or newest(state)}: {text}\n"
    is_so = re.fullmatch(re.escape(said) + advice, untold(errors))
    judge(process.returncode == 1 and is_so, f"it says {said}{advice}: {process.returncode} {out}{errors}")
    return out


def refuses(state, text, of=sums, at=None, advice="", **options):
    """Judges that a server doesn't begin from this folder, for this reason, and changes nothing."""
    before = of(state)
    out = judge_ended(started(state, ["--rounds", "1"], **options), state, text, at, advice)
    judge(out == "", f"it doesn't listen where it says {text}")
    after = of(state)
    judge(after == before, f"nothing is changed where it says {text}: {after}, not {before}")


class Spans(NamedTuple):
    """A window and a hold, in seconds."""

    window: int
    hold: int

    @classmethod
    def of(cls, window, hold):
        """These, or longer ones on a machine that is slow."""
        return cls(round(window * pace()), round(hold * pace()))


@functools.cache
def pace():
    """How many times as long as on a quick machine a start takes, but at least 1. It is measured while nothing else starts."""
    before = time.monotonic()
    with living(folder("pace")) as server:
        took = time.monotonic() - before
        ended(server)
    return max(1.0, took / QUICK)


def killed_early(state, **options):
    """A server that is killed at any moment of its start."""
    process = started(state, **options)
    time.sleep(RANDOM.uniform(0, pace() * QUICK))
    process.kill()
    process.communicate()


# ---- configurations and log-ins


def client_of(network):
    return f'[[client]]\naddress = "{network}"\nsecret = "{SECRET.decode()}"\n'


def pool_of(name, begin, first, last):
    return f'[[pool]]\nname = "{name}"\nfirst = "{begin}.{first}"\nlast = "{begin}.{last}"\n'


def entry(user, pool="all"):
    """The user's table of a configuration, in this pool."""
    lines = ["[[user]]", f'name = "{user.name}"', 'password = "pw"', f"sessions = {user.sessions}"]
    if user.has_address:
        lines.append(f'pool = "{pool}"')
    if user.is_challenged:
        lines.extend(('challenge = "code?"', 'answer = "4711"'))
    return "\n".join((*lines, ""))


def pap_log_in(user, rest=b""):
    """Asks a log-in with the right password, perhaps with further attributes."""
    authenticator = RANDOM.randbytes(16)
    return Ask(AUTH, About(user=user), lambda identifier: access_request(identifier, user.name.encode(), b"pw", authenticator, rest))


# ---- limits and file systems


def limited_to(octets):
    """What lets a process that begins write no file beyond this octet. SIGXFSZ stays ignored, as Python has it."""
    return {"restore_signals": False, "preexec_fn": lambda: resource.setrlimit(resource.RLIMIT_FSIZE, (octets, octets))}


def killed_past(octets):
    """What kills a process that begins when it has written a file up to this octet, and would write on."""

    def limit():
        resource.setrlimit(resource.RLIMIT_CORE, (0, 0))
        resource.setrlimit(resource.RLIMIT_FSIZE, (octets, octets))

    return {"preexec_fn": limit}


def may_mount():
    """Whether this process may mount file systems, which nobody else sees, and which go with it."""
    system = ctypes.CDLL(None)
    # CLONE_NEWNS; MS_REC | MS_PRIVATE
    is_able = os.geteuid() == 0 and shutil.which("mount") is not None
    return is_able and system.unshare(0x20000) == 0 and system.mount(b"none", b"/", None, 0x44000, None) == 0


def mount(*words):
    subprocess.run(["mount", *words], check=True, timeout=60)


@contextlib.contextmanager
def mounted(name, size):
    """A folder that is a file system of its own, in memory."""
    state = folder(name)
    mount("-t", "tmpfs", "-o", f"size={size},mode=700", "none", state)
    try:
        yield state
    finally:
        subprocess.run(["umount", state], check=True, timeout=60)
