"""Trials of a state under another configuration, of the generations that are kept, and of one that was closed."""

import contextlib
import os
import shutil
import sqlite3
import subprocess

import serving
from gateways import ACCEPT, RESPONSE, START, STOP, User
from serving import CONFIGURATION, access_request, accounting_request, attribute, attributes_of, judge, path
from states import (
    DAMAGED, OTHER_RULES, PAGE, RANDOM, before_that, client_of, closing, database_of, edit, ended, entry, file_of, folder, generations,
    living, newest, octets_of, one_client, other_octet, pool_of, refuses, sums
)

HERE, THERE = "127.0.0.1", "127.0.1.0/24"
HEAD, FRAME = 32, 24 + PAGE  # octets of a log: its head, and each page with a head of its own
LONG = CONFIGURATION.replace("window = 1\nhold = 4\n", "window = 600\nhold = 600\n")


def radpool(*words):
    """What a command of radpool comes to."""
    return subprocess.run([serving.RADPOOL, *words], capture_output=True, text=True, timeout=60)


# ---- another configuration


def text_of(networks=(HERE, THERE), number=9, names=("bo", "cy")):
    """Clients, a pool of one address for ann, one of another for the others, and a challenge for kay."""
    pools = pool_of("one", "10.0.0", 1, 1) + pool_of("two", "10.0.0", number, number)
    users = entry(User("ann"), "one") + entry(User("kay", has_address=False, is_challenged=True))
    users += "".join(entry(User(name), "two") for name in names)
    return f"window = 600\nhold = 600\n{''.join(map(client_of, networks))}{pools}{users}"


def changes():
    """A session whose user, client or pool is gone is left out and told before and then, and all others stay."""
    for what, text, number in (
        ("user", text_of(names=("cy",)), 9),
        ("client", text_of(networks=(HERE,)), 9),
        ("pool", text_of(number=20), 20),
    ):
        judge_change(text, bytes([10, 0, 0, number]))
        print(f"changes: without the {what} of a session it is left out, and its address is free")


def judge_change(text, given):
    """Judges what becomes of four requests under this configuration: bo's session is left out, and cy is given this address."""
    state = folder("changed")
    with one_client() as ask, one_client("127.0.1.1") as ask_there:
        with living(state, configuration=text_of()) as server:
            accept, challenge = ask(server.auth, access_request(1, b"ann")), ask(server.auth, access_request(2))
            ask(server.acct, accounting_request(3, START, attribute(accept, 25)))
            judge(attribute(ask_there(server.auth, access_request(4, b"bo")), 8) == bytes([10, 0, 0, 9]), "bo gets the address")
            judge(attribute(ask(server.auth, access_request(5, b"cy")), 18) == b"no address left", "no other address is left")
            told = previewed(state, text)
            ended(server)
        judge(previewed(state, text) == told, "a check tells the same while a server serves and when it has ended")
        with living(state, configuration=text) as server:
            judge(ask(server.auth, access_request(1, b"ann")) == accept, "a repeat of another session gets the reply")
            judge(attribute(ask(server.auth, access_request(6, b"ann")), 18) == b"session limit", "the other session goes on")
            report = accounting_request(7, STOP, attribute(accept, 25))
            judge(ask(server.acct, report)[0] == RESPONSE, "a Stop of the other session is answered")
            judge(attribute(ask(server.auth, access_request(8, b"ann")), 18) == b"no address left", "the Stop ends the other session")
            answer = access_request(9, b"kay", b"4711", rest=attributes_of((24, attribute(challenge, 24))))
            judge(ask(server.auth, answer)[0] == ACCEPT, "the challenge can be answered")
            reply = ask(server.auth, access_request(10, b"cy"))
            judge(attribute(reply, 8) == given, f"the address of the session that was left out can be given: {reply}")
            errors = ended(server)
    judge(errors == "".join(f"radpool: {line}\n" for line in told), f"a start tells what a check told: {errors}, not {told}")
    left_out = 'left out session 2 user "bo" address 10.0.0.9'
    # Of five replies that of bo's session is left out too.
    wanted = [left_out, "restored sessions 1 replies 4 challenges 1 left out 1"]
    judge(told == wanted, f"it is told what is left out: {told}, not {wanted}")


OWN = bytes([10, 0, 0, 1])


def text_of_own(owner):
    """Two users, of whom this one has an address of their own."""
    own = {owner: 'address = "10.0.0.1"\n'}
    users = "".join(entry(User(name, has_address=False)).replace("sessions = 1\n", own.get(name, "")) for name in ("ann", "bo"))
    return f"window = 600\nhold = 600\n{client_of(HERE)}{users}"


def own_addresses():
    """An address of a user's own is held by its session when the server was killed; if another user gets it, that is left out and told."""
    state, text = folder("own"), text_of_own("bo")
    with one_client() as ask:
        with living(state, configuration=text_of_own("ann")) as server:
            accept = ask(server.auth, access_request(1, b"ann"))
            judge(attribute(accept, 8) == OWN, "ann gets the address of her own")
            ended(server)
        with living(state, configuration=text_of_own("ann")) as server:
            judge(ask(server.auth, access_request(1, b"ann")) == accept, "a repeat gets the reply with the address")
            judge(attribute(ask(server.auth, access_request(2, b"ann")), 18) == b"session limit", "her session goes on")
            ended(server)
        told = previewed(state, text)
        with living(state, configuration=text) as server:
            judge(attribute(ask(server.auth, access_request(3, b"bo")), 8) == OWN, "bo gets the address that is his now")
            reply = ask(server.auth, access_request(4, b"ann"))
            judge(reply[0] == ACCEPT and attribute(reply, 8) == b"", f"ann gets no address any more: {reply}")
            errors = ended(server)
    judge(errors == "".join(f"radpool: {line}\n" for line in told), f"a start tells what a check told: {errors}, not {told}")
    wanted = ['left out session 1 user "ann" address 10.0.0.1', "restored sessions 0 replies 1 challenges 0 left out 1"]
    judge(told == wanted, f"it is told what is left out: {told}, not {wanted}")
    print("changes: an address of a user's own is held over a restart; given to another, the session is left out")


def previewed(state, text, warned=""):
    """The lines of a check on what a start under this configuration would leave out, and warns of this. It changes nothing."""
    with open(path("changed.toml"), "w") as file:
        file.write(text)
    before = sums(state)
    ran = radpool("check", "--state", state, path("changed.toml"))
    judge(sums(state) == before, "a check leaves a state as it was")
    good, *lines = ran.stdout.splitlines()
    judge(ran.returncode == 0 and good.startswith(f"{path('changed.toml')}: good: "), f"the configuration is good: {ran}")
    judge(ran.stderr.endswith(warned) and (warned or "whole" not in ran.stderr), f"a check warns of what is damaged: {ran.stderr}")
    return lines


# ---- the generations that are kept


def few_generations():
    """Just the newest generations are there, of which the closed ones can be read, and the one before a damaged one can be gone on from."""
    state, options = folder("few"), {"generations": 3, "configuration": f"{LONG}sessions = 9\n"}  # of dee
    with one_client() as ask:
        for number in range(1, 6):
            with living(state, **options) as server:
                reply = ask(server.auth, access_request(number, b"dee"))
                judge(reply[0] == ACCEPT and ask(server.auth, access_request(1, b"dee"))[0] == ACCEPT, "it goes on with few generations")
                wanted = list(range(max(1, number - 2), number + 1))
                judge(generations(state) == wanted, f"the newest three generations are there: {generations(state)}, not {wanted}")
                files = {file_of(state, one) + end for one in wanted for end in ("", "-wal")}
                judge({os.path.join(state, name) for name in os.listdir(state)} <= files, f"nothing else is there: {os.listdir(state)}")
                judge_readable(state)
                judge(ask(server.auth, access_request(number, b"dee")) == reply, "it goes on where others were read")
                ended(server)
        judge_moved(state, options)
    print("generations: those before the newest three are removed; closed ones can be read, and the one before a damaged one gone on from")


def judge_readable(state):
    """Judges that SQLite reads the generations that are closed, each with one entry and the sessions before, and not the one in use."""
    *closed_ones, used = generations(state)
    for number in closed_ones:
        with contextlib.closing(sqlite3.connect(file_of(state, number))) as database:
            checked = database.execute("PRAGMA integrity_check").fetchall()
            judge(checked == [("ok",)], f"SQLite finds a closed generation whole: {checked}")
            counts = [database.execute(f"SELECT count(*) FROM {table}").fetchone()[0] for table in ("exchange", "session", "reply", "meta")]
            judge(counts == [1, number - 1, number - 1, 1], f"generation {number} has what was kept: {counts}")
    with contextlib.closing(sqlite3.connect(file_of(state, used), timeout=0)) as database:
        try:
            judge(False, f"SQLite can't read the generation in use: {database.execute('SELECT * FROM meta').fetchall()}")
        except sqlite3.OperationalError as error:
            judge(str(error) == "database is locked", f"the generation in use is locked: {error}")


def judge_moved(state, options):
    """Judges what is said of a newest generation that is away, or damaged, and that a start goes on from the one before."""
    numbers, name, away = generations(state), newest(state), path("away")
    os.rename(name, away)
    refuses(state, "a file with the name of its log is there: move that away", of=generations, at=name, **options)
    os.rename(away, name)
    # Now all of it is in the file, and nothing in the log.
    edit(name, "UPDATE meta SET format = 1")
    with other_octet(name, RANDOM.randrange(os.path.getsize(name) // PAGE) * PAGE + RANDOM.randrange(PAGE)):
        refuses(state, DAMAGED, of=database_of, advice=before_that(state), **options)
    os.rename(name, away)
    os.rename(name + "-wal", away + "-wal")
    with living(state, **options) as server:
        judge(generations(state) == numbers, f"it goes on from the one before: {generations(state)}")
        errors = ended(server)
    count = numbers[-2]
    told = f"radpool: restored sessions {count} replies {count} challenges 0 left out 0\n"
    judge(errors == told, f"it has what the one before has: {errors}")


def unfinished():
    """A newest file whose log is damaged at its beginning, or gone, has no generation: it gets another name, and that is told."""
    judge_unfinished(RANDOM.randrange(HEAD))
    judge_unfinished(HEAD + RANDOM.randrange(FRAME))
    judge_unfinished(None)
    print("generations: a newest file whose log is damaged at its beginning, or gone, is set aside, and that is told")


def judge_unfinished(at):
    """Judges what becomes of a newest file whose log has another octet here, or that has none."""
    state, options = folder("unfinished"), {"configuration": f"{LONG}sessions = 9\n"}  # of dee
    with one_client() as ask:
        for number in (1, 2):
            with living(state, **options) as server:
                reply = ask(server.auth, access_request(number, b"dee"))
                ended(server)
        name = newest(state)
        if at is None:
            os.remove(name + "-wal")
        else:
            log = bytearray(octets_of(name + "-wal"))
            log[at] ^= RANDOM.randrange(1, 256)
            with open(name + "-wal", "r+b") as file:
                file.write(log)
        damaged = [octets for kept, octets in sums(state).items() if name.endswith(kept.removesuffix("-wal"))]
        lost = f"radpool: warning: {name} has no whole generation: "
        told = "restored sessions 1 replies 1 challenges 0 left out 0"
        checked = previewed(state, options["configuration"], f"{lost}a start sets it aside\n")
        judge(checked == [told], f"a check goes on from the one before: {checked}")
        with living(state, **options) as server:
            judge(ask(server.auth, access_request(2, b"dee"))[0] == ACCEPT, "what was kept in it is as if it had never been asked")
            errors = ended(server)
    aside = f"{name}.unfinished"
    judge(errors == f"{lost}it is now {aside}\nradpool: {told}\n", f"a start says what it sets aside: {errors}")
    left = [octets for kept, octets in sums(state).items() if aside.endswith(kept.removesuffix("-wal"))]
    judge(left == damaged, "what is set aside is as it was")


# ---- a state that was closed


def closed():
    """A state that was closed can be gone on from under other rules, and no other one that has entries."""
    state, open_one = folder("closed"), path("open")
    judge(radpool("state", "close", state).stdout == "no generation\n", "a folder without a generation can't be closed")
    with one_client() as ask:
        with living(state, configuration=LONG) as server:
            accept, challenge = ask(server.auth, access_request(1, b"ann")), ask(server.auth, access_request(2))
            ran = radpool("state", "close", state)
            said = f"radpool: {newest(state)}: another process uses the state\n"
            judge((ran.returncode, ran.stderr) == (1, said), f"a state that is in use can't be closed: {ran}")
            ended(server)
        shutil.copytree(state, open_one)
        edit(newest(open_one), "UPDATE meta SET rules = rules + 1")
        refuses(open_one, OTHER_RULES, of=database_of, advice=closing(open_one), configuration=LONG)
        ran = radpool("state", "close", state)
        judge((ran.returncode, ran.stdout, ran.stderr) == (0, "closed generation 2\n", ""), f"a state can be closed: {ran}")
        edit(newest(state), "UPDATE meta SET rules = rules + 1")
        with living(state, configuration=LONG) as server:
            replies = [ask(server.auth, access_request(1, b"ann")), ask(server.auth, access_request(2))]
            judge(replies == [accept, challenge], f"repeats get the replies from before it was closed: {replies}")
            judge(attribute(ask(server.auth, access_request(3, b"bo")), 18) == b"no address left", "the session goes on")
            errors = ended(server)
    told = "radpool: restored sessions 1 replies 2 challenges 1 left out 0\n"
    judge(errors == told, f"all of a closed state is restored: {errors}")
    judge(generations(state) == [1, 2, 3], f"the numbers go on over one that was closed: {generations(state)}")
    print("closed: a state without entries is gone on from under other rules, and one with entries isn't")
