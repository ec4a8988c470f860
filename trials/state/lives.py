"""Lives of a server that end at any moment, beside gateways that go on, and what the gateways' books show of them."""

import collections
import itertools
import re
import signal
import time

from books import Books, Journal
from gateways import ACCEPT, ON, START, STOP, Gateway, Load, User
from serving import attribute, judge, path
from states import RANDOM, Spans, client_of, ended, entry, folder, generations, killed_early, living, octets_of, pap_log_in, pool_of
from transcripts import lines_of

KILLS = 20
TERMINATIONS = 3
EARLY = 0.3  # how many lives come after one that is killed before it can serve
SHORTEST, LONGEST = 0.2, 1.3  # seconds that a life serves
ADDRESSES = 150
GATEWAYS = ("127.0.1.1", "127.0.1.2", "127.0.2.1")  # of two clients; the last one names sessions by their addresses
FILLER = User("filler", 4096)
USERS = [
    *(User(f"one{number}") for number in range(120)),
    *(User(f"two{number}", 2) for number in range(60)),
    *(User(f"none{number}", 2, has_address=False) for number in range(60)),
    *(User(f"challenged{number}", is_challenged=True) for number in range(60)),
]
NAMED = [User(f"named{number}") for number in range(60)]  # users of the last gateway
STAYING = 4  # one visitor in so many stays
POOLS_MAX = 16


NETWORKS = ("127.0.1.0/24", "127.0.2.1", "127.0.0.1")


class Starts:
    """What each start is given: a configuration that nobody was served under before, and which all that is kept fits."""

    def __init__(self, spans, errors):
        self.spans, self.errors, self.numbers = spans, errors, itertools.count(1)

    def options(self):
        self.number = next(self.numbers)
        return {"configuration": configuration(self.spans, self.number), "errors": self.errors}


def configuration(spans, number):
    """Two clients and the trial's own, a pool, which is named after the number, the users, and other pools and users, all in any order."""
    clients = [client_of(network) for network in NETWORKS]
    pools = [pool_of(f"all{number}", "10.0.0", 1, ADDRESSES), *(pool_of(f"other{at}", "10.0.1", at, at) for at in range(number % POOLS_MAX))]
    others = [User(f"other{at}") for at in range(1, number)]
    users = [entry(user, f"all{number}") for user in (*USERS, *NAMED, FILLER, *others)]
    tables = (*shuffled(clients), *shuffled(pools), *shuffled(users))
    return f"window = {spans.window}\nhold = {spans.hold}\n# {number}\n{''.join(tables)}"


def shuffled(tables):
    return RANDOM.sample(tables, len(tables))


def visited(spans):
    """Gateways with visitors. Each user comes to two of them, or to the last one alone."""
    load = Load(RANDOM, spans.window)
    gateways = [Gateway(load, address, address == GATEWAYS[-1]) for address in GATEWAYS]
    for number, user in enumerate(USERS):
        for at, gateway in enumerate(gateways[:2]):
            gateway.visitors.append((user, number % (2 * STAYING) == at * STAYING))
    gateways[2].visitors.extend((user, number % STAYING == 0) for number, user in enumerate(NAMED))
    for gateway in gateways:
        gateway.begin()
    for gateway in gateways[1:]:
        load.visit(gateway, gateway.restarts())
    return load, gateways


def words_of(life):
    """Turns are made on a thread of their own in every other life, where something is reported."""
    reports = ["--log", "refused", "--metrics", path("metrics"), "--sessions", path("sessions")]
    return ["--workers", str(1 + life // 2 % 2), *(reports if life % 2 else ())]


def lives():
    """Lives that end at any moment, each under another configuration, and what gateways saw over all of them."""
    spans, state, journal = Spans.of(3, 4), folder("lives"), Journal()
    load, gateways = visited(spans)
    signals = [signal.SIGKILL] * KILLS + [signal.SIGTERM] * TERMINATIONS
    RANDOM.shuffle(signals)
    with open(path("errors"), "w") as errors:
        starts = Starts(spans, errors)
        for life, number in enumerate(signals):
            if RANDOM.random() < EARLY:
                killed_early(state, **starts.options())
            with living(state, words_of(life), **starts.options()) as server:
                load.turn_to(server)
                load.run(RANDOM.uniform(SHORTEST, LONGEST))
                ended(server, number)
            load.read_all()
            journal.read(state)
            journal.judge_replies(load.books, load.life)
        with living(state, **starts.options()) as server:
            load.turn_to(server)
            load.end()
            ended(server)
        examined(state, load, gateways, spans, starts)
    judge_told()
    for number in generations(state):
        lines_of(state, number)
    journal.read(state)
    journal.judge_replies(load.books)
    books = Books(load.books, spans)
    books.judge()
    repeats, sessions, answers = books.over_lives()
    judge(min(repeats, sessions, answers) > 0, f"some of each outlive a life: {repeats} repeats, {sessions} sessions, {answers} challenges")
    print(
        f"lives: {KILLS} ended by SIGKILL and {TERMINATIONS} by SIGTERM, under a configuration that changed {starts.number - 1} times: "
        f"{books.count} replies to {len(books.asked)} requests, "
        f"{journal.last} entries, {len(books.sessions)} sessions; "
        f"of an earlier life {repeats} repeats, {sessions} sessions, {answers} challenges"
    )


def judge_told():
    """Judges that each start told that it left nothing out, but the first one, and those that were killed."""
    told = re.findall(r"^radpool: (left out .*|restored .* left out) (\S+)$", octets_of(path("errors")).decode(), re.M)
    judge(len(told) >= KILLS + TERMINATIONS and all(number == "0" for _, number in told), f"nothing is left out: {told}")


# ---- what is there after the lives


def examined(state, load, gateways, spans, starts):
    """Judges that those sessions are open that were granted and not ended, and that a Stop and an Accounting-On end theirs alone."""
    filler = Gateway(load, "127.0.0.1")
    # Until then a session may be open on which nobody reports, since the reply to its log-in was lost.
    time.sleep(spans.hold + 0.1)
    with living(state, **starts.options()) as server:
        load.turn_to(server)
        known = Known(load, spans)
        pool = {bytes([10, 0, 0, number]) for number in range(1, ADDRESSES + 1)}
        given = filled(load, filler, ADDRESSES + 5)
        known.judge_given(given, pool - addresses(known.open), "the addresses are given that are of no open session")
        known.judge_limits(load, filler)
        ended(server)
    with living(state, **starts.options()) as server:
        load.turn_to(server)
        stopped = RANDOM.sample([session for session in known.open if session.address], 8)
        for session in stopped:
            load.ask_all(session.gateway, [session.gateway.report(STOP, session.user, session.accept)])
        known.judge_given(filled(load, filler, 12), addresses(stopped), "a Stop frees its address alone")
        ended(server)
    with living(state, **starts.options()) as server:
        load.turn_to(server)
        here = [session for session in known.open if session.gateway is gateways[0] and session not in stopped]
        load.ask_all(gateways[0], [gateways[0].report(ON)])
        known.judge_given(filled(load, filler, ADDRESSES), addresses(here), "an Accounting-On frees the addresses of its source alone")
        ended(server)


def filled(load, filler, count):
    """The addresses that so many log-ins get, which are more than are free."""
    log_ins = load.ask_all(filler, [pap_log_in(FILLER) for _ in range(count)])
    accepts = [asked.reply for asked in log_ins if asked.code == ACCEPT]
    rejects = {asked.text for asked in log_ins if asked.code != ACCEPT}
    judge(rejects == {b"no address left"}, f"the other log-ins find no address: {rejects}")
    load.ask_all(filler, [filler.report(START, FILLER, accept) for accept in accepts])
    return {attribute(accept, 8) for accept in accepts}


def addresses(sessions):
    return {session.address for session in sessions} - {b""}


def dotted(found):
    return sorted(".".join(map(str, address)) for address in found)


class Known:
    """The sessions that must be open, and those of which that isn't known since a report came late."""

    def __init__(self, load, spans):
        now = time.monotonic()
        books = Books(load.books, spans)
        sessions = books.sessions.values()
        self.open = [session for session in sessions if not session.may_have_ended(now, books.hold)]
        self.unclear = [session for session in sessions if session not in self.open and not session.has_ended(now, spans.hold)]
        judge(len(self.open) > 20, f"some sessions are open for certain: {len(self.open)}, and perhaps {len(self.unclear)}")

    def judge_given(self, given, wanted, what):
        """Judges that just these addresses are given, but for those of which nothing is known."""
        unclear = addresses(self.unclear)
        judge(given - unclear == wanted - unclear, f"{what}: {dotted(given)}, not {dotted(wanted)}")

    def judge_limits(self, load, filler):
        """Judges that the users with as many sessions as they may have, and no others, get no other one."""
        counts = collections.Counter(session.user for session in self.open)
        unclear = {session.user for session in self.unclear}
        users = [user for user in (*USERS, *NAMED) if not user.is_challenged and user not in unclear]
        for asked in load.ask_all(filler, [pap_log_in(user) for user in users]):
            user = asked.about.user
            text = b"session limit" if counts[user] == user.sessions else b"no address left" if user.has_address else b""
            is_so = asked.text == text and (asked.code == ACCEPT) == (text == b"")
            judge(is_so, f"{user} with {counts[user]} sessions gets {text}: {asked.code} {asked.text}")
