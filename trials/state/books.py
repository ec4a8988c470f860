"""What the books of gateways show of the sessions that a server granted, and whether they agree with its journal.

A gateway knows when it first sent a request and when it read a reply; the server decided in between. So a fault is found only where each
moment in between is one. Sessions have numbers in the order of their grants, whenever their Access-Accepts were read.
"""

import collections
import contextlib
import itertools
import shutil
import sqlite3
import time

from gateways import ACCEPT, AUTH, CHALLENGE, INTERIM, ON, REJECT, START, STOP, without_sums
from serving import attribute, judge, path
from states import file_of, generations


LAG = 1.0  # seconds that moments may be behind the boot clock
ROUNDED = 0.002  # seconds by which a span may seem shorter: moments are whole milliseconds, counted anew in each life


class Session:
    """A session by its Access-Accept, which was asked first and read at these moments, and the reports on it."""

    def __init__(self, asked, reply):
        self.number = number_of(reply.octets, 25)
        self.address = attribute(reply.octets, 8)
        self.user, self.source = asked.about.user, asked.source[0]
        self.asked, self.first, self.read, self.life = asked, asked.first, reply.moment, reply.life
        self.gateway, self.accept = asked.gateway, reply.octets
        self.reports, self.stops, self.restarts = [], [], []

    def __repr__(self):
        address = ".".join(map(str, self.address))
        return f"session {self.number} of {self.user.name} with {address} at {self.source}, asked {self.first:.3f}, read {self.read:.3f}"

    def is_active(self, hold):
        """Whether it is certain that a Start or an Interim-Update came before it ended for want of one."""
        return any(report.replies and report.replies[0].moment < self.first + hold for report in self.reports)

    def may_have_ended(self, moment, hold):
        """Whether it may have ended by then."""
        is_ended = any(asked.first <= moment for asked in self.stops) or any(
            asked.first <= moment and (not asked.replies or asked.replies[0].moment > self.first) for asked in self.restarts
        )
        return is_ended or (moment >= self.first + hold and not self.is_active(hold))

    def has_ended(self, moment, hold):
        """Whether it must have ended by then."""
        is_ended = any(asked.replies and asked.replies[0].moment <= moment for asked in self.stops) or any(
            asked.replies and asked.first > self.read and asked.replies[0].moment <= moment for asked in self.restarts
        )
        return is_ended or (moment > self.read + hold and not self.reports)


def number_of(reply, kind):
    """The number in a Class or a State."""
    value = attribute(reply, kind)
    return int.from_bytes(value[4:12] if kind == 25 else value[:8], "big")


class Books:
    """The books of gateways, whose server has these spans."""

    def __init__(self, asked, spans):
        self.asked, self.window, self.hold = asked, spans.window - ROUNDED, spans.hold - ROUNDED
        self.count = sum(len(one.replies) for one in asked)
        self.sessions = self.granted()
        for one in asked:
            about = one.about
            session = self.sessions.get(about.number)
            if session and about.status in (START, INTERIM):
                session.reports.append(one)
            elif session and about.status == STOP:
                session.stops.append(one)
        restarts = [one for one in asked if one.about.status == ON]
        for session in self.sessions.values():
            session.restarts = [one for one in restarts if one.source[0] == session.source]

    def granted(self):
        """The sessions by their numbers, in the order of these."""
        sessions = {}
        for asked, reply in self.replies(ACCEPT):
            session = Session(asked, reply)
            before = sessions.setdefault(session.number, session)
            is_same = before.asked is asked and before.accept == reply.octets
            judge(is_same, f"a number is of one session: {before} and {session}")
        return dict(sorted(sessions.items()))

    def replies(self, code):
        return ((asked, reply) for asked in self.asked for reply in asked.replies if reply.octets[0] == code)

    # ---- what is judged

    def judge(self):
        self.judge_repeats()
        self.judge_codes()
        self.judge_order(25, ACCEPT)
        self.judge_order(24, CHALLENGE)
        self.judge_addresses()
        self.judge_limits()
        self.judge_challenges()

    def judge_repeats(self):
        """Each reply that came within the window has the octets of the first."""
        for asked in self.asked:
            for reply in asked.replies[1:]:
                is_same = reply.octets == asked.reply or reply.moment >= asked.first + self.window
                judge(is_same, f"a repeat gets the reply again: {asked.replies} to {asked.request.hex()} of {asked.source}")

    def judge_codes(self):
        for asked in self.asked:
            if asked.about.is_wrong:
                judge(asked.code in (REJECT, None), f"a wrong password or answer is rejected: {asked.code}")
            elif asked.about.user and asked.door == AUTH and asked.code == REJECT:
                is_known = asked.text in (b"session limit", b"no address left", b"state unknown")
                judge(is_known, f"a right password is rejected for want of room alone: {asked.text}")
            if asked.door == AUTH and asked.code == ACCEPT:
                judge(bool(attribute(asked.reply, 8)) == asked.about.user.has_address, "a session has an address if its user has a pool")

    def judge_order(self, kind, code):
        """Who asked after another number was read gets a higher one, and no State comes twice."""
        found = {}
        for asked, reply in self.replies(code):
            number, value = number_of(reply.octets, kind), attribute(reply.octets, kind)
            first, read, before = found.get(number, (asked.first, reply.moment, value))
            judge(before == value, f"a number is of one Class or State: {before.hex()} and {value.hex()}")
            found[number] = min(first, asked.first), min(read, reply.moment), value
        read = float("inf")
        for number in sorted(found, reverse=True):
            judge(found[number][0] <= read, f"number {number} isn't given after a higher one")
            read = min(read, found[number][1])
        draws = [value[8:] for _, _, value in found.values() if kind == 24]
        judge(len(set(draws)) == len(draws), "no two States have one draw")

    def judge_addresses(self):
        """No address is of two sessions, not even of one that ended less than a window after its grant."""
        by_address = collections.defaultdict(list)
        for session in self.sessions.values():
            by_address[session.address].append(session)
        by_address.pop(b"", None)
        for sessions in by_address.values():
            for before, later in itertools.pairwise(sessions):
                judge(before.may_have_ended(later.read, self.hold), f"no address is of two open sessions: {before}; {later}")
                judge(later.read >= before.first + self.window, f"an address stays taken for a window: {before}; {later}")

    def judge_limits(self):
        """No user has more sessions at a time than `sessions`."""
        by_user = collections.defaultdict(list)
        for session in self.sessions.values():
            open_ones = [one for one in by_user[session.user] if not one.may_have_ended(session.read, self.hold)]
            judge(len(open_ones) < session.user.sessions, f"{session.user} has no more sessions: {open_ones} and {session}")
            by_user[session.user].append(session)

    def judge_challenges(self):
        """A State that waits is known."""
        for asked in self.asked:
            challenge = asked.about.challenge
            if not challenge or asked.about.is_wrong or not asked.replies:
                continue
            read = asked.replies[0].moment
            is_known = asked.text not in (b"state unknown", b"wrong state")
            judge(is_known or read >= min(challenge.first + self.hold, asked.first + self.window), "a challenge waits for its answer")

    # ---- what is counted

    def over_lives(self):
        """How many repeats, sessions and challenges were answered, reported on and answered after the life in which they began."""
        repeats = sum(reply.life > asked.replies[0].life for asked in self.asked for reply in asked.replies[1:])
        sessions = sum(
            any(report.replies and report.replies[0].life > session.life for report in session.reports + session.stops)
            for session in self.sessions.values()
        )
        answers = sum(
            bool(asked.about.challenge and asked.replies) and asked.replies[0].life > asked.about.challenge.replies[0].life
            for asked in self.asked
        )
        return repeats, sessions, answers


# ---- the journal


class Journal:
    """What a state's generations have, which nobody has open. It is read from a copy of the files, so that these stay as they are."""

    def __init__(self):
        self.last = 0
        self.answers = collections.defaultdict(set)
        self.draws = {}  # in the order of the entries
        self.moment = 0
        self.zero = None

    def read(self, folder):
        """Reads the entries since those that were read, those of one life, and judges their order and moments."""
        rows = rows_of(folder)
        judge([row[6] for row in rows[: self.last]] == list(self.draws), f"the journal still has its {self.last} entries: {len(rows)}")
        rows = rows[self.last :]
        if len(rows) >= 20:
            self.judge_zero(min(wall - moment for _, wall, moment, *_ in rows) / 1e3)
        for number, _, moment, address, port, door, draw, request, answer in rows:
            judge(number == self.last + 1, f"entry {number} comes after entry {self.last}")
            judge(moment >= self.moment, f"entry {number} has no earlier moment than the one before: {moment} and {self.moment}")
            judge(draw not in self.draws, f"entry {number} has a draw of its own")
            self.last, self.moment = number, moment
            self.draws[draw] = number
            self.answers[address, port, door, request].add(answer)

    def judge_zero(self, begun):
        """Judges that moment 0 was when it was in the first life, given the time of day that it was then, or a little later."""
        zero = begun - time.time() + time.clock_gettime(time.CLOCK_BOOTTIME)
        # What came was kept a little later: the earliest estimate is the best one.
        self.zero = zero if self.zero is None else min(zero, self.zero)
        judge(zero - self.zero < LAG, f"moments go on with the boot clock: moment 0 was at {zero:.3f}, and before at {self.zero:.3f}")

    def judge_replies(self, asked, life=None):
        """Judges that each reply to these requests, or each of this life, is that of an entry."""
        for one in asked:
            address = int.from_bytes(map(int, one.source[0].split(".")), "big")
            answers = self.answers[address, one.source[1], one.door, one.request]
            for reply in one.replies:
                if life not in (None, reply.life):
                    continue
                judge(without_sums(reply.octets) in answers, f"a reply was kept: {reply.octets.hex()} to {one.request.hex()}")


def rows_of(folder):
    """The entries of all generations of a state, in their order, numbered over all of them."""
    copy = path("copy")
    shutil.rmtree(copy, ignore_errors=True)
    shutil.copytree(folder, copy)
    rows = []
    for number in generations(copy):
        found = rows_in(file_of(copy, number))
        judge([row[0] for row in found] == list(range(1, len(found) + 1)), f"the entries of generation {number} are numbered from 1")
        rows += [(len(rows) + row[0], *row[1:]) for row in found]
    return rows


def rows_in(name):
    """The entries of one generation, read from its file and its log, which must be a copy's or closed."""
    with contextlib.closing(sqlite3.connect(name)) as database:
        columns = "rowid, wall, moment, source, port, door, draw, request, answer"
        return database.execute(f"SELECT {columns} FROM exchange ORDER BY rowid").fetchall()
