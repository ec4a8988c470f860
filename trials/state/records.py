"""What is recorded of a gateway's day: each session that is granted and each report in its columns, and figures that are the gateway's own,
through kills and restarts."""

import contextlib
import csv
import datetime
import io
import json
import os
import re
import shutil
import sqlite3
import subprocess
import time

import serving
from gateways import ACCEPT, ACCT, AUTH, INTERIM, ON, REJECT, RESPONSE, START, STOP
from serving import CONFIGURATION, HERE, access_request, accounting_request, attribute, attributes_of, judge
from states import RANDOM, ended, file_of, folder, generations, living
from transcripts import copied, dotted, talking

USERS = 6
POOL = '\n[[pool]]\nname = "day"\nfirst = "10.20.0.1"\nlast = "10.20.0.9"\n'
DAY = CONFIGURATION.replace("window = 1\nhold = 4\n", "window = 600\nhold = 600\n") + POOL + "".join(
    f'\n[[user]]\nname = "user{number}"\npassword = "pw"\npool = "day"\n' for number in range(USERS)
)
OPERATING = os.path.join(HERE, "../../docs/OPERATING.md")

# The columns of a record that are an attribute: their Type and how its Value is read.
TEXTS = {
    "user": 1, "acct_session_id": 44, "acct_multi_session_id": 50, "nas_identifier": 32, "nas_port_id": 87, "calling_station_id": 31,
    "called_station_id": 30,
}
NUMBERS = {
    "status": 40, "address": 8, "nas_address": 4, "nas_port": 5, "session_time": 46, "packets_in": 47, "packets_out": 48,
    "terminate_cause": 49, "delay": 41,
}
OCTETS = {"octets_in": (42, 52), "octets_out": (43, 53)}

# What `radpool accounting` calls the columns.
NAMES = {
    "user": "User-Name", "status": "Acct-Status-Type", "acct_session_id": "Acct-Session-Id", "address": "Framed-IP-Address",
    "nas_address": "NAS-IP-Address", "nas_port": "NAS-Port", "calling_station_id": "Calling-Station-Id", "session_time": "Acct-Session-Time",
    "octets_in": "Acct-Input-Octets", "octets_out": "Acct-Output-Octets",
}
STATUSES = {START: "Start", STOP: "Stop", INTERIM: "Interim-Update", ON: "Accounting-On"}


class Session:
    """A session as its gateway counts it."""

    def __init__(self, user, accept):
        self.user, self.address, self.class_value = user, attribute(accept, 8), attribute(accept, 25)
        self.number = int.from_bytes(self.class_value[4:], "big")
        self.octets_in = self.octets_out = self.seconds = 0
        self.is_stopped = self.is_reset = False

    def attributes(self):
        """What its next report says: counters of 32 bits, and how often they wrapped around."""
        return attributes_of(
            (1, self.user), (44, b"%08x" % self.number), (8, self.address), (46, self.seconds.to_bytes(4, "big")),
            (42, (self.octets_in % 2**32).to_bytes(4, "big")), (52, (self.octets_in // 2**32).to_bytes(4, "big")),
            (43, (self.octets_out % 2**32).to_bytes(4, "big")), (53, (self.octets_out // 2**32).to_bytes(4, "big")),
            (31, RANDOM.randbytes(6)), (4, bytes((192, 0, 2, 1))), (5, self.number.to_bytes(4, "big")),
        )

    def is_open(self):
        return not self.is_stopped and not self.is_reset

    def go_on(self):
        self.octets_in += RANDOM.randrange(2**33)
        self.octets_out += RANDOM.randrange(2**33)
        self.seconds += RANDOM.randrange(1, 600)


class Day:
    """A gateway's day: its sessions, whose requests it repeats until they are answered, whoever answers."""

    def __init__(self, talk):
        self.talk, self.sessions, self.identifiers, self.lost, self.late = talk, [], iter(range(10**6)), 0, None

    def identifier(self):
        return next(self.identifiers) % 256

    def log_in(self, user):
        station = attributes_of((31, RANDOM.randbytes(6)))
        session = Session(user, self.talk.new(ACCEPT, AUTH, access_request(self.identifier(), user, rest=station)))
        self.sessions.append(session)
        self.report(session, START)

    def fail_to_log_in(self, user):
        """A log-in that is granted nothing."""
        self.talk.new(REJECT, AUTH, access_request(self.identifier(), user, b"other"))

    def report(self, session, status):
        request = accounting_request(self.identifier(), status, session.class_value, session.attributes())
        self.talk.new(RESPONSE, ACCT, request)

    def report_of_nobody(self):
        """A report whose Class is of no session, or of another client's."""
        self.talk.new(RESPONSE, ACCT, accounting_request(self.identifier(), INTERIM, b"RAP1" + bytes(7) + b"\xff"))
        self.lost += 1

    def go_on(self):
        for session in self.sessions:
            if session.is_open():
                session.go_on()
                self.report(session, INTERIM)
                last = self.talk.exchanges[-1]
                again = self.talk.ask(last.door, last.request, last.client)
                judge(again == last.reply, "a repeat gets the reply again, and no second row")

    def report_late(self):
        """A report whose answer the server is killed for. The gateway asks the next one."""
        session = self.sessions[-1]
        session.go_on()
        self.late = accounting_request(self.identifier(), INTERIM, session.class_value, session.attributes())
        self.talk.clients[0].sendto(self.late, ("127.0.0.1", self.talk.server.acct))

    def repeat_late(self):
        if self.late:
            self.talk.new(RESPONSE, ACCT, self.late)

    def come_up(self):
        """The gateway comes up again, and has no sessions any more."""
        self.talk.new(RESPONSE, ACCT, accounting_request(self.identifier(), ON))
        for session in self.sessions:
            session.is_reset = not session.is_stopped

    def stop(self, session):
        session.go_on()
        session.is_stopped = True
        self.report(session, STOP)


def records():
    """A gateway's day through kills, and what closed generations have of it."""
    state = folder("day")
    with talking(state) as talk:
        day = Day(talk)
        for life in range(4):
            with living(state, configuration=DAY) as talk.server:
                day.repeat_late()
                for number in range(life, USERS, 4):
                    day.log_in(b"user%d" % number)
                    day.fail_to_log_in(b"user%d" % number)
                day.go_on()
                day.report_of_nobody()
                if life:
                    day.stop(day.sessions[life - 1])
                day.go_on()
                day.report_late()
                ended(talk.server)
        with living(state, configuration=DAY) as talk.server:
            day.repeat_late()
            day.come_up()
            day.log_in(b"user1")
            ended(talk.server)
        with living(state, configuration=DAY) as talk.server:
            ended(talk.server)
        judge_lines(state, judge_rows(talk))
        judge_figures(day, state)
    print(f"records: {len(talk.exchanges)} requests of a gateway's day are recorded as it sent them, and the figures are its own")


def closing_on_demand():
    """A server that is asked for another generation begins one, once, so that all that it has recorded is printed."""
    state = folder("asked")
    with talking(state) as talk:
        day = Day(talk)
        with living(state, configuration=DAY) as talk.server:
            day.log_in(b"user1")
            for count in (1, 2):
                day.go_on()
                lines = printed(state, "--close").splitlines()
                judge(len(lines) == count + 1, f"each report is printed, the last one too: {lines}")
                judge(generations(state) == list(range(1, count + 2)), f"another generation begins: {generations(state)}")
                judge(not os.path.exists(os.path.join(state, "close")), "the file that asked for it is gone")
            # Where nothing was kept since, too.
            judge(printed(state, "--close").splitlines() == lines and len(generations(state)) == 4, "it begins one again")
            ended(talk.server)
        # The server removes the oldest one about when that is read.
        with living(state, generations=3, configuration=DAY) as talk.server:
            for _ in range(3):
                day.go_on()
                lines = printed(state, "--close").splitlines()
                judge(json.loads(lines[-1])["Acct-Session-Time"] == day.sessions[0].seconds, f"the last report is printed: {lines[-1]}")
                patience = time.monotonic() + 10
                while len(generations(state)) > 3 and time.monotonic() < patience:
                    time.sleep(0.01)
                judge(len(generations(state)) == 3, f"the oldest generation is removed: {generations(state)}")
            ended(talk.server)
    print("records: a server that is asked to begins another generation, once, and the rest is printed")


def kept_for_days():
    """A start removes what wasn't written for so many days, except for the two newest generations."""
    state = folder("days")
    for _ in range(4):
        with living(state, configuration=DAY) as server:
            server.answers("whatever is kept for some days")
            ended(server)
    for number in (1, 2, 4):
        before = time.time() - 86_400 * (2 if number < 4 else 9)
        os.utime(file_of(state, number), (before, before))
    with living(state, ["--keep-generations", "3"], configuration=DAY) as server:
        ended(server)
    judge(generations(state) == [1, 2, 3, 4, 5], f"what is two days old is kept for three: {generations(state)}")
    with living(state, ["--keep-generations", "2"], configuration=DAY) as server:
        ended(server)
    judge(generations(state) == [3, 4, 5, 6], f"it isn't kept for two days, but what is later is: {generations(state)}")
    print("generations: those that weren't written for so many days are removed")


# ---- rows


def judge_rows(talk):
    """Each Accounting-Request that got a new reply has a row, in whose columns its attributes are, each session that was granted has one, and
    nothing else has: these are the first."""
    entries, rows, grants = [], [], []
    for number in generations(talk.state):
        with contextlib.closing(sqlite3.connect(copied(talk.state, number))) as database:
            database.row_factory = sqlite3.Row
            found = database.execute("SELECT rowid, * FROM exchange ORDER BY rowid").fetchall()
            entries += [dict(row, generation=number) for row in found]
            rows += [dict(row, generation=number) for row in database.execute("SELECT * FROM accounting ORDER BY entry")]
            grants += [dict(row, generation=number) for row in database.execute("SELECT * FROM grants ORDER BY entry")]
    judge(len(entries) == len(talk.exchanges), f"each exchange is kept once: {len(entries)} of {len(talk.exchanges)}")
    accounted = [entry for entry in entries if entry["door"] == ACCT]
    judge(len(rows) == len(accounted), f"each report has a row: {len(rows)} of {len(accounted)}")
    for entry, row in zip(accounted, rows):
        wanted = recorded(entry)
        judge(row == wanted, f"a row has what was reported: {row}, not {wanted}")
    accepted = [granted(entry) for entry in entries if entry["answer"][0] == ACCEPT]
    judge(grants == accepted, f"each session that is granted has a row: {grants}, not {accepted}")
    return rows


def granted(entry):
    """The row of an entry that is granted a session, read from its request and its answer."""
    request, answer = entry["request"], bytes(20) + entry["answer"][1:]
    return {
        "entry": entry["rowid"], "time": entry["wall"], "client": 0, "source": entry["source"], "user": texted(attribute(request, 1)),
        "session": int.from_bytes(attribute(answer, 25)[4:], "big"), "address": numbered(attribute(answer, 8)),
        "calling_station_id": texted(attribute(request, 31)), "generation": entry["generation"],
    }


def recorded(entry):
    """The row of an entry, read from its request."""
    request = entry["request"]
    row = {name: texted(attribute(request, kind)) for name, kind in TEXTS.items()}
    row.update({name: numbered(attribute(request, kind)) for name, kind in NUMBERS.items()})
    for name, (low, high) in OCTETS.items():
        count = numbered(attribute(request, low))
        row[name] = None if count is None else count + (numbered(attribute(request, high)) or 0) * 2**32
    row.update(entry=entry["rowid"], time=entry["wall"], client=0, source=entry["source"], generation=entry["generation"])
    number = int.from_bytes(attribute(request, 25)[4:], "big")
    row["session"] = number if 1 <= number < 0xFF else None
    return row


def texted(value):
    try:
        return value.decode() or None
    except UnicodeDecodeError:
        return value


def numbered(value):
    return int.from_bytes(value, "big") if len(value) == 4 else None


# ---- lines


def judge_lines(state, rows):
    """`radpool accounting` prints the rows of all generations but the newest, those that are wanted, in either format."""
    rows = [row for row in rows if row["generation"] != generations(state)[-1]]
    wanted = [shown(row) for row in rows]
    found = [json.loads(line) for line in printed(state).splitlines()]
    judge(found == wanted, f"each row has a line: {found}, not {wanted}")
    fields = list(csv.DictReader(io.StringIO(printed(state, "--format", "csv"), newline="")))
    judge([{name: one for name, one in line.items() if one} for line in fields] == [in_csv(line) for line in wanted], f"in CSV too: {fields}")
    user = [line for line in wanted if line.get("User-Name") == "user1"]
    judge([json.loads(line) for line in printed(state, "--user", "user1").splitlines()] == user, "lines of one user can be had")
    middle = wanted[len(wanted) // 2]["time"]
    first, rest = printed(state, "--until", middle), printed(state, "--since", middle)
    judge(first + rest == printed(state) and rest.startswith("{"), "lines of some time can be had")


def printed(state, *words):
    ran = subprocess.run([serving.RADPOOL, "accounting", *words, state], capture_output=True, text=True, timeout=60)
    judge((ran.returncode, ran.stderr) == (0, ""), f"what was recorded is printed: {ran.returncode} {ran.stderr}")
    return ran.stdout


def shown(row):
    """What a line of JSON says of a row."""
    time = datetime.datetime.fromtimestamp(row["time"] / 1000, datetime.timezone.utc).isoformat(timespec="milliseconds")
    line = {"generation": row["generation"], "entry": row["entry"], "time": time.replace("+00:00", "Z"), "client": 0, "source": "127.0.0.1"}
    if row["session"]:
        line["session"] = row["session"]
    for column, name in NAMES.items():
        value = row[column]
        if column == "status":
            value = STATUSES[value]
        elif value is not None and column.endswith("address"):
            value = dotted(value)
        if isinstance(value, bytes):
            line[name + ":hex"] = value.hex()
        elif value is not None:
            line[name] = value
    return line


def in_csv(line):
    """The same in CSV."""
    return {name.removesuffix(":hex"): "\\x" + value if name.endswith(":hex") else str(value) for name, value in line.items()}


# ---- figures


def queries():
    """The shell's and SQL's texts of the section on accounting, by the words before each."""
    with open(OPERATING, encoding="utf-8") as file:
        section = file.read().partition("\n## Who had an address\n")[2].partition("\n## ")[0]
    return re.findall(r"```(sh|sql)\n(.*?)```", section, re.S)


def judge_figures(day, state):
    """The texts of OPERATING.md work as printed, and give what the gateway counted."""
    closed, bill = folder("closed"), os.path.join(folder("bill"), "billing.db")
    for name in os.listdir(state):
        shutil.copy(os.path.join(state, name), closed)
    (_, gather), *texts = queries()
    gather = gather.replace("/var/lib/radpool", closed).replace("/srv/billing.db", bill)
    ran = subprocess.run(["sh", "-e", "-c", gather], capture_output=True, text=True, timeout=60)
    judge((ran.returncode, ran.stderr) == (0, ""), f"closed generations are gathered: {ran.returncode} {ran.stderr}")
    judge(generations(closed) == generations(state)[-2:], f"the two newest generations stay: {generations(closed)}")
    for file in sorted(os.listdir(closed)):
        # The gateway's last hours are in the newest two.
        if file.endswith(".db"):
            for table in ("accounting", "grants"):
                words = [os.path.join(closed, file), f".mode insert {table}", f"SELECT 0, * FROM {table}"]
                rest = subprocess.run(["sqlite3", "-readonly", *words], capture_output=True, text=True, timeout=60)
                judge(rest.stderr == "", f"a closed generation can be read: {rest.stderr}")
                subprocess.run(["sqlite3", bill], input=rest.stdout, text=True, check=True, timeout=60)
    answers = [answer_of(bill, text) for kind, text in texts if kind == "sql"]
    judge(answers == wanted_of(day), f"the figures are the gateway's own: {answers}, not {wanted_of(day)}")


def answer_of(bill, text):
    """What a query gives, without times of day."""
    for printed_text, own in (("(20 << 16) + 7", "(20 << 16) + 2"), ("2026-11-29 14:03'", "now', '+1 minute'"), ("mira@example.net", "user1")):
        text = text.replace(printed_text, own)
    ran = subprocess.run(["sqlite3", "-readonly", bill], input=text, capture_output=True, text=True, timeout=60)
    judge((ran.returncode, ran.stderr) == (0, ""), f"a query works as printed: {ran.returncode} {ran.stderr} {text}")
    return [re.sub(r"\|\d{4}-\d\d-\d\d \d\d:\d\d:\d\d", "", line) for line in ran.stdout.splitlines()]


def wanted_of(day):
    """What the queries are to give, from the gateway's own books."""
    last = [one for one in day.sessions if one.address == bytes((10, 20, 0, 2))][-1]
    had = [f"{last.user.decode()}|{last.number}" + "|" * last.is_open()]
    mira = [one for one in day.sessions if one.user == b"user1"]
    month = [f"{sum(one.octets_in for one in mira)}|{sum(one.octets_out for one in mira)}|{sum(one.seconds for one in mira)}"]
    totals = {}
    for one in day.sessions:
        totals[one.user.decode()] = totals.get(one.user.decode(), 0) + one.octets_in + one.octets_out
    top = [f"{user}|{octets}" for user, octets in sorted(totals.items(), key=lambda item: -item[1])[:10]]
    open_ones = [f"{one.number}|{one.user.decode()}" for one in day.sessions if one.is_open()]
    return [had, month, top, open_ones, [f"{day.lost}"]]
