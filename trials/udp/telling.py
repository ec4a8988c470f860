"""What the log and the metrics tell: which report means no session, what was a repeat, and which client it was."""

import re
import socket
import time

from serving import CONFIGURATION, access_request, accounting_request, attribute, attributes_of, judge, path, serving

REPORTS = ["--log", "all", "--metrics", path("metrics"), "--sessions", path("sessions")]
CLIENTS = "".join(
    f'[[client]]\naddress = "127.0.0.{number}"\nsecret = "{secret}"\n' for number, secret in ((2, "xyzzy5461"), (3, "another"), (4, "silent"))
)


def fields_of(line):
    return dict(re.findall(r'(\w+)=("[^"]*"|\S+)', line))


def line_of(lines, event):
    """The fields of the first line of an event, but for its time."""
    for line in lines:
        fields = fields_of(line)
        if fields.pop("event", "") == event:
            judge(re.fullmatch(r"\d{4}-\d\d-\d\dT\d\d:\d\d:\d\d\.\d{3}Z", fields.pop("time")), f"a time is right: {line}")
            return fields
    return {}


def samples(text):
    """The samples of a text in Prometheus' format, by name and labels."""
    return dict(line.rsplit(" ", 1) for line in text.splitlines() if not line.startswith("#"))


def metrics():
    """The samples of the file of the metrics."""
    with open(path("metrics")) as file:
        return samples(file.read())


def ended(server):
    """The lines of events of a server that makes its last turns, while nothing comes; then its metrics are written, too."""
    _, errors = server.process.communicate(timeout=60)
    return [line for line in errors.splitlines() if line.startswith("time=")]


def asked_again(port, request, times):
    """The replies to one request that is sent so often."""
    with socket.socket(socket.AF_INET, socket.SOCK_DGRAM) as client:
        client.bind(("127.0.0.1", 0))
        client.settimeout(5)
        replies = []
        for _ in range(times):
            client.sendto(request, ("127.0.0.1", port))
            replies.append(client.recv(4096))
    return replies


def named(name, session=b""):
    return attributes_of((1, name), *([(25, session)] if session else []))


def judge_told(lines, event, *wanted):
    """Judges that the lines of an event have just these fields among those that are of note, in this order."""
    noted = ("reason", "client", "user", "session", "session_user", "repeat")
    lines = [fields_of(line) for line in lines if f" event={event} " in line]
    found = [{key: fields[key].strip('"') for key in noted if key in fields} for fields in lines]
    judge(found == list(wanted), f"the lines of {event} are right: {found}")


def judge_samples(*wanted):
    told = metrics()
    for name, value in wanted:
        judge(told.get(name) == value, f"{name} is {value}, not {told.get(name)}")


def reports_and_repeats():
    """A report that means no session or another user's, and a repeat, are told and counted as such."""
    unknown = b"RAP1" + (99).to_bytes(8, "big")
    with serving(words=[*REPORTS, "--rounds", "14"], configuration=CONFIGURATION + CLIENTS) as server:
        replies = asked_again(server.auth, access_request(1, b"ann"), 5)
        judge(replies[0][:1] == b"\x02" and set(replies) == {replies[0]}, "five times the same request get one Access-Accept")
        session = attribute(replies[0], 25)
        for identifier, request, source in (
            (2, accounting_request(2, 1, rest=named(b"ann", session)), "127.0.0.1"),
            (3, accounting_request(3, 3, rest=named(b"bo", session)), "127.0.0.1"),
            (4, accounting_request(4, 3, rest=named(b"ann", unknown)), "127.0.0.1"),
            (5, accounting_request(5, 1, rest=named(b"ann", session)), "127.0.0.2"),
            (6, accounting_request(6, 2), "127.0.0.1"),
        ):
            reply = server.ask(server.acct, request, source=(source, 0))
            judge(reply[:2] == bytes([5, identifier]), f"report {identifier} is answered")
        lines = ended(server)
    ann = {"client": "1", "user": "ann", "session": "1"}
    judge_told(lines, "accept", ann, *[{**ann, "repeat": "1"}] * 4)
    judge_told(lines, "start", ann, {**ann, "reason": "no session", "client": "2"})
    judge_told(lines, "interim", {**ann, "user": "bo", "session_user": "ann"}, {**ann, "reason": "no session", "session": "99"})
    judge_told(lines, "stop", {"reason": "no session", "client": "1"})
    judge_samples(
        ('radpool_replies_total{code="Access-Accept"}', "1"),
        ("radpool_repeats_total", "4"),
        ('radpool_reports_total{status="start",session="known"}', "1"),
        ('radpool_reports_total{status="start",session="none"}', "1"),
        ('radpool_reports_total{status="interim",session="known"}', "1"),
        ('radpool_reports_total{status="interim",session="none"}', "1"),
        ('radpool_reports_total{status="stop",session="none"}', "1"),
        ("radpool_reports_of_another_user_total", "1"),
    )
    with serving(words=["--log", "refused", "--rounds", "5"]) as server:
        judge(server.ask(server.auth, access_request(1, b"dee"))[:1] == b"\x02", "dee gets an Access-Accept")
        judge(server.ask(server.acct, accounting_request(2, 3, unknown))[:2] == b"\x05\x02", "the report is answered")
        lines = ended(server)
    judge(len(lines) == 1 and 'event=interim reason="no session"' in lines[0], f"a log of what is refused has that report alone: {lines}")
    print("told: reports of no session or of another user, and repeats")


def each_client():
    """The metrics of each client tell which one has a wrong secret, and which one is silent."""
    with serving(words=[*REPORTS, "--rounds", "12"], configuration=CONFIGURATION + CLIENTS) as server:
        for source, answered in (("127.0.0.1", b"\x05"), ("127.0.0.2", b"\x05"), ("127.0.0.3", b"")):
            for identifier in range(2):
                reply = server.ask(server.acct, accounting_request(identifier), 1, source=(source, 0))
                judge(reply[:1] == answered, f"{source} gets what it should: {reply}")
        ended(server)
    for number in range(1, 5):
        client = f'{{client="{number}",network="127.0.0.{number}/32"'
        requests = "2" if number < 3 else "0"
        judge_samples(
            (f"radpool_client_requests_total{client}}}", requests),
            (f"radpool_client_replies_total{client}}}", requests),
            (f"radpool_client_busy_total{client}}}", "0"),
            (f'radpool_client_discards_total{client},reason="BadAuthenticator"}}', "2" if number == 3 else None),
        )
        last = float(metrics()[f"radpool_client_last_request_timestamp_seconds{client}}}"])
        judge(0 <= time.time() - last < 30 if number < 3 else last == 0, f"client {number} was heard last when it should: {last}")
    print("told: which client is silent, and which one has a wrong secret")


TRIALS = (reports_and_repeats, each_client)
