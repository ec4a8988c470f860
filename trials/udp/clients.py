"""What Access-Accepts give users, as octets and as clients of Debian print it: `radclient` of freeradius-utils, and pyrad.

A client that isn't installed is left out.
"""

import functools
import json
import os
import re
import shutil
import subprocess
import sys
import time
from typing import NamedTuple

from serving import HERE, SECRET, access_request, accounting_request, attribute, attributes_of, judge, path, serving


class Row(NamedTuple):
    """An attribute: what a configuration says, its octets, what radclient prints, and the name and value that pyrad makes of it."""

    said: str
    octets: bytes
    radclient: str
    pyrad: tuple


GROUP = (
    Row('attribute = "Filter-Id", value = "gold"', b"\x0b\x06" b"gold", 'Filter-Id = "gold"', ("Filter-Id", "gold")),
    Row('attribute = "Acct-Interim-Interval", value = 300', b"\x55\x06\0\0\x01\x2c", "Acct-Interim-Interval = 300", ("Acct-Interim-Interval", 300)),
)

# RFC 2865, section 5; RFC 2868, section 3; RFC 2869, section 5.16; RFC 3162, section 2; RFC 4372, section 2.2; RFC 4818, section 3; RFC 4849,
# section 2; RFC 6911, section 3. A Value of 92, which isn't in radpool's dictionary, can be given in hex.
USERS = {
    "mira": (
        Row(
            'vendor = 14988, attribute = 8, value = "10M/10M"', b"\x1a\x0f\0\0\x3a\x8c\x08\x09" b"10M/10M",
            'Mikrotik-Rate-Limit = "10M/10M"', ("Mikrotik-Rate-Limit", "10M/10M"),
        ),
    ),
    "nobody": (),
    "numbers": (
        Row("attribute = 28, value = 4294967295", b"\x1c\x06\xff\xff\xff\xff", "Idle-Timeout = 4294967295", ("Idle-Timeout", 4294967295)),
        Row(
            'attribute = "Termination-Action", value = "RADIUS-Request"', b"\x1d\x06\0\0\0\x01",
            "Termination-Action = RADIUS-Request", ("Termination-Action", "RADIUS-Request"),
        ),
        Row(
            'attribute = "Framed-Compression", value = 1', b"\x0d\x06\0\0\0\x01",
            "Framed-Compression = Van-Jacobson-TCP-IP", ("Framed-Compression", "Van-Jacobson-TCP-IP"),
        ),
    ),
    "texts": (
        Row('attribute = "Callback-Id", value = "fünf"', b"\x14\x07" b"f\xc3\xbcnf", 'Callback-Id = "fünf"', ("Callback-Id", "fünf")),
        Row(
            'attribute = "Framed-Route", value = "192.0.2.0/24 0.0.0.0 1"', b"\x16\x18" b"192.0.2.0/24 0.0.0.0 1",
            'Framed-Route = "192.0.2.0/24 0.0.0.0 1"', ("Framed-Route", "192.0.2.0/24 0.0.0.0 1"),
        ),
        Row(
            'attribute = "Framed-IP-Netmask", value = "255.255.255.192"', b"\x09\x06\xff\xff\xff\xc0",
            "Framed-IP-Netmask = 255.255.255.192", ("Framed-IP-Netmask", "255.255.255.192"),
        ),
        Row(
            'attribute = "Chargeable-User-Identity", hex = "00ff7f"', b"\x59\x05\0\xff\x7f",
            "Chargeable-User-Identity = 0x00ff7f", ("Chargeable-User-Identity", "00ff7f"),
        ),
        Row('attribute = 92, hex = "7065726d6974"', b"\x5c\x08" b"permit", 'NAS-Filter-Rule = "permit"', ("NAS-Filter-Rule", "permit")),
    ),
    "ipv6": (
        Row(
            'attribute = "Framed-Interface-Id", value = "1:22:333:4444"', b"\x60\x0a\0\x01\0\x22\x03\x33\x44\x44",
            "Framed-Interface-Id = 1:22:333:4444", ("Framed-Interface-Id", "0001002203334444"),
        ),
        Row(
            'attribute = "Framed-IPv6-Prefix", value = "2001:db8::/64"', b"\x61\x14\0\x40\x20\x01\x0d\xb8" + bytes(12),
            "Framed-IPv6-Prefix = 2001:db8::/64", ("Framed-IPv6-Prefix", "2001:db8::/64"),
        ),
        Row(
            'attribute = "Framed-IPv6-Address", value = "2001:db8::192.0.2.1"', b"\xa8\x12\x20\x01\x0d\xb8" + bytes(8) + b"\xc0\0\x02\x01",
            "Framed-IPv6-Address = 2001:db8::c000:201", ("Framed-IPv6-Address", "2001:db8::c000:201"),
        ),
        Row(
            'attribute = "DNS-Server-IPv6-Address", value = "2001:db8::36"', b"\xa9\x12\x20\x01\x0d\xb8" + bytes(11) + b"\x36",
            "DNS-Server-IPv6-Address = 2001:db8::36", ("DNS-Server-IPv6-Address", "2001:db8::36"),
        ),
        Row(
            'attribute = "DNS-Server-IPv6-Address", value = "2001:db8::35"', b"\xa9\x12\x20\x01\x0d\xb8" + bytes(11) + b"\x35",
            "DNS-Server-IPv6-Address = 2001:db8::35", ("DNS-Server-IPv6-Address", "2001:db8::35"),
        ),
        Row(
            'attribute = "Delegated-IPv6-Prefix", value = "2001:db8:700::/40"', b"\x7b\x14\0\x28\x20\x01\x0d\xb8\x07" + bytes(11),
            "Delegated-IPv6-Prefix = 2001:db8:700::/40", ("Delegated-IPv6-Prefix", "2001:db8:700::/40"),
        ),
    ),
    "tunnel": (
        Row('attribute = "Tunnel-Type", tag = 1, value = "L2TP"', b"\x40\x06\x01\0\0\x03", "Tunnel-Type:1 = L2TP", ("Tunnel-Type", 0x01000003)),
        Row(
            'attribute = "Tunnel-Medium-Type", tag = 1, value = 1', b"\x41\x06\x01\0\0\x01",
            "Tunnel-Medium-Type:1 = IPv4", ("Tunnel-Medium-Type", 0x01000001),
        ),
        Row(
            'attribute = "Tunnel-Server-Endpoint", tag = 1, value = "192.0.2.7"', b"\x43\x0c\x01" b"192.0.2.7",
            'Tunnel-Server-Endpoint:1 = "192.0.2.7"', ("Tunnel-Server-Endpoint", "\x01192.0.2.7"),
        ),
        Row(
            'attribute = "Tunnel-Preference", tag = 31, value = 66051', b"\x53\x06\x1f\x01\x02\x03",
            "Tunnel-Preference:31 = 66051", ("Tunnel-Preference", 0x1f010203),
        ),
    ),
    "vlan": (
        Row('attribute = "Tunnel-Type", value = "VLAN"', b"\x40\x06\0\0\0\x0d", "Tunnel-Type:0 = VLAN", ("Tunnel-Type", "VLAN")),
        Row(
            'attribute = "Tunnel-Medium-Type", value = "802"', b"\x41\x06\0\0\0\x06",
            "Tunnel-Medium-Type:0 = IEEE-802", ("Tunnel-Medium-Type", "IEEE-802"),
        ),
        Row(
            'attribute = "Tunnel-Private-Group-ID", value = "100"', b"\x51\x05" b"100",
            'Tunnel-Private-Group-Id:0 = "100"', ("Tunnel-Private-Group-Id", "100"),
        ),
    ),
    "vendors": (
        Row(
            "vendor = 14988, attribute = 1, value = 65536", b"\x1a\x0c\0\0\x3a\x8c\x01\x06\0\x01\0\0",
            "Mikrotik-Recv-Limit = 65536", ("Mikrotik-Recv-Limit", 65536),
        ),
        Row(
            'vendor = 311, attribute = 28, value = "192.0.2.53"', b"\x1a\x0c\0\0\x01\x37\x1c\x06\xc0\0\x02\x35",
            "MS-Primary-DNS-Server = 192.0.2.53", ("MS-Primary-DNS-Server", "192.0.2.53"),
        ),
        Row('vendor = 311, attribute = 22, hex = "0102"', b"\x1a\x0a\0\0\x01\x37\x16\x04\x01\x02", "MS-Filter = 0x0102", ("MS-Filter", "0102")),
        Row(
            'attribute = "Vendor-Specific", hex = "000000090105613d31"', b"\x1a\x0b\0\0\0\x09\x01\x05" b"a=1",
            'Cisco-AVPair = "a=1"', ("Cisco-AVPair", "a=1"),
        ),
    ),
}
LOG_INS = 4  # of each user, all at once
CLASS = b"\x19\x0eRAP1"
TIMEOUT = b"\x1b\x06\0\0\x0e\x10"

# What pyrad knows of them. It doesn't decode an interface's identifier.
DICTIONARY = """
VENDOR Cisco 9
VENDOR Microsoft 311
VENDOR Mikrotik 14988
ATTRIBUTE User-Name 1 string
ATTRIBUTE User-Password 2 string
ATTRIBUTE Framed-IP-Address 8 ipaddr
ATTRIBUTE Framed-IP-Netmask 9 ipaddr
ATTRIBUTE Filter-Id 11 string
ATTRIBUTE Framed-Compression 13 integer
ATTRIBUTE Callback-Id 20 string
ATTRIBUTE Framed-Route 22 string
ATTRIBUTE Class 25 octets
ATTRIBUTE Session-Timeout 27 integer
ATTRIBUTE Idle-Timeout 28 integer
ATTRIBUTE Termination-Action 29 integer
ATTRIBUTE Tunnel-Type 64 integer has_tag
ATTRIBUTE Tunnel-Medium-Type 65 integer has_tag
ATTRIBUTE Tunnel-Server-Endpoint 67 string has_tag
ATTRIBUTE Message-Authenticator 80 octets
ATTRIBUTE Tunnel-Private-Group-Id 81 string has_tag
ATTRIBUTE Tunnel-Preference 83 integer has_tag
ATTRIBUTE Acct-Interim-Interval 85 integer
ATTRIBUTE Chargeable-User-Identity 89 octets
ATTRIBUTE NAS-Filter-Rule 92 string
ATTRIBUTE Framed-Interface-Id 96 octets
ATTRIBUTE Framed-IPv6-Prefix 97 ipv6prefix
ATTRIBUTE Delegated-IPv6-Prefix 123 ipv6prefix
ATTRIBUTE Framed-IPv6-Address 168 ipv6addr
ATTRIBUTE DNS-Server-IPv6-Address 169 ipv6addr
VALUE Framed-Compression Van-Jacobson-TCP-IP 1
VALUE Termination-Action RADIUS-Request 1
VALUE Tunnel-Type VLAN 13
VALUE Tunnel-Medium-Type IEEE-802 6
BEGIN-VENDOR Cisco
ATTRIBUTE Cisco-AVPair 1 string
END-VENDOR Cisco
BEGIN-VENDOR Microsoft
ATTRIBUTE MS-Filter 22 octets
ATTRIBUTE MS-Primary-DNS-Server 28 ipaddr
END-VENDOR Microsoft
BEGIN-VENDOR Mikrotik
ATTRIBUTE Mikrotik-Recv-Limit 1 integer
ATTRIBUTE Mikrotik-Rate-Limit 8 string
END-VENDOR Mikrotik
"""


def given(name):
    """What a user's Access-Accepts have of the configuration: a group's attributes come first."""
    return (GROUP if name == "mira" else ()) + USERS[name]


def listed(rows):
    return "reply = [" + ", ".join(f"{{ {row.said} }}" for row in rows) + "]\n"


def user(name):
    group = 'group = "gold"\n' if name == "mira" else ""
    reply = listed(USERS[name]) if USERS[name] else ""
    return f'[[user]]\nname = "{name}"\npassword = "pw"\nsessions = {LOG_INS}\n{group}{reply}'


def configuration():
    client = f'[[client]]\naddress = "127.0.0.1"\nsecret = "{SECRET.decode()}"\n'
    group = f'[[group]]\nname = "gold"\ntimeout = 3600\n{listed(GROUP)}'
    return client + group + "".join(map(user, USERS))


# ---- without a client


def judge_octets(server):
    for number, name in enumerate(USERS, 1):
        states = attributes_of((33, b"one"), (33, b"two"))
        reply = server.ask(server.auth, access_request(number, name.encode(), rest=states))
        timeout = TIMEOUT if name == "mira" else b""
        octets = b"".join(row.octets for row in given(name))
        wanted = b"\x50\x12" + reply[22:38] + timeout + CLASS + number.to_bytes(8, "big") + octets + states
        judge(reply[:2] == bytes([2, number]) and reply[20:] == wanted, f"{name} gets {wanted.hex()}: {reply.hex()}")


# ---- radclient


def received(printed):
    """The lines after the Class, of each Access-Accept that radclient prints."""
    replies = re.findall(r"^Received Access-Accept .*\n(?:\t.*\n)*?\tClass = .*\n((?:\t.*\n)*)", printed, re.MULTILINE)
    return [[line.strip() for line in reply.splitlines()] for reply in replies]


def printed_by_radclient(server, names, kind="User-Password"):
    """What radclient prints of log-ins."""
    requests = "\n\n".join(f'User-Name = "{name}"\n{kind} = "pw"' for name in names)
    words = ["radclient", "-x", "-p", "1", f"127.0.0.1:{server.auth}", "auth", SECRET.decode()]
    ran = subprocess.run(words, input=requests + "\n", capture_output=True, text=True, timeout=60)
    judge(ran.returncode == 0, f"all log in with radclient: {ran.stdout}{ran.stderr}")
    return ran.stdout


def radclient(server):
    """Logs all in by PAP and by CHAP, if radclient is there; says so, or that it isn't."""
    if not shutil.which("radclient"):
        return "radclient is left out, for want of freeradius-utils"
    for kind in ("User-Password", "CHAP-Password"):
        printed = printed_by_radclient(server, USERS, kind)
        replies = received(printed)
        judge(len(replies) == len(USERS), f"radclient prints an Access-Accept for each: {printed}")
        for name, lines in zip(USERS, replies):
            judge(lines == [row.radclient for row in given(name)], f"radclient prints what {name} is given: {lines}")
    return "radclient prints them so by PAP and CHAP"


# ---- pyrad


@functools.cache
def python_of_pyrad():
    """A Python that has pyrad: the system's may be another than this one."""
    for python in ("/usr/bin/python3", sys.executable):
        if os.path.exists(python) and not subprocess.run([python, "-c", "import pyrad.client"], capture_output=True).returncode:
            return python
    return None


def by_name(pairs):
    """Names in the order of their first values, each with its values."""
    values = {}
    for name, value in pairs:
        values.setdefault(name, []).append(value)
    return [[name, several] for name, several in values.items()]


def printed_by_pyrad(server, names):
    """What pyrad makes of log-ins: a line of JSON for each."""
    with open(path("dictionary"), "w") as file:
        file.write(DICTIONARY)
    script = os.path.join(HERE, "pyrad_client.py")
    words = [python_of_pyrad(), script, path("dictionary"), str(server.auth), SECRET.decode(), "pw", *names]
    ran = subprocess.run(words, capture_output=True, text=True, timeout=60)
    judge(ran.returncode == 0, f"all log in with pyrad: {ran.stderr}")
    return ran.stdout.splitlines()


def pyrad(server):
    """Logs all in by PAP, if pyrad is there; says so, or that it isn't."""
    if not python_of_pyrad():
        return "pyrad is left out, for want of python3-pyrad"
    for name, line in zip(USERS, printed_by_pyrad(server, USERS)):
        code, attributes = json.loads(line)
        after = [key for key, _ in attributes].index("Class") + 1
        judge(code == 2 and attributes[after:] == by_name(row.pyrad for row in given(name)), f"pyrad decodes what {name} is given: {line}")
    return "pyrad decodes them so"


# ---- an address of a user's own

OWN = b"\xc0\0\x02\x07"
OF_A_POOL = b"\xc0\0\x02\x08"
CLASS_OF_ONE = b"RAP1" + (1).to_bytes(8, "big")
OWN_ADDRESS = f"""
window = 1
hold = 30
[[client]]
address = "127.0.0.1"
secret = "{SECRET.decode()}"
[[pool]]
name = "one"
first = "192.0.2.8"
last = "192.0.2.8"
[[group]]
name = "plan"
pool = "one"
sessions = 9
[[user]]
name = "mira"
password = "pw"
group = "plan"
address = "192.0.2.7"
[[user]]
name = "jon"
password = "pw"
group = "plan"
"""


def judge_own_address(server, number, log_in):
    """Judges that mira gets her address, for one session, and that it is free once that has ended and its window is over."""
    judge(log_in(server), f"mira gets the address of her own: {log_in.__name__}")
    reply = server.ask(server.auth, access_request(number, b"mira"))
    judge(attribute(reply, 18) == b"session limit", f"the address is for one session: {reply.hex()}")
    stop = accounting_request(number, 2, rest=attributes_of((8, OWN)))
    judge(server.ask(server.acct, stop)[:2] == bytes([5, number]), "a Stop that names the session by its address is answered")
    time.sleep(1.1)


def own_by_octets(server):
    return attribute(server.ask(server.auth, access_request(100, b"mira")), 8) == OWN


def own_by_radclient(server):
    return "\tFramed-IP-Address = 192.0.2.7\n" in printed_by_radclient(server, ["mira"])


def own_by_pyrad(server):
    return '["Framed-IP-Address", ["192.0.2.7"]]' in printed_by_pyrad(server, ["mira"])[0]


def own_address():
    """An address of a user's own is given again and again, to one session at a time, and to nobody else."""
    with serving(configuration=OWN_ADDRESS) as server:
        log_ins = [own_by_octets] + [own_by_radclient] * bool(shutil.which("radclient")) + [own_by_pyrad] * bool(python_of_pyrad())
        for number, log_in in enumerate(log_ins, 1):
            judge_own_address(server, number, log_in)
        reply = server.ask(server.auth, access_request(10, b"jon"))
        judge(attribute(reply, 8) == OF_A_POOL, f"jon gets an address of the pool: {reply.hex()}")
        reply = server.ask(server.auth, access_request(11, b"jon"))
        judge(attribute(reply, 18) == b"no address left", f"mira's address is not jon's, though it is free: {reply.hex()}")
        judge(own_by_octets(server), "mira gets the address of her own beside jon")
    print("clients: an address of a user's own is given to one session at a time, and to nobody else")


# ---- a stuck session


def text_for_jon(server, number):
    """The Reply-Message of a log-in of jon, if any: with the address of the pool none."""
    reply = server.ask(server.auth, access_request(number, b"jon"))
    judge(attribute(reply, 8) in (b"", OF_A_POOL), f"jon gets no other address: {reply.hex()}")
    return attribute(reply, 18).decode() if reply[:1] == b"\x03" else ""


def stuck_session():
    """A session whose gateway has forgotten it ends by a Stop of radclient with its Class."""
    if not shutil.which("radclient"):
        print("clients: a Stop of radclient is left out, for want of freeradius-utils")
        return
    with serving(configuration=OWN_ADDRESS) as server:
        judge(text_for_jon(server, 1) == "", "jon gets the address of the pool")
        judge(server.ask(server.acct, accounting_request(2, 1, CLASS_OF_ONE))[:2] == b"\x05\x02", "his Start is answered")
        time.sleep(1.1)
        judge(text_for_jon(server, 3) == "no address left", "his session has it")
        words = ["radclient", f"127.0.0.1:{server.acct}", "acct", SECRET.decode()]
        ran = subprocess.run(words, input=f"Acct-Status-Type = Stop, Class = 0x{CLASS_OF_ONE.hex()}\n", capture_output=True, text=True, timeout=60)
        judge(ran.returncode == 0, f"the Stop is answered: {ran.stdout}{ran.stderr}")
        judge(text_for_jon(server, 4) == "", "once his session has ended, jon gets the address again")
    print("clients: a Stop of radclient with the Class of a session frees its address")


# ---- the trial


def clients_of_debian():
    """What users are given arrives, each attribute as it is meant."""
    with serving(configuration=configuration()) as server:
        judge_octets(server)
        said = [radclient(server), pyrad(server)]
        server.answers("after clients of Debian")
    print(f"clients: {len(USERS)} users get the attributes that they are given; {'; '.join(said)}")


TRIALS = (clients_of_debian, own_address, stuck_session)
