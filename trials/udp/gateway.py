"""A gateway of Debian, l2tpns, which does what Access-Accepts give its users, and disconnects them.

It serves in namespaces of its own, in which this script is what a user dials in with: an L2TP access concentrator (RFC 2661) that speaks PPP
(RFC 1661). Where it isn't installed, or namespaces can't be made, the trial is left out.
"""

import contextlib
import os
import re
import shutil
import socket
import struct
import subprocess
import sys
import time

from serving import SECRET, access_request, attribute, can_be_read, judge, path, serving

L2TPNS = "/usr/sbin/l2tpns"
PLACE = "/etc/l2tpns"  # which it reads, whatever its configuration is
NAMESPACES = ["unshare", "--net", "--mount", "--pid", "--fork", "--kill-child"]
MOUNT = ["mount", "-t", "tmpfs", "none", PLACE]

GATEWAY, CONCENTRATOR, OTHER = "127.0.0.5", "127.0.0.6", "127.0.0.7"
CONFIGURATION = f"""
[[client]]
address = "127.0.0.1"
secret = "{SECRET.decode()}"
[[pool]]
name = "one"
first = "10.98.0.1"
last = "10.98.0.1"
[[group]]
name = "gold"
timeout = 3600
reply = [
    {{ attribute = "Filter-Id", value = "gold.in" }},
    {{ attribute = "Framed-Route", value = "192.0.2.128/25 0.0.0.0 1" }},
    {{ attribute = "Idle-Timeout", value = 600 }},
]
[[user]]
name = "mira"
password = "pw"
pool = "one"
group = "gold"
reply = [
    {{ vendor = 9, attribute = 1, value = "lcp:interface-config#1=service-policy input 128" }},
    {{ vendor = 9, attribute = 1, value = "lcp:interface-config#2=service-policy output 5000" }},
    {{ attribute = "Framed-IPv6-Address", value = "2001:db8::7" }},
    {{ attribute = "Delegated-IPv6-Prefix", value = "2001:db8:7::/48" }},
    {{ attribute = "Framed-IPv6-Route", value = "2001:db8:8::/48 :: 1" }},
]
[[user]]
name = "tuva"
password = "pw"
reply = [
    {{ attribute = "Tunnel-Type", tag = 1, value = "L2TP" }},
    {{ attribute = "Tunnel-Medium-Type", tag = 1, value = "IPv4" }},
    {{ attribute = "Tunnel-Server-Endpoint", tag = 1, value = "{OTHER}" }},
    {{ attribute = "Tunnel-Assignment-ID", tag = 1, value = "east" }},
]
"""
OF_GATEWAY = """
set debug 3
set log_file "{log}"
set pid_file "{log}.pid"
set primary_radius 127.0.0.1
set primary_radius_port {port}
set radius_secret "{secret}"
set radius_authtypes "pap"
set radius_accounting yes
set bind_address {gateway}
set iftun_address 10.99.0.1
set peer_address 10.99.0.1
set cli_bind_address 127.0.0.1
set cluster_interface lo
set cluster_hb_timeout 20
set ipv6_prefix 2001:db8:ffff::
load plugin "autothrottle"
ip access-list extended gold
permit ip any any
exit
"""
SHOWN = (r"IP address:\s+10\.98\.0\.1", r"Sess Timeout:\s+3[56]\d\d seconds", r"Idle Timeout:\s+[56]\d\d seconds", r"Filter in:\s+\d+ \(gold\)",
         r"Throttled:\s+YES \(128kbps/5000kbps\)")
ROUTES = ("192.0.2.128/25", "2001:db8::7", "2001:db8:7::/48", "2001:db8:8::/48")

# ---- L2TP and PPP

SCCRQ, SCCRP, SCCCN, ICRQ, ICRP, ICCN = 1, 2, 3, 10, 11, 12
LCP, PAP, IPCP, IPV6CP = 0xC021, 0xC023, 0x8021, 0x8057
REQUEST, ACK, NAK, ECHO_REQUEST, ECHO_REPLY = 1, 2, 3, 9, 10


def short(number):
    return struct.pack(">H", number)


def long(number):
    return struct.pack(">I", number)


def avps_in(octets):
    """The values of a control message's pairs, by their types."""
    values = {}
    while octets:
        size, _, kind = struct.unpack(">HHH", octets[:6])
        values[kind], octets = octets[6 : size & 0x3FF], octets[size & 0x3FF :]
    return values


def frame_in(data):
    """Protocol, code, identifier and body of the PPP packet in a data message."""
    flags = int.from_bytes(data[:2], "big")
    at = 6 + (2 if flags & 0x4000 else 0) + (4 if flags & 0x0800 else 0) + (2 if flags & 0x0200 else 0)
    frame = data[at:].removeprefix(b"\xff\x03")
    protocol, code, identifier, size = struct.unpack(">HBBH", frame[:6])
    return protocol, code, identifier, frame[6 : 2 + size]


def answers(name, protocol, code, identifier, body):
    """What PPP packets a user sends on one of the gateway's."""
    if code == REQUEST and protocol in (LCP, IPCP, IPV6CP):
        yield protocol, ACK, identifier, body
    if (protocol, code) == (LCP, REQUEST):
        yield PAP, REQUEST, 1, bytes([len(name)]) + name + b"\x02pw"
    if (protocol, code) == (LCP, ECHO_REQUEST):
        yield LCP, ECHO_REPLY, identifier, bytes(4)
    if (protocol, code) == (PAP, ACK):
        yield IPCP, REQUEST, 1, b"\x03\x06" + bytes(4)
        yield IPV6CP, REQUEST, 1, b"\x01\x0a" + bytes(7) + b"\x07"
    if (protocol, code) == (IPCP, NAK):
        yield IPCP, REQUEST, 2, body


class Concentrator:
    """One tunnel to the gateway."""

    def __init__(self):
        self.socket = socket.socket(socket.AF_INET, socket.SOCK_DGRAM)
        self.socket.bind((CONCENTRATOR, 0))
        self.socket.connect((GATEWAY, 1701))
        self.tunnel, self.sent, self.received = 0, 0, 0

    def tell(self, kind, session, *pairs):
        """Sends a control message."""
        octets = b"".join(struct.pack(">HHH", 0x8006 + len(value), 0, of) + value for of, value in ((0, short(kind)), *pairs))
        self.send_control(octets, session)
        self.sent += 1

    def send_control(self, octets, session=0):
        with contextlib.suppress(ConnectionRefusedError):
            self.socket.send(struct.pack(">6H", 0xC802, 12 + len(octets), self.tunnel, session, self.sent, self.received) + octets)

    def send(self, session, protocol, code, identifier, body):
        """Sends a PPP packet."""
        head = struct.pack(">HHH2sHBBH", 2, self.tunnel, session, b"\xff\x03", protocol, code, identifier, 4 + len(body))
        self.socket.send(head + body)

    def hear(self, seconds):
        """The pairs of a control message, which it acknowledges, or a PPP packet; nothing, if none comes."""
        self.socket.settimeout(seconds)
        try:
            data = self.socket.recv(4096)
        except (socket.timeout, ConnectionRefusedError):
            return None
        if not data[0] & 0x80:
            return frame_in(data)
        number = int.from_bytes(data[8:10], "big")
        if len(data) == 12 or number != self.received:
            return None
        self.received += 1
        self.send_control(b"")
        return avps_in(data[12:])

    def hear_control(self, kind):
        until = time.monotonic() + 10
        heard = None
        while time.monotonic() < until and not isinstance(heard, dict):
            heard = self.hear(1)
        judge(heard and heard[0] == short(kind), f"the gateway's next control message is {kind}: {heard}")
        return heard

    def open(self):
        """Opens the tunnel, once the gateway serves."""
        until = time.monotonic() + 30
        heard = None
        while time.monotonic() < until and not heard:
            self.sent = 0
            self.tell(SCCRQ, 0, (2, b"\1\0"), (3, long(3)), (7, b"lac"), (9, short(7)))
            heard = self.hear(1)
            time.sleep(0 if heard else 0.5)
        judge(heard and heard[0] == short(SCCRP), f"the gateway takes a tunnel: {heard}")
        self.tunnel = int.from_bytes(heard[9], "big")
        self.tell(SCCCN, 0)

    def dial(self, number, name, wanted):
        """Logs a user in, and goes on until the gateway has sent these packets. Its number of the session."""
        self.tell(ICRQ, 0, (14, short(number)), (15, long(number)))
        session = int.from_bytes(self.hear_control(ICRP)[14], "big")
        self.tell(ICCN, session, (24, long(1_000_000)), (19, long(1)))
        self.send(session, LCP, REQUEST, 1, b"")
        until = time.monotonic() + 20
        while time.monotonic() < until and wanted:
            heard = self.hear(1)
            if isinstance(heard, tuple):
                wanted = wanted - {heard[:2]}
                for answer in answers(name, *heard):
                    self.send(session, *answer)
        judge(not wanted, f"the gateway goes on with {name}: it sends {wanted}")
        return session


# ---- in the namespaces


def ip(*words):
    return subprocess.run(["ip", *words], capture_output=True, text=True, check=True).stdout


@contextlib.contextmanager
def gateway_of(port):
    """l2tpns, in a group of its own, all of which it ends with itself."""
    subprocess.run(MOUNT, check=True)
    for name, text in (("ip_pool", "10.96.0.0/24\n"), ("users", "")):
        with open(os.path.join(PLACE, name), "w") as file:
            file.write(text)
    with open(path("gateway"), "w") as file:
        file.write(OF_GATEWAY.format(log=path("log"), port=port, secret=SECRET.decode(), gateway=GATEWAY))
    process = subprocess.Popen([L2TPNS, "-c", path("gateway"), "-h", "lns"], stderr=subprocess.DEVNULL, start_new_session=True)
    try:
        yield
    finally:
        process.kill()
        process.wait()


def until_prompt(line):
    told = b""
    while not told.endswith(b"lns> "):
        heard = line.recv(4096)
        judge(heard, f"the gateway shows what it does: {told}")
        told += heard
    return told.decode("latin1")


def shown(session):
    """What the gateway shows of a session."""
    with socket.create_connection(("127.0.0.1", 23), timeout=10) as line:
        until_prompt(line)
        line.sendall(f"show session {session}\r\n".encode())
        return until_prompt(line)


def judge_session(concentrator):
    session = concentrator.dial(21, b"mira", {(PAP, ACK), (IPCP, ACK), (IPV6CP, ACK)})
    told = shown(session)
    for part in SHOWN:
        judge(re.search(part, told), f"the gateway does what mira is given, {part}: {told}")
    routes = ip("route") + ip("-6", "route")
    for route in ROUTES:
        judge(f"{route} dev tun0 " in routes, f"the gateway routes {route} to mira: {routes}")


def judge_tunnel(concentrator):
    """Judges that the gateway begins a tunnel to where Tunnel-Server-Endpoint says."""
    with socket.socket(socket.AF_INET, socket.SOCK_DGRAM) as other:
        other.bind((OTHER, 1701))
        concentrator.dial(22, b"tuva", {(LCP, ACK)})
        judge(can_be_read(other), "the gateway begins a tunnel for tuva")
        judge(avps_in(other.recv(4096)[12:])[0] == short(SCCRQ), "its first message is right")


def judge_disconnect(server):
    """Judges that a Disconnect-Request (RFC 5176) of radclient ends mira's session at the gateway, and the gateway's Stop the one here."""
    words = ["radclient", "-x", f"{GATEWAY}:3799", "disconnect", SECRET.decode()]
    ran = subprocess.run(words, input='User-Name = "mira"\n', capture_output=True, text=True, timeout=60)
    judge("Received Disconnect-ACK " in ran.stdout, f"the gateway disconnects mira: {ran.stdout}{ran.stderr}")
    text, asked = b"session limit", 0
    while text == b"session limit" and asked < 20:
        text, asked = attribute(server.ask(server.auth, access_request(asked, b"mira")), 18), asked + 1
        time.sleep(0.5)
    judge(text == b"no address left", f"her session has ended, and keeps its address for its window: {text}")
    print("gateway: l2tpns disconnects a user for radclient, and its Stop ends the session")


def judge_all():
    ip("link", "set", "lo", "up")
    # The gateway takes the port after that of authentication for accounting.
    with serving(configuration=CONFIGURATION, auth="1812", acct="1813") as server, gateway_of(server.auth):
        concentrator = Concentrator()
        concentrator.open()
        judge_session(concentrator)
        judge_tunnel(concentrator)
        print("gateway: l2tpns has a user's address, timeouts, filter, rates and routes, and tunnels another to the server of its attributes")
        if shutil.which("radclient"):
            judge_disconnect(server)


# ---- the trial


NEEDED = (L2TPNS, PLACE, "/dev/net/tun", "/proc/net/if_inet6")


def has_all():
    """Whether the gateway and what it needs are there."""
    if not all(map(os.path.exists, NEEDED)) or not all(map(shutil.which, ("ip", "unshare"))):
        return False
    return subprocess.run([*NAMESPACES, *MOUNT], stderr=subprocess.DEVNULL).returncode == 0


def is_well():
    ran = subprocess.run([*NAMESPACES, sys.executable, os.path.abspath(__file__)], stdout=sys.stdout, timeout=120)
    return ran.returncode == 0


def gateway_of_debian():
    """A gateway does what users are given."""
    if not has_all():
        print("gateway: left out, for want of l2tpns, or of namespaces, a tun device or IPv6 for it")
        return
    # L2TP's messages may come late on a busy machine, and then a tunnel is given up.
    judge(any(is_well() for _ in range(3)), "a gateway does what users are given, in one of three tries")


TRIALS = (gateway_of_debian,)

if __name__ == "__main__":
    judge_all()
