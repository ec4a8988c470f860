"""Trials of clocks that a state goes on by: in another boot, with the time of day set, hour by hour, and while entries are restored."""

import contextlib
import re
import shutil
import signal
import subprocess
import time
import uuid

from gateways import Gateway, Load
from serving import access_request, attribute, judge, path, status_server
from states import RANDOM, Spans, ended, folder, generations, living, mount, pace, pap_log_in, untold
from system import System

BOOT_ID = "/proc/sys/kernel/random/boot_id"
HOUR = 3_600


def another_boot(configuration, ask):
    """After another boot a state goes on by the time of day, and in the same boot by no time that anybody sets."""
    state, system = folder("boots"), System()
    options = {"configuration": configuration, "env": system.environment}
    with living(state, **options) as server:
        first = attribute(ask(server.auth, access_request(1, b"ann")), 8)
        ended(server)
    with boots() as boot:
        for number, is_booted, shift, user, gets in (
            (2, False, HOUR, b"bo", b""),
            (3, True, 0, b"bo", b""),
            (4, True, HOUR, b"bo", first),
            (5, True, -HOUR, b"cy", b""),
        ):
            system.tell("shift", shift)
            if is_booted:
                boot()
            with living(state, **options) as server:
                reply = ask(server.auth, access_request(number, user))
                judge(attribute(reply, 8) == gets, f"{user} gets the address {gets} where the time of day is wrong by {shift} seconds: {reply}")
                ended(server, signal.SIGTERM)
    print("clocks: after another boot a state goes on by the time of day, and never back")


@contextlib.contextmanager
def boots():
    """A function that gives the boot another id, for this process and those that it starts. It needs leave to mount."""

    def boot():
        with open(path("boot"), "w") as file:
            file.write(f"{uuid.uuid4()}\n")

    shutil.copy(BOOT_ID, path("boot"))
    mount("--bind", path("boot"), BOOT_ID)
    try:
        yield boot
    finally:
        subprocess.run(["umount", BOOT_ID], check=True, timeout=60)


def hourly(configuration, ask):
    """A generation begins while the server serves, an hour after the one before if anything was kept since, and its log tells the pause."""
    state, system, request = folder("hourly"), System(), access_request(1, b"ann")
    options = {"configuration": configuration, "env": system.environment}
    with living(state, ["--log", "refused"], **options) as server:
        passes(HOUR / 2, system, server, ask)
        accept = ask(server.auth, request)
        passes(HOUR / 2, system, server, ask)
        judge(generations(state) == [1, 2], f"a generation begins after an hour: {generations(state)}")
        judge(ask(server.auth, request) == accept, "a repeat gets the reply after that")
        time.sleep(1)  # a thread of its own writes the log
        errors = ended(server)
    told = re.findall(r"^radpool: began a generation, paused \d+ ms$", errors, re.M)
    judge(len(told) == 1, f"the log tells that it paused: {errors}")
    with living(state, **options) as server:
        judge(ask(server.auth, request) == accept, "the reply is in what the generation began with")
        judge(attribute(ask(server.auth, access_request(2, b"bo")), 18) == b"no address left", "the session is in it too")
        ended(server)
    with living(state, **options) as server:
        passes(HOUR, system, server, ask)
        judge(generations(state) == [1, 2, 3, 4], f"none begins after an hour in which nothing was kept: {generations(state)}")
        ended(server)
    print("clocks: a generation begins every hour in which anything was kept")


def killed_while_one_begins(configuration, ask):
    """A server that is killed while a generation begins leaves that one or the one before, and both lead to what was answered."""
    state, system = folder("begins"), System()
    options = {"configuration": configuration, "env": system.environment}
    for number in range(8):
        request = access_request(number)
        with living(state, **options) as server:
            passes(HOUR / 2, system, server, ask)
            reply = ask(server.auth, request)
            system.tell("passed", system.count("passed") + HOUR * 500)
            seconds = RANDOM.uniform(0.0005, 0.01) * pace()
            # It answers until one begins, and perhaps until that has begun.
            for other in range(80):
                if not server.ask(server.auth, status_server(other), seconds):
                    break
            ended(server)
        with living(state, **options) as server:
            again = ask(server.auth, request)
            judge(again == reply, f"a repeat gets the reply after a kill {seconds} seconds after a generation began: {again}, not {reply}")
            ended(server)
    print("clocks: a server that is killed while a generation begins leaves what was answered")


def passes(seconds, system, server, ask):
    """Lets so much time pass, and so many turns that a generation can begin."""
    system.tell("passed", system.count("passed") + round(seconds * 1_000))
    for number in range(80):
        ask(server.auth, status_server(number))


def progress(configuration, user):
    """A start that takes long says each second how far it is."""
    state, load, system = folder("progress"), Load(RANDOM, 60), System()
    with living(state, configuration=configuration) as server:
        load.turn_to(server)
        load.ask_all(Gateway(load, "127.0.0.1"), [pap_log_in(user) for _ in range(40)])
        ended(server)
    system.tell("pace", 400)
    with living(state, ["--rounds", "1"], configuration=configuration, env=system.environment) as server:
        errors = untold(server.process.communicate(timeout=60)[1])
    told = [int(number) for number in re.findall(r"^radpool: (\d+) of 40 entries are restored$", errors, re.M)]
    judge(len(told) == errors.count("\n") and len(told) > 5, f"it is told how far a start is: {errors}")
    judge(told == sorted(set(told)) and told[-1] <= 40, f"it says so as it goes on: {told}")
    print("progress: a start that takes long says how far it is")
