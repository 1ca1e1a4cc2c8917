"""Servers that are away, clocks that are set, and addresses that change."""

from __future__ import annotations

import os
import socket
import ssl
import subprocess
import time
from pathlib import Path
from typing import List

from cases.stage import NAMES, TICK_SECONDS, LeftOut, Stage, demand
from parts.clock import until_next


def outage(stage: Stage) -> None:
    """A server is away for many ticks, within a phase. No more than a tick waits for it, so turns don't run by when it
    is back."""
    stage.make(2, 12)
    stage.start()
    stage.wrote(0, 2)
    server = stage.servers[1]
    server.kill()
    ticks = [it.ticks() for it in stage.members]
    stage.say(2)
    came = comings(stage, 20 * TICK_SECONDS)
    demand(len(came) <= 75, f"in {20 * TICK_SECONDS} s members came {len(came)} times to a server that was away")
    for member, before in zip(stage.members, ticks):
        # (one may be given before the member knows that the server is away, and one waits)
        demand(member.ticks() <= before + 2, f"{member.ticks() - before} ticks were given while a server was away")
    server.start()
    began, ticks = time.monotonic(), [it.ticks() for it in stage.members]
    stage.wrote(0, stage.written(0) + 4)
    given = [it.ticks() - before for it, before in zip(stage.members, ticks)]
    most = (time.monotonic() - began) / TICK_SECONDS + 2
    demand(max(given) <= most, f"{given} ticks in the time of {most:.1f}")
    stage.end_all()
    stage.compare()
    stage.pads()


def comings(stage: Stage, seconds: float) -> List[float]:
    """When members come to server 2 within so many seconds, where somebody else closes each link at once."""
    end, came = time.monotonic() + seconds, []
    with socket.create_server(stage.addresses[1]) as listening:
        while time.monotonic() < end:
            listening.settimeout(max(0.01, end - time.monotonic()))
            try:
                listening.accept()[0].close()
            except OSError:
                break
            came.append(time.monotonic())
    return came


def check_ticks(stage: Stage) -> None:
    """However a clock is set, between two ticks are half a tick at least, and one and a half at most."""
    for _ in range(1000):
        tick, now = stage.rng.uniform(0.01, 100), stage.rng.choice([-1, 1]) * stage.rng.uniform(0, 1e9)
        wait = until_next(now, tick, False)
        demand(tick / 2 <= wait <= 1.5 * tick, f"at {now} the next tick of {tick} s is waited for {wait} s")
        demand(0 <= until_next(now, tick, True) <= tick, "the first tick is waited for too long")


def clock_steps(stage: Stage) -> None:
    """Clocks are set an hour back and ahead, and a day. The group goes on at its pace, and certificates are good."""
    check_ticks(stage)
    stage.make(4, 4)
    clocks = [stage.folder / f"clock-{client}" for client in range(3)]
    for server in stage.servers:
        server.start()
    for member, clock in zip(stage.members, clocks):
        member.start(clock=str(clock))
    stage.say(2)
    stage.wrote(0, 2)
    for step in stage.rng.sample([-3600.0, 3600.0, -86_400.5, 0.6 * TICK_SECONDS, -0.6 * TICK_SECONDS, 7e8], 5):
        clock = stage.rng.choice(clocks)
        Path(f"{clock}.new").write_text(str(step))
        Path(f"{clock}.new").rename(clock)
        stage.wrote(0, stage.written(0) + 2)
    stage.end_all()
    stage.compare()
    for name in NAMES:
        words = ["openssl", "x509", "-noout", "-startdate", "-in", stage.folder / name / "cert.pem"]
        made = subprocess.run(words, stdout=subprocess.PIPE, check=True).stdout.decode().strip()
        began = ssl.cert_time_to_seconds(made.partition("=")[2])
        demand(time.time() - began > 86_000, f"a certificate begins at {made}")


def address_change(stage: Stage) -> None:
    """A member's address changes while it is linked: it comes again from the new one, and the group goes on."""
    hub, far = (f"talek-{name}-{os.getpid()}" for name in ("hub", "far"))
    try:
        make_namespaces(hub, far)
    except (OSError, subprocess.CalledProcessError):
        drop_namespaces(hub, far)
        raise LeftOut("it needs network namespaces, which only root may make") from None
    try:
        stage.make(4, 3, host="10.77.0.1")
        for end in [*stage.servers, *stage.members[:2]]:
            end.start(namespace=hub)
        stage.members[2].start(namespace=far)
        stage.say(1)
        stage.wrote(2, 2)
        command(f"ip -n {far} addr add 10.77.0.3/24 dev to-hub")
        command(f"ip -n {far} addr del 10.77.0.2/24 dev to-hub")
        command(f"ip -n {far} addr replace 10.77.0.3/24 dev to-hub")
        began, before = time.monotonic(), stage.written(2)
        stage.wrote(2, before + 4)
        stage.notes.append(f"an address changed: {time.monotonic() - began:.0f} s to go on")
        stage.end_all()
        stage.compare()
        stage.pads()
    finally:
        stage.kill_all()
        drop_namespaces(hub, far)


def make_namespaces(hub: str, far: str) -> None:
    """Two namespaces with a line between them."""
    for name in (hub, far):
        command(f"ip netns add {name}")
        command(f"ip -n {name} link set lo up")
    command(f"ip -n {hub} link add to-far type veth peer name to-hub netns {far}")
    command(f"ip -n {hub} addr add 10.77.0.1/24 dev to-far")
    command(f"ip -n {far} addr add 10.77.0.2/24 dev to-hub")
    command(f"ip -n {hub} link set to-far up")
    command(f"ip -n {far} link set to-hub up")


def drop_namespaces(*names: str) -> None:
    for name in names:
        subprocess.run(["ip", "netns", "del", name], stderr=subprocess.DEVNULL, check=False)


def command(words: str) -> None:
    subprocess.run(words.split(), check=True, stdout=subprocess.DEVNULL, stderr=subprocess.DEVNULL)
