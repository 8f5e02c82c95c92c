#!/usr/bin/env python3
"""Measures how long the server waits for clients that send nothing: bench/waits.py SERVER. It takes three minutes.

- 64 clients send a part of a handshake: until a client that comes after them is served.
- A client connects and sends nothing: until the server closes the connection.
- A client completes its handshake, answers nothing and sends nothing: until the server pings it, and until it closes."""
import pathlib
import sys
import time

sys.path.insert(0, str(pathlib.Path(__file__).resolve().parent.parent / "tests"))

from support.frames import PING, handshake, status_of  # noqa: E402
from support.server import Server  # noqa: E402

SERVED = 64


def handshakes_that_stop(server):
    stopped = [server.connect() for _ in range(SERVED)]
    for connection in stopped:
        connection.send(handshake()[:-2])
    began = time.monotonic()
    with server.enter():
        return time.monotonic() - began


def nothing_sent(server):
    with server.connect() as connection:
        began = time.monotonic()
        connection.status()
        return time.monotonic() - began


def silence(server):
    """Returns the seconds until the ping, those until the close, and the status of the close."""
    with server.enter() as connection:
        began = time.monotonic()
        kind, _ = connection.frame()
        assert kind == PING, kind
        pinged = time.monotonic() - began
        _, payload = connection.frame()
        return pinged, time.monotonic() - began, status_of(payload)


def main(program):
    with Server(program) as server:
        print(f"after {SERVED} handshakes that stop, a client is served: {handshakes_that_stop(server):.1f} s", flush=True)
    with Server(program) as server:
        print(f"a connection without a handshake is closed: {nothing_sent(server):.1f} s", flush=True)
        pinged, closed, status = silence(server)
        print(f"a silent client is pinged: {pinged:.0f} s, closed with {status}: {closed:.0f} s")


if __name__ == "__main__":
    if len(sys.argv) != 2:
        sys.exit(__doc__)
    main(sys.argv[1])
