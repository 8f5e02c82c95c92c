"""SIGTERM and SIGINT end the server gracefully, by the script of examples/deploy and by `serve`: 1001 to each client, status 0.
With --connections it ends after so many sessions."""
import re
import signal
import subprocess

import pytest

from support.frames import Connection
from support.server import END, ROOT, Server

STOPPABLE = ROOT / "examples" / "deploy" / "stoppable"


@pytest.mark.parametrize("number", [signal.SIGTERM, signal.SIGINT])
def test_stoppable(program, number):
    command = [STOPPABLE, program, "--listen", "127.0.0.1:0"]
    with subprocess.Popen(command, stdout=subprocess.PIPE, text=True) as server:
        match = re.fullmatch(r"listening (\S+):(\d+)\n", server.stdout.readline())
        with Connection((match[1], int(match[2]))).enter() as connection:
            server.send_signal(number)
            assert connection.status() == 1001
        server.communicate(timeout=END)
        assert server.returncode == 0


def test_the_server_ends_after_the_sessions_that_connections_permits(program):
    with Server(program, "--connections", "2") as server:
        with server.enter() as first, server.enter():
            with server.connect() as third:
                third.upgrade()
                assert third.status() == 1013
            assert first.ask({"a": "f", "c": "b", "d": "1"})["a"] == "f"
        assert server.process.wait(timeout=END) == 0
