"""Descriptors run out, half-open connections, a read of an older version after an absent one, and an input that ends at a start."""
import resource
import socket
import subprocess
import time

import pytest

from support.frames import Connection, text
from support.server import END, Server

TYPE = "http://sharejs.org/types/JSONv0"
DESCRIPTORS, SOCKETS = 40, 60
PAUSE = 4  # seconds in which the server accepts what it can
SPAN = 8192  # entries between two kept snapshots of a log
BATCH = 400  # submissions that are sent at once
READ = 60  # seconds in which a read must end
STARTS = 30
CLIENTS, OTHERS = 8, 64  # clients, and connections beside them
HALF_OPEN = 3 * (CLIENTS + OTHERS)


def edit(seq, **content):
    return {"a": "op", "c": "b", "d": "1", "seq": seq, "src": "x", **content}


def create():
    return {"create": {"type": TYPE, "data": {"n": 0}}}


def add():
    return {"op": [{"p": ["n"], "na": 1}]}


@pytest.mark.parametrize("has_store", [False, True])
def test_descriptors_run_out(program, tmp_path, has_store):
    """Clients and the store go on, and new clients are served once there are descriptors again."""
    options = ["--store", str(tmp_path / "store")] if has_store else []
    with Server(program, "--until-eof", "--clients", "500", *options) as server, server.enter() as client:
        assert client.ask(edit(1, **create()))["v"] == 0
        resource.prlimit(server.process.pid, resource.RLIMIT_NOFILE, (DESCRIPTORS, DESCRIPTORS))
        sockets = [socket.create_connection(server.address, END) for _ in range(SOCKETS)]
        time.sleep(PAUSE)
        assert server.sockets() < DESCRIPTORS
        assert client.ask(edit(2, **add()))["v"] == 1
        for it in sockets:
            it.close()
        with Connection(server.address, END).enter() as late:
            assert late.ask({"a": "f", "c": "b", "d": "1"})["data"] == {"v": 2, "data": {"n": 1}}
        server.process.stdin.close()
        assert server.process.wait(timeout=END) == 0


@pytest.mark.parametrize("loops", ["1", "3"])
def test_half_open_connections(program, loops):
    """They take all the room, and go on coming. New clients are served in a second all the same."""
    with Server(program, "--clients", str(CLIENTS), "--loops", loops) as server, server.enter() as client:
        halves = []
        for _ in range(3):
            halves += [socket.create_connection(server.address, END) for _ in range(HALF_OPEN)]
            start = time.monotonic()
            with Connection(server.address, END).enter() as late:
                assert late.ask({"a": "f", "c": "b", "d": "1"})["data"]["v"] == 0
            assert time.monotonic() - start < 1
            assert client.ask({"a": "f", "c": "b", "d": "1"})["data"]["v"] == 0
        for it in halves:
            it.close()


def store_many(connection, first, last):
    """Stores edits with these numbers. Returns the version of the last one."""
    answer = None
    for start in range(first, last, BATCH):
        numbers = range(start, min(start + BATCH, last))
        connection.send(b"".join(text(edit(number, **add())) for number in numbers))
        for _ in numbers:
            answer = connection.message()
            assert "error" not in answer
    return answer["v"]


@pytest.mark.slow
def test_a_read_after_an_absent_version_ends(program):
    """The document is absent at the version whose snapshot would be kept. Reads of later versions are answered, and hold up no
    other client."""
    with Server(program, "--loops", "2") as server, server.enter() as client, server.enter() as reader, server.enter() as other:
        client.ask(edit(1, **create()))
        assert store_many(client, 2, SPAN) == SPAN - 2
        assert client.ask(edit(SPAN, **{"del": True}))["v"] == SPAN - 1
        assert client.ask(edit(SPAN + 1, **create()))["v"] == SPAN
        store_many(client, SPAN + 2, SPAN + 12)
        for connection in (reader, other):
            connection.socket.settimeout(READ)
        read = {"a": "nf", "c": "b", "d": "1", "id": 1}
        for version, data in ((SPAN + 5, {"n": 4}), (SPAN, None), (SPAN - 1, {"n": SPAN - 2}), (SPAN + 11, {"n": 10})):
            reader.send(text({**read, "v": version}))
            assert other.ask({"a": "f", "c": "other", "d": "1"})["data"]["v"] == 0
            answer = reader.message()
            assert (answer["v"], answer.get("data")) == (version, data)


@pytest.mark.parametrize("options", [[], ["--loops", "1"], ["--loops", "4"]])
def test_an_input_that_ends_at_a_start(program, options):
    """The end of the input comes while the loops are prepared, and ends the program."""
    command = [program, "--listen", "127.0.0.1:0", "--until-eof", *options]
    for _ in range(STARTS // 3):
        ended = subprocess.run(command, stdin=subprocess.DEVNULL, capture_output=True, text=True, timeout=END, check=False)
        assert (ended.returncode, ended.stderr) == (0, "ended: 0 documents, 0 operations\n")
        assert ended.stdout.startswith("listening ")
