"""The memory that clients can hold, by the proved program."""
import time

import attacks
import pytest
from support.dialogue import ROOT
from support.frames import frame, text
from support.server import Server
from test_all_at_once import HELD

LONG_LOG, LISTERS, LIST_HELD = 200_000, 8, 1  # operations of a log, clients that list it, and megabytes for each
LISTED = {"c": "long", "d": "1"}
TEXT_LENGTH, PART = 20_000_000, 500_000  # bytes of the text of a document, and of an operation that adds to it
READERS, DOCUMENT_HELD = 8, 1  # clients that request it, and megabytes for each
QUEUES, INSERTS, INSERTED, QUEUE_HELD = (
    64,
    4,
    100_000,
    2,
)  # of a session; operations of each, their bytes, megabytes for each reader
REQUESTS = ({"a": "f"}, {"a": "s"}, {"a": "nf", "id": 1}, {"a": "nt", "id": 1})
MESSAGES = attacks.DENSE + attacks.CREATES


def test_readme_has_the_bound():
    row = next(line for line in (ROOT / "README.md").read_text().splitlines() if "Memory that each of 64 clients can hold" in line)
    assert f" {HELD} MB" in row


@pytest.mark.slow
@pytest.mark.parametrize("number", range(len(MESSAGES)))
def test_large_message(proved_program, number):
    """64 clients send the last byte of a message of a megabyte at one moment."""
    with Server(proved_program) as server:
        base = server.megabytes()
        connections = [server.enter() for _ in range(attacks.SERVED)]
        data = frame(MESSAGES[number])
        for connection in connections:
            connection.send(data[:-1])
        for connection in connections:
            connection.send(data[-1:])
        for connection in connections:
            connection.message()
        held = (server.megabytes("VmHWM") - base) / attacks.SERVED
    print(f"{held:.0f} MB")
    assert held <= HELD


def store_many(server, count):
    """Stores a document and `count` edits of it, a thousand at a time."""
    with server.enter() as writer:
        writer.ask({"a": "op", **LISTED, "src": "writer", "seq": 1, "create": {"type": "json0", "data": 0}})
        edit = {"a": "op", **LISTED, "src": "writer", "op": [{"p": [], "na": 1}]}
        for first in range(2, count + 2, 1_000):
            edits = range(first, min(first + 1_000, count + 2))
            writer.send(b"".join(text({**edit, "seq": it}) for it in edits))
            for _ in edits:
                writer.frame()


@pytest.mark.slow
def test_list_that_nobody_reads(proved_program):
    """Clients request all operations of a long log, by `f` or by `s`, and read none until the server disconnects them."""
    with Server(proved_program) as server:
        store_many(server, LONG_LOG)
        attacks.wait_for_sockets(server, 1)
        base = server.megabytes()
        server.restart_maximum()
        listers = [server.enter() for _ in range(LISTERS)]
        for number, lister in enumerate(listers):
            lister.send(text({"a": "fs"[number % 2], **LISTED, "v": 0}))
        attacks.wait_for_sockets(server, 1)
        held = (server.megabytes("VmHWM") - base) / LISTERS
    print(f"{held:.2f} MB")
    assert held <= LIST_HELD


def store_text(server):
    with server.enter() as writer:
        writer.ask({"a": "op", **LISTED, "src": "writer", "seq": 1, "create": {"type": "json0", "data": {"t": ""}}})
        for at in range(0, TEXT_LENGTH, PART):
            op = [{"p": ["t", at], "si": "y" * PART}]
            answer = writer.ask({"a": "op", **LISTED, "src": "writer", "seq": at // PART + 2, "op": op})
            assert "error" not in answer


@pytest.mark.slow
def test_document_that_nobody_reads(proved_program):
    """Clients request a large document and read nothing until the server disconnects them."""
    with Server(proved_program) as server:
        store_text(server)
        attacks.wait_for_sockets(server, 1)
        base = server.megabytes()
        server.restart_maximum()
        readers = [server.enter() for _ in range(READERS)]
        for number, reader in enumerate(readers):
            reader.send(text({**REQUESTS[number % len(REQUESTS)], **LISTED}))
        attacks.wait_for_sockets(server, 1)
        held = (server.megabytes("VmHWM") - base) / READERS
    print(f"{held:.2f} MB")
    assert held <= DOCUMENT_HELD


def memory_of_queues(program, count):
    """Returns the most memory of a server while so many clients are subscribed to large operations and read none of them."""
    with Server(program) as server:
        readers = [server.enter() for _ in range(count)]
        for reader in readers:
            for document in range(QUEUES):
                reader.ask({"a": "s", "c": "queues", "d": str(document)})
        with server.enter() as writer:
            for number in range(QUEUES * (INSERTS + 1)):
                version, document = divmod(number, QUEUES)
                edit = {"op": [{"p": [0], "si": "y" * INSERTED}]} if version else {"create": {"type": "json0", "data": ""}}
                key = {"c": "queues", "d": str(document), "src": f"w{document}", "seq": version + 1}
                assert writer.ask({"a": "op", **key, "v": version, **edit})["v"] == version
        time.sleep(2)
        most = server.megabytes("VmHWM")
        for reader in readers:
            reader.socket.close()
    return most


@pytest.mark.slow
def test_queues_that_nobody_reads(proved_program):
    """Each client has 64 queues with large operations. A pump prints a part of one of them before it compares with its bound."""
    held = (memory_of_queues(proved_program, READERS) - memory_of_queues(proved_program, 0)) / READERS
    print(f"{held:.2f} MB")
    assert held <= QUEUE_HELD
