"""Messages that would take long: edits that missed many components, and reads of old versions."""
import threading

from support.frames import Connection, text
from support.server import Server

TYPE = "http://sharejs.org/types/JSONv0"
COMPONENTS = 256  # of an operation, at most
LONG_TEXT = "a" * 10_000
SPLITS = 8  # edits whose inserts split a deletion beyond the bound
ENTRIES = 28  # an edit of 256 components meets 1.8 million pairs with them
CLIENTS = 40
REFUSED = "ERR_OUT_OF_MEMORY"


def operation(source, seq, **content):
    return {"a": "op", "c": "b", "d": "1", "src": source, "seq": seq, **content}


def answer(client, source, seq, **content):
    """Returns the answer to an operation, after those that it missed."""
    client.send(text(operation(source, seq, **content)))
    while True:
        message = client.message()
        if (message.get("src"), message.get("seq")) == (source, seq):
            return message


def inserts(place):
    return [{"p": [place], "si": "b"}] * COMPONENTS


def test_a_deletion_that_is_split_too_often(program):
    """It is refused before anything is transformed, and stored at a newer base version."""
    with Server(program) as server, server.enter() as client:
        assert client.ask(operation("x", 1, create={"type": TYPE, "data": LONG_TEXT}))["v"] == 0
        for seq in range(2, SPLITS + 2):
            assert client.ask(operation("x", seq, op=inserts(100)))["v"] == seq - 1
        delete, short = [{"p": [0], "sd": LONG_TEXT}], [{"p": [0], "sd": LONG_TEXT[:50]}]
        assert answer(client, "y", 1, v=1, op=delete)["error"]["code"] == REFUSED
        assert answer(client, "y", 2, v=1, op=short)["v"] == SPLITS + 1
        assert answer(client, "y", 1, v=SPLITS + 2, op=short)["v"] == SPLITS + 2
        data = client.ask({"a": "f", "c": "b", "d": "1"})["data"]["data"]
        assert len(data) == len(LONG_TEXT) + SPLITS * COMPONENTS - 100


def late(address, number, answers):
    """Sends an edit that missed everything, and appends the code of its refusal, or None."""
    with Connection(address).enter() as client:
        answers.append(answer(client, f"late-{number}", 1, v=1, op=inserts(0)).get("error", {}).get("code"))


def test_more_long_edits_than_threads(proved_program):
    """Each is stored or refused, and others are answered meanwhile."""
    with Server(proved_program, "--clients", "100") as server, server.enter() as client, server.enter() as other:
        assert client.ask(operation("x", 1, create={"type": TYPE, "data": ""}))["v"] == 0
        for seq in range(2, ENTRIES + 2):
            assert client.ask(operation("x", seq, op=inserts(0)))["v"] == seq - 1
        answers = []
        threads = [threading.Thread(target=late, args=[server.address, number, answers]) for number in range(CLIENTS)]
        for it in threads:
            it.start()
        asked = 0
        while any(it.is_alive() for it in threads):
            asked += 1
            assert other.ask({"a": "f", "c": "other", "d": str(asked)})["data"]["v"] == 0
            with server.enter() as new:
                assert new.ask({"a": "f", "c": "other", "d": "1"})["data"]["v"] == 0
        stored = answers.count(None)
        assert len(answers) == CLIENTS and stored + answers.count(REFUSED) == CLIENTS and stored >= 1
        assert client.ask({"a": "f", "c": "b", "d": "1"})["data"]["v"] == ENTRIES + 1 + stored
