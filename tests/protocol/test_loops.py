"""Clients of one event loop."""
import select

import pytest

from support.frames import frame, text
from support.server import Server

LONG = {"c": "board", "d": "long"}
SHORT = {"c": "board", "d": "short"}
EDIT = [{"p": ["t", 0], "si": "a"}] * 256
ENTRIES = 8
EXCHANGES = 5
TURN = 64  # messages that are answered in one turn
LARGE = 80_000  # bytes: a client with a message of this length waits for one of four places


@pytest.fixture
def one_loop(program, monkeypatch):
    monkeypatch.delenv("SERVER_OPTIONS", raising=False)
    with Server(program, "--loops", "1") as server:
        yield server


def create(connection, place):
    return connection.ask({"a": "op", **place, "v": 0, "seq": 1, "create": {"type": "json0", "data": {"t": ""}}})


def edit(place, seq, version):
    return {"a": "op", **place, "v": version, "seq": seq, "op": EDIT}


def is_acknowledged(message, seq):
    return (message["a"], message.get("src"), message.get("seq")) == ("op", "s1", seq)


def is_readable(connection):
    return bool(connection.received) or bool(select.select([connection.socket], [], [], 0)[0])


def test_a_long_turn_does_not_hold_up_the_loop(one_loop):
    """A late edit is transformed against 2,048 components, each of its 256: fractions of a second. Meanwhile the loop's other
    client exchanges messages."""
    with one_loop.enter() as late, one_loop.enter() as other:
        create(other, SHORT)
        create(other, LONG)
        for number in range(ENTRIES):
            other.ask(edit(LONG, number + 2, number + 1))
        late.send(text(edit(LONG, 1, 1)))
        for _ in range(EXCHANGES):
            assert other.ask({"a": "f", **SHORT})["a"] == "f"
        assert not is_readable(late)
        missed = [late.message()["v"] for _ in range(ENTRIES)]
        assert missed == list(range(1, ENTRIES + 1))
        assert late.message() == {"a": "op", **LONG, "v": ENTRIES + 1, "seq": 1, "src": "s1"}


def test_a_client_in_a_long_turn_is_served_afterwards(one_loop):
    """What comes for a client during its long turn, a message of its own and an operation of its queue, is answered then."""
    with one_loop.enter() as late, one_loop.enter() as other:
        create(other, SHORT)
        create(other, LONG)
        late.ask({"a": "s", **SHORT})
        for number in range(ENTRIES):
            other.ask(edit(LONG, number + 2, number + 1))
        late.send(text(edit(LONG, 1, 1)))
        other.ask({"a": "op", **SHORT, "v": 1, "seq": 100, "op": [{"p": ["t", 0], "si": "b"}]})
        late.send(text({"a": "hs"}))
        messages = [late.message() for _ in range(ENTRIES + 3)]
        assert [it["v"] for it in messages if it["a"] == "op" and it["d"] == "long"] == list(range(1, ENTRIES + 2))
        assert [it["op"][0]["si"] for it in messages if it["a"] == "op" and it["d"] == "short"] == ["b"]
        assert len([it for it in messages if it["a"] == "hs"]) == 1


def test_a_client_with_two_long_turns_in_a_row(one_loop):
    """A client subscribes at the end of a long turn, and its next turn is long too. An operation that is stored meanwhile is
    sent to it afterwards."""
    with one_loop.enter() as late, one_loop.enter() as other:
        create(other, SHORT)
        create(other, LONG)
        for number in range(2):
            other.ask(edit(LONG, number + 2, number + 1))
        first_turn = [{"a": "s", **SHORT}] + [{"a": "f", "c": "board", "d": "none"}] * (TURN - 2) + [edit(LONG, 1, 1)]
        late.send(b"".join(map(text, [*first_turn, edit(LONG, 2, 1)])))
        while not is_acknowledged(late.message(), 1):
            pass
        other.ask({"a": "op", **SHORT, "v": 1, "seq": 100, "op": [{"p": ["t", 0], "si": "b"}]})
        found = set()
        while found != {"acknowledgement", "operation"}:
            message = late.message()
            if is_acknowledged(message, 2):
                found.add("acknowledgement")
            if message["d"] == "short":
                found.add("operation")


def large_message(number):
    data = {"a": "op", "c": "board", "d": str(number), "v": 0, "seq": 1, "create": {"type": "json0", "data": "x" * LARGE}}
    return text(data)


def test_clients_with_large_messages_are_served_in_turn(one_loop):
    """Twelve clients send large messages at once. Each is answered, and so is a client with small ones meanwhile."""
    others = [one_loop.enter() for _ in range(12)]
    messages = [large_message(number) for number in range(len(others))]
    with one_loop.enter() as small:
        for other, message in zip(others, messages):
            other.send(message[:-1])
        for other, message in zip(others, messages):
            other.send(message[-1:])
        for _ in range(EXCHANGES):
            assert small.ask({"a": "f", **SHORT})["a"] == "f"
        for number, other in enumerate(others):
            assert other.message() == {"a": "op", "c": "board", "d": str(number), "v": 0, "seq": 1, "src": f"s{number + 1}"}
    for other in others:
        other.tear()


def test_a_large_message_in_fragments_is_answered(one_loop):
    """Each fragment is small, and the message is large. The client then sends a small one."""
    with one_loop.enter() as connection:
        data = b'{"a":"op","c":"board","d":"1","v":0,"seq":1,"create":{"type":"json0","data":"' + b"x" * LARGE + b'"}}'
        parts = [data[start : start + 9_000] for start in range(0, len(data), 9_000)]
        for number, part in enumerate(parts):
            connection.send(frame(part, 0 if number else 1, last=number == len(parts) - 1))
        assert connection.message() == {"a": "op", "c": "board", "d": "1", "v": 0, "seq": 1, "src": "s1"}
        assert connection.ask({"a": "f", **SHORT})["a"] == "f"
