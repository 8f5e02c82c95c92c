"""Documents that are sent in parts, each a frame of one fragmented message."""
import json
import time

import pytest
from support.frames import CLOSE, CONTINUATION, PING, PONG, TEXT, frame, text
from support.server import Server

PLACE = {"c": "board", "d": "large"}
SOCKET = 8_000_000  # bytes: more than the sockets of both sides hold
VALUES = {
    "text": '\u00e9"\n\u2603\U0001f600' * 30_000,
    "texts": ["a" * 5_000, "\\" * 5_000, "\u0001" * 5_000] * 10,
    "list": list(range(40_000)),
    "lists": [[[], {}, None, True, -7, "x"] * 50] * 200,
    "object": {f"key {it}": it for it in range(10_000)},
    "nested": {"a": [{"b": ["c" * 70_000, {"d": "e" * 70_000}]}], "f": {"g": {"h": [1] * 40_000}}},
}


@pytest.fixture
def server(program):
    with Server(program) as server:
        yield server


def store(connection, value, place=PLACE):
    """Stores a document of any length: a message has at most a megabyte, so texts are inserted in parts."""
    answer = connection.ask({"a": "op", **place, "v": 0, "seq": 1, "create": {"type": "json0", "data": value}})
    assert "error" not in answer


def store_long_text(connection, length, place=PLACE):
    store(connection, {"t": ""}, place)
    part, seq = "y" * 500_000, 1
    for at in range(0, length, len(part)):
        seq += 1
        answer = connection.ask({"a": "op", **place, "seq": seq, "op": [{"p": ["t", at], "si": part}]})
        assert "error" not in answer


def fragments_of(connection):
    """Returns the frames of the next message."""
    frames = []
    while not frames or not frames[-1][0]:
        frames.append(next_fragment(connection))
    return frames


def next_fragment(connection):
    """Returns the next frame that is no ping."""
    while True:
        fragment = connection.fragment()
        if fragment[1] != PING:
            return fragment


def begin_document(connection):
    """Reads the first frame of a document of several."""
    is_last, kind, payload = next_fragment(connection)
    assert (is_last, kind) == (False, TEXT)
    connection.kind, connection.fragments = kind, [payload]


def next_message(connection):
    """Returns the kind and the payload of the next message, or of a control frame that is no ping."""
    while True:
        kind, payload = connection.frame()
        if kind != PING:
            return kind, payload


@pytest.mark.parametrize("name", VALUES)
def test_a_large_document_is_equal(server, name):
    """By a fetch, a subscription and a fetch by version, the text is that of compact JSON with sorted members."""
    value = VALUES[name]
    data = json.dumps(value, ensure_ascii=False, separators=(",", ":"), sort_keys=True)
    head = '"c":"board","d":"large","data":{"data":'
    kind = "http://sharejs.org/types/JSONv0"
    with server.enter() as connection:
        store(connection, value)
        for request, expected in (
            ({"a": "f", **PLACE}, f'{{"a":"f",{head}{data},"v":1}}}}'),
            ({"a": "s", **PLACE}, f'{{"a":"s",{head}{data},"v":1}}}}'),
            ({"a": "nf", "id": 9, **PLACE, "v": 1}, f'{{"a":"nf","data":{data},"id":9,"type":"{kind}","v":1}}'),
            ({"a": "nt", "id": 9, **PLACE}, f'{{"a":"nt","data":{data},"id":9,"type":"{kind}","v":1}}'),
        ):
            connection.send(text(request))
            assert next_message(connection) == (TEXT, expected.encode())


def test_a_large_document_comes_in_fragments(server):
    with server.enter() as connection:
        store(connection, VALUES["text"])
        connection.send(text({"a": "f", **PLACE}))
        frames = fragments_of(connection)
        assert [kind for _, kind, _ in frames] == [TEXT] + [CONTINUATION] * (len(frames) - 1)
        assert len(frames) > 3
        assert max(len(payload) for _, _, payload in frames) < 200_000
        for _, _, payload in frames:
            payload.decode()


def test_a_small_document_comes_in_one_frame(server):
    with server.enter() as connection:
        store(connection, "z" * 60_000)
        connection.send(text({"a": "f", **PLACE}))
        assert len(fragments_of(connection)) == 1


def test_an_operation_comes_after_the_document(server):
    """The client reads its document only after another client's operation is stored. The document has the version that it was
    read at, and the operation follows."""
    with server.enter() as writer, server.enter() as reader:
        store_long_text(writer, SOCKET)
        version = writer.ask({"a": "op", **PLACE, "seq": 100, "op": [{"p": ["n"], "oi": 1}]})["v"] + 1
        reader.send(text({"a": "s", **PLACE}))
        begin_document(reader)
        writer.ask({"a": "op", **PLACE, "seq": 101, "op": [{"p": ["n"], "na": 1}]})
        time.sleep(0.2)
        kind, payload = next_message(reader)
        assert kind == TEXT and payload.endswith(f',"v":{version}}}}}'.encode())
        assert reader.message()["v"] == version


def test_messages_are_answered_after_the_document(server):
    with server.enter() as connection:
        store_long_text(connection, SOCKET)
        connection.send(text({"a": "f", **PLACE}) + frame(b"ping", PING) + text({"a": "hs"}))
        assert connection.message()["a"] == "f"
        assert next_message(connection) == (PONG, b"ping")
        assert connection.message()["a"] == "hs"


def test_a_stopped_server_closes_a_client_in_a_document(program):
    """The client reads a part of the document, so a close comes between two fragments."""
    with Server(program, dump=True) as server:
        with server.enter() as connection:
            store_long_text(connection, SOCKET)
            connection.send(text({"a": "f", **PLACE}))
            begin_document(connection)
            server.process.stdin.close()
            kinds = []
            try:
                while not kinds or kinds[-1] != CLOSE:
                    kinds.append(next_fragment(connection)[1])
            except (EOFError, OSError):
                pass
            assert set(kinds) <= {CONTINUATION, CLOSE}
