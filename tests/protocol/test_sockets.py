"""What no example of the documents shows: handshakes, binary and long messages, and the statuses of closed connections."""
import json
import signal
import socket

import pytest

from support.frames import BINARY, CLOSE, HEAD, PING, PONG, TEXT, Full, frame, handshake, status_of

LONGEST = 1_048_576
SERVED = 64
BADLY_FORMED = b'{"error":{"code":"ERR_MESSAGE_BADLY_FORMED","message":"message is badly formed"}}'
HELLO = b'{"a":"hs"}'


def asked(connection, data):
    connection.send(data)
    kind, payload = connection.frame()
    return payload if kind == TEXT else (kind, payload)


def test_binary_message(server):
    with server.enter() as connection:
        assert asked(connection, frame(HELLO, BINARY)) == BADLY_FORMED
        assert json.loads(asked(connection, frame(HELLO)))["a"] == "hs"


def test_longest_message(server):
    with server.enter() as connection:
        assert json.loads(asked(connection, frame(HELLO + b" " * (LONGEST - len(HELLO)))))["a"] == "hs"


def test_message_that_is_too_long(server):
    with server.enter() as connection:
        assert asked(connection, frame(HELLO + b" " * (LONGEST + 1 - len(HELLO)))) == BADLY_FORMED
        assert connection.status() == 1009


def test_text_that_is_not_utf8(server):
    with server.enter() as connection:
        connection.send(frame(b"\xff\xfe"))
        assert connection.status() == 1007


def test_frame_of_unknown_kind(server):
    with server.enter() as connection:
        connection.send(frame(b"", 3))
        assert connection.status() == 1002


def test_close_has_no_reason(server):
    with server.enter() as connection:
        connection.send(frame(b"", 3))
        kind, payload = connection.frame()
        assert (kind, status_of(payload), payload[2:]) == (CLOSE, 1002, b"")


def test_ping_is_answered(server):
    with server.enter() as connection:
        connection.send(frame(b"still here", PING))
        assert connection.frame() == (PONG, b"still here")


def test_one_client_more(server):
    served = [server.enter() for _ in range(SERVED)]
    with pytest.raises(Full):
        server.enter()
    for connection in served:
        connection.socket.close()


def head_of(server, request):
    """Returns the head of the answer to a request."""
    with server.connect() as connection:
        connection.send(request)
        while b"\r\n\r\n" not in connection.received:
            connection.read_more()
        return connection.received.split(b"\r\n\r\n")[0].lower()


@pytest.mark.parametrize(
    "change",
    [
        (b"GET /", b"GET /any/path?and=query"),
        (b"Host: localhost", b"Host: localhost\r\nOrigin: http://elsewhere\r\nCookie: a=b"),
        (b"Host: localhost", b"Host: localhost\r\nSec-WebSocket-Protocol: sharedb"),
        (b"Host: localhost", b"Host: localhost\r\nSec-WebSocket-Extensions: permessage-deflate"),
    ],
    ids=["path", "other headers", "subprotocol", "compression"],
)
def test_handshake(server, change):
    head = head_of(server, handshake().replace(*change))
    assert head.startswith(b"http/1.1 101 ")
    assert b"sec-websocket-protocol" not in head and b"sec-websocket-extensions" not in head


@pytest.mark.parametrize(
    "request_",
    [
        b"GET / HTTP/1.1\r\nHost: localhost\r\n\r\n",
        HEAD.encode() + b"\r\n",
        handshake().replace(b"GET", b"POST"),
        handshake().replace(b"HTTP/1.1", b"HTTP/1.0"),
        handshake().replace(b"13", b"12"),
    ],
    ids=["no upgrade", "no key", "POST", "HTTP/1.0", "version 12"],
)
def test_other_request(server, request_):
    assert head_of(server, request_).startswith(b"http/1.1 426 ")


def test_port_and_process_are_released(program):
    from support.server import Server

    with Server(program) as server:
        server.enter()
    assert not server.is_running()
    with pytest.raises(ConnectionRefusedError):
        socket.create_connection(server.address, 5)


def test_localhost(program):
    from support.server import Server

    with Server(program, address="localhost:0") as server:
        assert server.address[0] == "127.0.0.1"
        assert server.enter()


def test_hundreds_of_connections_wait_to_be_accepted(program):
    from support.server import Server

    with Server(program) as server:
        server.process.send_signal(signal.SIGSTOP)
        # (the system completes each handshake, and drops those for which the queue has no room)
        waiting = [socket.create_connection(server.address, 5) for _ in range(400)]
        server.process.send_signal(signal.SIGCONT)
        for connection in waiting:
            connection.close()
        assert server.enter()
