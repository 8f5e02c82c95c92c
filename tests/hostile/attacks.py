"""Hostile clients. Each attack is a function of a server, a random generator and a list that keeps connections open.

An attack raises a Fault if the server differs from docs/PROTOCOL.md. It waits at most the documented time and SLACK.
"""
import itertools
import os
import socket
import time

from support.frames import CLOSE, HEAD, NO_STATUS, PING, TEXT, Fault, Full, frame, handshake, text

SERVED = 64
LONGEST = 1_048_576
SILENCE, HANDSHAKE, DRIP, WRITE = 121, 11, 42, 11  # seconds after which a client is disconnected
SLACK = 60  # additional seconds for a busy machine
QUEUE = 3 * HANDSHAKE + SLACK  # seconds that a handshake may wait for those that stop
BADLY_FORMED = "ERR_MESSAGE_BADLY_FORMED"
LARGE = {"c": "board", "d": "large"}


def expect(found, *wanted):
    if found not in wanted:
        raise Fault(f"the connection is closed with {found}, and not with {' or '.join(map(str, wanted))}")


def keep(kept, connection):
    """Keeps a connection open until the end, so that only the server can close it."""
    kept.append(connection)
    return connection


def drip(connection, data, pause, seconds):
    """Sends a byte at a time until the server closes. Returns the status."""
    end = time.monotonic() + seconds
    try:
        for byte in data:
            connection.send(bytes([byte]))
            time.sleep(pause)
            if time.monotonic() > end:
                raise Fault(f"the connection is open after {seconds} seconds of dripping")
    except OSError:
        pass
    return connection.status(SLACK)


# Handshakes -----------------------------------------------------------------------------------------------------------


def handshake_that_stops(server, chance, kept):
    data = handshake()
    connection = keep(kept, server.connect())
    connection.send(data[: chance.randrange(len(data))])
    expect(connection.status(QUEUE), NO_STATUS)


def handshake_that_drips(server, chance, kept):
    data = HEAD.encode() + b"Padding: " + b"x" * 50_000
    expect(drip(keep(kept, server.connect()), data, chance.choice((0.002, 0.01, 0.03)), DRIP + SLACK), NO_STATUS)


def hundred_handshakes_that_stop(server, chance, kept):
    for connection in [keep(kept, server.connect()) for _ in range(100)]:
        connection.send(handshake()[:-2])
    expect(connection.status(QUEUE), NO_STATUS)


def expect_refusal(connection, data):
    """The request is answered 426, or closed without a status."""
    try:
        connection.send(data)
        answer = connection.read(12)
    except (EOFError, ConnectionError):
        return
    if answer != b"HTTP/1.1 426":
        raise Fault(f"it is answered {answer}")


def request_that_is_no_handshake(server, chance, kept):
    requests = (
        b"GET / HTTP/1.1\r\nHost: localhost\r\n\r\n",
        b"\x16\x03\x01\x02\x00" + os.urandom(500) + b"\r\n\r\n",
        HEAD.encode() + b"\r\n",
        handshake().replace(b"13", b"12"),
        handshake() + frame(b"too early"),
    )
    for data in requests:
        expect_refusal(server.connect(), data)


def blank_lines(server, chance, kept):
    """Blank lines before a request are no request, so the server waits for one."""
    connection = keep(kept, server.connect())
    connection.send(b"\r\n\r\n")
    expect(connection.status(QUEUE), NO_STATUS)


def head_without_end(server, chance, kept):
    for data in (b"X: y\r\n" * 20_000, b"X" * 200_000):
        expect_refusal(server.connect(), HEAD.encode() + data)


def handshake_torn_down(server, chance, kept):
    for point in range(len(handshake()) + 1):
        connection = server.connect()
        connection.send(handshake()[:point])
        tear(connection, chance)


# Frames ---------------------------------------------------------------------------------------------------------------


def frames_against_the_protocol(server, chance, kept):
    wrong = (
        bytes([0x81, 2]) + b"{}",  # no mask
        bytes([0xC1, 0x80, 0, 0, 0, 0]),  # a reserved bit
        frame(b"", 3),  # unknown kinds
        frame(b"", 11),
        frame(b"x" * 126, PING),  # a control frame that is too long
        frame(b"", PING, last=False),  # a control frame in fragments
        frame(b"x", 0),  # a continuation of nothing
        frame(b"x", TEXT, last=False) + frame(b"x", TEXT),  # two texts at once
        frame(b"x", CLOSE),  # half a status
    )
    for data in wrong:
        connection = server.enter()
        connection.send(data)
        expect(connection.status(SLACK), 1002)


def text_that_is_not_utf8(server, chance, kept):
    connection = server.enter()
    connection.send(frame(b"\xff\xfe"))
    expect(connection.status(SLACK), 1007)


def message_in_fragments(server, chance, kept):
    connection, message = server.enter(), b'{"a":"f","c":"board","d":"none"}'
    connection.send(frame(message[:1], TEXT, last=False))
    for byte in message[1:]:
        connection.send(frame(bytes([byte]), 0, last=False) + frame(b"still here", PING))
    connection.send(frame(b"", 0))
    if connection.message()["data"] != {"type": None, "v": 0}:
        raise Fault("a message in fragments has another answer")
    connection.tear()


def message_too_long(server, chance, kept):
    messages = (
        frame(b"x", length=LONGEST + 1),
        frame(b"x", length=2**62),
        frame(b" " * 2 * LONGEST),
        frame(b" " * LONGEST, last=False) + frame(b" ", 0),
    )
    for data in messages:
        connection = server.enter()
        connection.send(data)
        if connection.message()["error"]["code"] != BADLY_FORMED:
            raise Fault("a message that is too long has another answer")
        expect(connection.status(SLACK), 1009)


# Floods ---------------------------------------------------------------------------------------------------------------

REFUSED = (
    b"",
    b"{",
    b"null",
    b'{"a":"op"}',
    b'{"a":"f","c":""}',
    b'{"a":"op","c":"board","d":"0","seq":1,"v":9999999,"op":[]}',
    b'{"a":"op","c":"board","d":"none","seq":1,"op":[{"p":["x"],"na":1}]}',
    b'{"a":"s","c":"board","d":"0","v":9999999}',
    b'{"a":"op","c":"board","d":"0","seq":1,"op":[{"p":["text",99999],"si":"x"}]}',
    b"[" * 5_000,
)


def flood_of_refused(server, chance, kept):
    connection, count = server.enter(), 500
    connection.send(b"".join(frame(chance.choice(REFUSED)) for _ in range(count)))
    for _ in range(count):
        if "error" not in connection.message():
            raise Fault("a message that is to be refused is not")
    connection.tear()


# Messages of a megabyte with many values.
DENSE = tuple(
    (b'{"a":"op","c":"board","d":"0","seq":1,"op":[' + it * (LONGEST // len(it)))[: LONGEST - 3] + b"]}"
    for it in (b"[],", b"0,", b'{"":0},', b'{"p":[],"na":1},')
)

# Creates with many small values. Only the first is stored, and each is parsed.
CREATE = b'{"a":"op","c":"board","d":"0","seq":1,"create":{"type":"json0","data":['
CREATES = tuple(
    (CREATE + it * (LONGEST // len(it)))[: LONGEST - 10].rpartition(b",")[0] + b"]}}"
    for it in (b"[" * 48 + b"]" * 48 + b",", b"[[0]],", b"0,", b'{"":0},')
)


def flood_of_large(server, chance, kept):
    connection = server.enter()
    for data in DENSE:
        connection.send(frame(data))
        if "error" not in connection.message():
            raise Fault("a large message that is to be refused is not")
    connection.tear()


# Slow and silent clients ----------------------------------------------------------------------------------------------


def message_that_drips(server, chance, kept):
    data = frame(b"x" * 60_000)
    expect(drip(keep(kept, server.enter()), data, chance.choice((0.002, 0.01, 0.03)), DRIP + SLACK), 1001)


def message_that_stops(server, chance, kept):
    connection, data = keep(kept, server.enter()), frame(b"x" * chance.choice((10, 1_000, LONGEST)))
    connection.send(data[: chance.choice((1, 3, len(data) // 2, len(data) - 1))])
    expect(connection.status(SILENCE + SLACK), 1001)


def silence(server, chance, kept):
    connection = keep(kept, server.enter())
    connection.socket.settimeout(SILENCE + SLACK)
    kind, _ = connection.frame()
    if kind != PING:
        raise Fault(f"a silent client receives a frame {kind}, and not a ping")
    expect(connection.status(SILENCE + SLACK), 1001)


def reader_that_never_reads(server, chance, kept):
    """Fetches a large document repeatedly, with a subscription to another, until the server closes the connection."""
    connection = keep(kept, server.enter())
    connection.socket.settimeout(WRITE + SLACK)
    connection.send(text({"a": "s", "c": "board", "d": "0"}))
    asked, end = text({"a": "f", **LARGE}) * 10 + frame(b"x", PING), time.monotonic() + WRITE + 2 * SLACK
    try:
        while time.monotonic() < end:
            connection.send(asked)
    except socket.timeout:
        pass
    except OSError:
        return
    raise Fault("the connection isn't closed")


# Torn connections -----------------------------------------------------------------------------------------------------


def tear(connection, chance):
    """Closes a connection, by a reset or normally."""
    chance.choice((connection.tear, connection.socket.close))()


def torn_edit(source):
    return text({"a": "op", "c": "board", "d": "0", "src": source, "seq": 1, "op": [{"p": ["torn"], "na": 1}]})


class TornEdits:
    """Edits whose connection is torn down after each of their bytes in turn. `whole` has the sources of those sent completely."""

    __name__ = "torn_edits"

    def __init__(self):
        self.turns, self.whole = itertools.count(), set()

    def __call__(self, server, chance, kept):
        turn = next(self.turns)
        source = f"torn-{turn:05}"
        data = torn_edit(source)
        point = turn % (len(data) + 1)
        connection = server.enter()
        if point == len(data):
            self.whole.add(source)
        connection.send(data[:point])
        tear(connection, chance)

    def points(self):
        return len(torn_edit("torn-00000")) + 1


def torn_faults(server, torn, log):
    """Yields a line if an edit that wasn't sent completely is stored, or one is counted and not in the log."""
    found = {source for source, _ in log if source.startswith("torn")}
    if not found <= torn.whole:
        yield f"edits are stored that were cut: {sorted(found - torn.whole)[:5]}"
    with server.enter() as connection:
        shown = connection.ask({"a": "f", "c": "board", "d": "0"})["data"]["data"]
    if shown["torn"] != len(found):
        yield f"the document counts {shown['torn']} torn edits, and its log {len(found)}"


def store_large(server):
    with server.enter() as connection:
        connection.ask({"a": "op", "seq": 1, "create": {"type": "json0", "data": "x" * 200_000}, **LARGE})


def enter_when_free(server, seconds=SLACK):
    """Returns a connection as soon as a place is free."""
    end = time.monotonic() + seconds
    while True:
        try:
            return server.enter()
        except Full:
            if time.monotonic() > end:
                raise Fault("no place is free") from None
            time.sleep(0.05)


def wait_for_sockets(server, count):
    """Waits until the server has only so many sockets: until the sessions of all others have ended."""
    end = time.monotonic() + SILENCE + SLACK
    while server.sockets() > count:
        if time.monotonic() > end:
            raise Fault(f"{server.sockets()} sockets are open, and not {count}")
        time.sleep(0.05)


def all_places(server):
    """Enters as often as the server must serve, and leaves again."""
    connections = [enter_when_free(server) for _ in range(SERVED)]
    for connection in connections:
        connection.tear()


QUICK = (
    request_that_is_no_handshake,
    head_without_end,
    handshake_torn_down,
    frames_against_the_protocol,
    text_that_is_not_utf8,
    message_in_fragments,
    message_too_long,
    flood_of_refused,
    flood_of_large,
)

SLOW = (
    blank_lines,
    handshake_that_stops,
    handshake_that_drips,
    hundred_handshakes_that_stop,
    message_that_drips,
    message_that_stops,
    silence,
    reader_that_never_reads,
)
