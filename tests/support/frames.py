"""WebSocket frames, handshakes and connections, byte by byte, for measurements and for tests that break the rules."""
import base64
import json
import os
import socket
import struct
import time

CONTINUATION, TEXT, BINARY, CLOSE, PING, PONG = 0, 1, 2, 8, 9, 10
NO_STATUS = None  # of a connection that is closed without a close frame
PATIENCE = 300  # seconds for an answer: a bound for tests that would hang
TRY_AGAIN = 1013
NO_MASK = bytes(4)  # leaves each byte as it is
HEAD = "GET / HTTP/1.1\r\nHost: localhost\r\nUpgrade: websocket\r\nConnection: Upgrade\r\nSec-WebSocket-Version: 13\r\n"


class Fault(AssertionError):
    """The server differs from its documents."""


class Full(Exception):
    """The server has no free place."""


def handshake():
    return f"{HEAD}Sec-WebSocket-Key: {base64.b64encode(os.urandom(16)).decode()}\r\n\r\n".encode()


def frame(payload, kind=TEXT, last=True, length=None, mask=None):
    """Returns a masked frame, with another length in its head if one is given. The mask is random if none is given."""
    length = len(payload) if length is None else length
    first = bytes([kind | (0x80 if last else 0)])
    if length < 126:
        head = first + bytes([0x80 | length])
    elif length < 65_536:
        head = first + struct.pack(">BH", 0xFE, length)
    else:
        head = first + struct.pack(">BQ", 0xFF, length)
    mask = mask or os.urandom(4)
    return head + mask + (payload if mask == NO_MASK else masked(payload, mask))


def masked(payload, mask):
    whole = mask * (len(payload) // 4 + 1)
    return (int.from_bytes(payload, "big") ^ int.from_bytes(whole[: len(payload)], "big")).to_bytes(len(payload), "big")


def text(message):
    return frame(json.dumps(message).encode())


def status_of(payload):
    return int.from_bytes(payload[:2], "big") if payload else NO_STATUS


class Connection:
    """A connection of a client. With no patience it waits for an answer without an end."""

    def __init__(self, address, patience=PATIENCE):
        self.socket = socket.create_connection(address, patience)
        self.socket.setsockopt(socket.IPPROTO_TCP, socket.TCP_NODELAY, 1)
        self.received = bytearray()
        self.kind, self.fragments = None, []  # of a message of which the last fragment wasn't read

    def __enter__(self):
        return self

    def __exit__(self, *_):
        self.socket.close()

    def send(self, data):
        self.socket.sendall(data)

    def read_more(self):
        more = self.socket.recv(65_536)
        if not more:
            raise EOFError
        self.received += more

    def read(self, count):
        while len(self.received) < count:
            self.read_more()
        with memoryview(self.received) as received:
            first = received[:count].tobytes()
        del self.received[:count]
        return first

    def upgrade(self):
        self.send(handshake())
        while b"\r\n\r\n" not in self.received:
            self.read_more()
        head = self.read(self.received.index(b"\r\n\r\n") + 4)
        if not head.startswith(b"HTTP/1.1 101 "):
            raise Fault(f"a handshake is answered {head[:40]}")
        return head

    def enter(self):
        """Performs the handshake and reads the server's first message."""
        self.upgrade()
        kind, payload = self.frame()
        if kind == CLOSE and status_of(payload) == TRY_AGAIN:
            self.socket.close()
            raise Full
        if kind != TEXT or json.loads(payload)["a"] != "init":
            raise Fault(f"the first message is a frame {kind} {payload[:40]}")
        return self

    def fragment(self):
        """Returns whether the next frame is the last one of its message, its kind and its payload."""
        first, second = self.read(2)
        length = second & 0x7F
        if length > 125:
            length = int.from_bytes(self.read(2 if length == 126 else 8), "big")
        return bool(first & 0x80), first & 0x0F, self.read(length)

    def frame(self):
        """Returns the kind and the payload of the next control frame or message. Fragments are joined."""
        while True:
            is_last, kind, payload = self.fragment()
            if kind >= CLOSE:
                return kind, payload
            if (kind == CONTINUATION) != bool(self.fragments):
                raise Fault(f"a frame {kind} is sent after {len(self.fragments)} fragments")
            self.kind = self.kind if self.fragments else kind
            self.fragments.append(payload)
            if is_last:
                whole, self.fragments = b"".join(self.fragments), []
                return self.kind, whole

    def message(self):
        """Returns the next text as JSON."""
        return json.loads(self.next_text())

    def next_text(self):
        while True:
            kind, payload = self.frame()
            if kind == TEXT:
                return payload
            if kind == CLOSE:
                raise Fault(f"the connection is closed with {status_of(payload)}")
            if kind == PING:
                self.send(frame(payload, PONG))

    def ask(self, message):
        self.send(text(message))
        return self.message()

    def status(self, seconds=PATIENCE):
        """Returns the status with which the server closes the connection. It must come within these seconds."""
        end = time.monotonic() + seconds
        try:
            while True:
                self.socket.settimeout(max(0.01, end - time.monotonic()))
                kind, payload = self.frame()
                if kind == CLOSE:
                    return status_of(payload)
        except socket.timeout:
            raise Fault(f"the connection is open after {seconds} seconds") from None
        except (EOFError, OSError):
            return NO_STATUS

    def tear(self):
        """Closes the connection by a reset."""
        self.socket.setsockopt(socket.SOL_SOCKET, socket.SO_LINGER, struct.pack("ii", 1, 0))
        self.socket.close()
