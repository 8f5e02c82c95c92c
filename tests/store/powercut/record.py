"""Reads the record of recorder.c: the events of a run, and what the server has sent until each of them."""
import collections
import dataclasses
import json
import pathlib
import struct

OPEN, WRITE, TRUNCATE, SYNC, SEND, CLOSE, SYNC_FOLDER, ACCEPT = range(1, 9)
DISK = (OPEN, WRITE, TRUNCATE, SYNC, SYNC_FOLDER)
CREATE = 0o100  # the flag of an open that creates the file
HEAD = struct.Struct("<QQIiQqII")
HEAD_END = b"\r\n\r\n"


@dataclasses.dataclass
class Event:
    begin: int
    end: int
    kind: int
    fd: int
    offset: int
    result: int
    data: bytes
    path: str = None  # of the store's file


def read_events(path):
    """Returns the events in the order of their beginnings."""
    data, at, events = pathlib.Path(path).read_bytes(), 0, []
    while at + HEAD.size <= len(data):
        *head, length, _ = HEAD.unpack_from(data, at)
        at += HEAD.size
        events.append(Event(*head, data[at : at + length]))
        at += length
    events.sort(key=lambda event: event.begin)
    paths = {}
    for event in events:
        if event.kind == OPEN:
            paths[event.fd] = event.data.decode()
        event.path = paths.get(event.fd)
        if event.kind == CLOSE:
            paths.pop(event.fd, None)
    return events


@dataclasses.dataclass(frozen=True)
class Fact:
    """What a client was sent: an acknowledgement or the content of an entry, a length of a log, or the number of a session."""

    kind: str
    document: str = ""
    version: int = 0
    entry: tuple = ()
    content: str = ""


def content_of(message):
    """Returns the content of an operation as a text, or an empty text."""
    found = {name: message[name] for name in ("create", "op", "del") if name in message}
    return json.dumps(found, sort_keys=True) if found else ""


def sent_facts(events):
    """Returns the facts that were sent, each with the number of the event that sent it."""
    streams, facts = {}, []
    for event in events:
        if event.kind == ACCEPT:
            streams[event.fd] = Stream()
        elif event.kind == SEND and event.result > 0 and event.fd in streams:
            for message in streams[event.fd].messages(event.data):
                facts += [(event.begin, fact) for fact in facts_of(json.loads(message))]
    return facts


def facts_of(message):
    if message.get("a") == "init":
        yield Fact("number", version=int(message["id"][1:]))
    elif message.get("a") == "op" and "error" not in message and "v" in message and "src" in message:
        content = content_of(message)
        kind = "push" if content else "acknowledgement"
        yield Fact(kind, message["d"], message["v"], (message["src"], message["seq"]), content)
    elif message.get("a") in ("f", "s") and isinstance(message.get("data"), dict) and "v" in message["data"]:
        yield Fact("length", message["d"], message["data"]["v"])


class Logs:
    """The log of each document as (source, seq, content), and the highest number that may be given."""

    def __init__(self):
        self.entries, self.highest = {}, 0

    def add(self, entry):
        self.entries.setdefault(entry["d"], []).append((entry["src"], entry["seq"], content_of(entry)))

    def duplicates(self):
        counts = collections.Counter((document, *it[:2]) for document, log in self.entries.items() for it in log)
        return [f"{it} is stored {count} times" for it, count in counts.items() if count > 1]

    def lost(self, facts):
        """Returns what was sent, and isn't in the logs at its version."""
        lost = []
        for fact in facts:
            log = self.entries.get(fact.document, [])
            if fact.kind == "number" and self.highest < fact.version:
                lost.append(f"{fact} may be given again")
            elif fact.kind == "length" and len(log) < fact.version:
                lost.append(f"lost {fact}")
            elif fact.kind in ("acknowledgement", "push"):
                lost += self.lost_entry(log, fact)
        return lost

    def lost_entry(self, log, fact):
        if not any(it[:2] == fact.entry for it in log[fact.version : fact.version + 1]):
            versions = [version for version, it in enumerate(log) if it[:2] == fact.entry]
            return [f"at another version {fact}, {versions}" if versions else f"lost {fact}"]
        return [f"another content {fact}"] if fact.content and log[fact.version][2] != fact.content else []


class Stream:
    """The bytes that were sent to one client: the answer of the handshake, and then frames."""

    def __init__(self):
        self.data, self.fragments, self.is_open = b"", [], False

    def messages(self, more):
        """Returns the text messages that these bytes complete."""
        self.data += more
        if not self.is_open:
            _, found, rest = self.data.partition(HEAD_END)
            if not found:
                return
            self.is_open, self.data = True, rest
        while True:
            frame = self.take_frame()
            if frame is None:
                return
            kind, is_last, payload = frame
            if kind > 1:
                continue
            self.fragments.append(payload)
            if is_last:
                yield b"".join(self.fragments)
                self.fragments = []

    def take_frame(self):
        if len(self.data) < 2:
            return None
        length, head = self.data[1] & 127, 2
        if length > 125:
            head = 4 if length == 126 else 10
            length = int.from_bytes(self.data[2:head], "big")
        if len(self.data) < head + length:
            return None
        frame = self.data[0] & 15, self.data[0] >> 7, self.data[head : head + length]
        self.data = self.data[head + length :]
        return frame
