#!/usr/bin/python3
"""A client that shows its edits at once. Its names are those of docs/CLIENT_ALGORITHM.md. It needs python3-websockets.

    client = Client("ws://127.0.0.1:8080")
    board = client.document("board", "1", on_change=lambda board: print(board.shown))
    asyncio.create_task(client.run())
    board.submit([{"p": ["votes"], "na": 1}])

As a program, examples/client.py HOST:PORT|URL COLLECTION ID [BUCKETS], it prints a document at each change. BUCKETS is the
number of servers that share the documents (docs/SCALING.md).
"""
import asyncio
import functools
import json
import random
import re
import secrets
import sys
import time
import zlib

import websockets

MAX, LEFT, RIGHT = 9007199254740991, "left", "right"
MOST_COMPONENTS, LONGEST_PATH, DEEPEST = 256, 50, 50
LONGEST_MESSAGE, LONGEST_JOINED = 1_048_576, 65_536  # bytes of a message, and of one of joined operations
FIRST_PAUSE, LONGEST_PAUSE = 1, 30  # seconds before an attempt to connect
IDLE = 10  # seconds until a connection without documents is closed
ABSENT = object()  # in place of a document that doesn't exist
CREATED, DELETED, MISSING = "ERR_DOC_ALREADY_CREATED", "ERR_DOC_WAS_DELETED", "ERR_DOC_DOES_NOT_EXIST"
SHAPES, BADLY_FORMED = ("na", "si", "sd", "li", "ld", "ldli", "oi", "od", "odoi"), "ERR_OT_OP_BADLY_FORMED"
NOT_APPLIED, TOO_NEW, NO_MEMORY = "ERR_OT_OP_NOT_APPLIED", "ERR_OP_VERSION_NEWER_THAN_CURRENT_SNAPSHOT", "ERR_OUT_OF_MEMORY"
RESTARTED, TOO_LONG = "the server was restarted", "the message is too long"


class Refused(Exception):
    """A content that can't be applied or transformed; its argument is a code."""


def shape(c):
    """Returns na, si, sd, li, ld, ldli (an item is replaced), oi, od or odoi (a value is replaced)."""
    return "".join(it for it in ("na", "si", "sd", "ld", "li", "od", "oi") if it in c)


def encoded(message):
    return json.dumps(message, ensure_ascii=False)


def size(message):
    return len(encoded(message).encode())


def is_text(it):
    return isinstance(it, str) and not re.search("[\ud800-\udfff]", it)


def is_number(it):
    return type(it) is int and abs(it) <= MAX


def is_value(it, depth=DEEPEST):
    if not isinstance(it, (dict, list)):
        return it is None or isinstance(it, bool) or is_text(it) or is_number(it)
    items = it.values() if isinstance(it, dict) else it
    return depth > 0 and all(map(is_text, it if isinstance(it, dict) else ())) and all(is_value(x, depth - 1) for x in items)


def is_component(c):
    if not isinstance(c, dict) or shape(c) not in SHAPES or not isinstance(c.get("p"), list) or len(c["p"]) > LONGEST_PATH:
        return False
    kind, values = shape(c), [it for name, it in c.items() if name in ("na", "si", "sd", "ld", "li", "od", "oi")]
    fits = {"n": is_number, "s": is_text}.get(kind[0], is_value)
    last_fits = kind == "na" or c["p"] and isinstance(c["p"][-1], str) == (kind[0] == "o")
    return last_fits and all(map(fits, values)) and all(is_text(it) or is_number(it) and it >= 0 for it in c["p"])


def checked(operation):
    """Returns the operation, or raises Refused if the server would refuse its form."""
    if not isinstance(operation, list) or len(operation) > MOST_COMPONENTS or not all(map(is_component, operation)):
        raise Refused(BADLY_FORMED)
    return operation


def container(c):
    return c["p"] if "na" in c else c["p"][:-1]


def cut(text, offset):
    """Returns the parts of a text before and after an offset in UTF-16 units."""
    data = text.encode("utf-16-le")
    try:
        if 2 * offset <= len(data):
            return data[: 2 * offset].decode("utf-16-le"), data[2 * offset :].decode("utf-16-le")
    except UnicodeDecodeError:  # inside a surrogate pair
        pass
    raise Refused(NOT_APPLIED)


def changed_at(value, path, change):
    """Returns a new value with a change at a path. It shares what is unchanged."""
    if not path:
        return change(value)
    step, rest = path[0], path[1:]
    if isinstance(value, dict) and isinstance(step, str) and step in value:
        return {**value, step: changed_at(value[step], rest, change)}
    if isinstance(value, list) and isinstance(step, int) and step < len(value):
        return [*value[:step], changed_at(value[step], rest, change), *value[step + 1 :]]
    raise Refused(NOT_APPLIED)


def apply_component(value, c):
    kind, last = shape(c), c["p"][-1] if c["p"] else None

    def change(it):
        if kind == "na" and type(it) is int and abs(it + c["na"]) <= MAX:
            return it + c["na"]
        if kind[0] == "s" and isinstance(it, str):
            before, after = cut(it, last)
            if after.startswith(c.get("sd", "")):
                return before + c.get("si", "") + after[len(c.get("sd", "")) :]
        if kind[0] == "l" and isinstance(it, list) and last < len(it) + (kind == "li"):
            return [*it[:last], *([c["li"]] if "li" in c else []), *it[last + ("ld" in c) :]]
        if kind[0] == "o" and isinstance(it, dict):
            return {**it, last: c["oi"]} if "oi" in c else {key: it[key] for key in it if key != last}
        raise Refused(NOT_APPLIED)

    return changed_at(value, container(c), change)


def completed(document, operation):
    """Returns the operation with removed values from the document, and the document after it."""
    done = []
    for c in operation:
        removed = {"ld": "ld", "ldli": "ld", "oi": "od", "od": "od", "odoi": "od"}.get(shape(c))
        if removed:
            places, last = [], c["p"][-1]
            changed_at(document, container(c), places.append)
            fits = isinstance(places[0], dict if removed == "od" else list)
            is_there = fits and (last in places[0] if removed == "od" else last < len(places[0]))
            if not (is_there or fits and removed == "od"):
                raise Refused(NOT_APPLIED)
            c = {name: it for name, it in c.items() if name != removed}
            c.update({removed: places[0][last]} if is_there else {})
        if shape(c):
            document = apply_component(document, c)
            done.append(c)
    return done, document


def transform(c, o, side):
    """Returns the components that replace c after the concurrent component o (docs/TRANSFORM.md)."""
    mine, theirs, kinds = container(c), container(o), (shape(c)[0], shape(o)[0])
    if mine == theirs:
        rules = {("s", "s"): texts, ("l", "l"): lists, ("o", "o"): objects}.get(kinds, lambda *_: [c])
        return rules(c, o, side)
    if mine[: len(theirs)] == theirs:
        return inside(c, o, len(theirs))
    removed = next((it for it in ("ld", "od") if it in c and theirs[: len(c["p"])] == c["p"]), None)
    try:
        return [{**c, removed: apply_component(c[removed], {**o, "p": o["p"][len(c["p"]) :]})}] if removed else [c]
    except Refused:
        return [c]


def moved(c, position, **members):
    if position > MAX:
        raise Refused(NOT_APPLIED)
    return {**c, "p": [*c["p"][:-1], position], **members}


def texts(c, o, side):
    p, r = c["p"][-1], o["p"][-1]
    more, less, mine = (len(it.encode("utf-16-le")) // 2 for it in (o.get("si", ""), o.get("sd", ""), c.get("sd", "")))
    if "si" in c and "si" in o:
        return [moved(c, p + more)] if r < p or (r == p and side == RIGHT) else [c]
    if "si" in c:
        return [c] if p <= r else [moved(c, max(r, p - less))]
    if "si" in o:
        if r <= p or r >= p + mine:
            return [moved(c, p + more)] if r <= p else [c]
        first, second = cut(c["sd"], r - p)
        return [moved(c, p, sd=first), moved(c, p + more, sd=second)]
    if r + less <= p or p + mine <= r:
        return [moved(c, p - less)] if r + less <= p else [c]
    left = cut(c["sd"], max(0, r - p))[0] + cut(c["sd"], min(mine, r + less - p))[1]
    return [moved(c, min(p, r), sd=left)] if left else []


def lists(c, o, side):
    j, i, mine, other = c["p"][-1], o["p"][-1], shape(c), shape(o)
    if other == "li":
        stays = i > j or (i == j and mine == "li" and side == LEFT)
        return [c] if stays else [moved(c, j + 1)]
    if i != j or mine == "li":
        return [moved(c, j - 1)] if other == "ld" and i < j else [c]
    if mine == "ld" or (other == "ldli" and side == RIGHT):
        return []
    return [{**c, "ld": o["li"]}] if other == "ldli" else [{"p": c["p"], "li": c["li"]}]


def objects(c, o, side):
    if c["p"][-1] != o["p"][-1] or (shape(c), shape(o)) in (("od", "oi"), ("oi", "od")):
        return [c]
    if "oi" not in c or ("oi" in o and side == RIGHT):
        return []
    return [{**c, "od": o["oi"]}] if "oi" in o else [{"p": c["p"], "oi": c["oi"]}]


def inside(c, o, length):
    """c is inside o's container, whose path has this length."""
    kind, step = shape(o), c["p"][length]
    if kind in ("ld", "ldli", "od", "odoi") and o["p"][-1] == step:
        return []
    if kind not in ("li", "ld") or isinstance(step, str):
        return [c]
    by = int(o["p"][-1] <= step) if kind == "li" else -int(o["p"][-1] < step)
    return [{**c, "p": [*moved({"p": c["p"][: length + 1]}, step + by)["p"], *c["p"][length + 1 :]]}]


def cross(left, right):
    """Transforms two operations against each other."""
    if not left or not right:
        return left, right
    if len(left) == len(right) == 1:
        return transform(left[0], right[0], LEFT), transform(right[0], left[0], RIGHT)
    middle = (len(right) if len(right) > 1 else len(left)) // 2
    if len(right) > 1:
        left, first = cross(left, right[:middle])
        left, second = cross(left, right[middle:])
        return left, first + second
    first, right = cross(left[:middle], right)
    second, right = cross(left[middle:], right)
    return first + second, right


def apply_content(document, content):
    """A content is {"op": ..}, {"create": ..} or {"del": true}."""
    if "del" in content:
        return ABSENT
    if ("create" in content) == (document is not ABSENT):
        raise Refused(CREATED if "create" in content else MISSING)
    if "create" in content:
        return content["create"]["data"]
    return functools.reduce(apply_component, content["op"], document)


def cross_contents(pending, received):
    """Returns both transformed; None is a received content without effect."""
    if "create" in received or ("create" in pending and "op" in received):
        raise Refused(CREATED)
    if "del" in pending:
        return pending, None
    if "del" in received:
        raise Refused(DELETED)
    mine, other = cross(pending["op"], received["op"])
    return {"op": mine}, {"op": other}


class Document:
    """A document of one client: `stored` is the server's at `version`, `shown` has the pending contents too."""

    def __init__(self, client, place, on_change, on_dropped):
        self.client, self.place, self.is_closing = client, place, False
        self.on_change, self.on_dropped = on_change, on_dropped
        self.start_anew()

    def start_anew(self):
        self.version, self.stored, self.shown = None, ABSENT, ABSENT
        self.sent, self.now, self.queue = None, None, []  # the message in flight, its transformed content, later contents
        self.early, self.ack, self.last = {}, None, None  # `last` has the source and number of the operation before `version`
        self.is_ready = self.is_checked = False  # the start is complete; the connection's history is the known one

    def submit(self, operation):
        if self.shown is ABSENT:
            raise Refused(MISSING)
        operation, shown = completed(self.shown, checked(operation))
        self.add({"op": operation}, shown)

    def create(self, data):
        if not is_value(data):
            raise Refused(BADLY_FORMED)
        content = {"create": {"type": "json0", "data": data}}
        self.add(content, apply_content(self.shown, content))

    def delete(self):
        self.add({"del": True}, ABSENT)

    def close(self):
        """Ends the subscription once all contents are stored. Until then `Client.document` opens the same document again."""
        self.is_closing = self in self.client.documents.values()
        self.send_next()

    def add(self, content, shown):
        if not self.is_ready:
            raise Refused("the document isn't loaded")
        if size(self.message(content, MAX, MAX)) > LONGEST_MESSAGE:
            raise Refused(TOO_LONG)
        self.shown = shown
        both = self.queue[-1:] + [content]
        is_joined = len(both) == 2 and all("op" in it for it in both) and sum(map(size, both)) <= LONGEST_JOINED
        self.queue[-1:] = [{"op": both[0]["op"] + both[1]["op"]}] if is_joined else both
        self.send_next()
        self.on_change(self)

    def message(self, content, version, seq):
        return {"a": "op", **self.place, "v": version, "src": self.client.source, "seq": seq, **content}

    def send_next(self):
        """Sends the queue's first content, of at most 256 components, if nothing is in flight."""
        if self.is_closing and not self.sent and not self.queue:
            self.client.forget(self)
        if self.sent or not self.queue or not self.is_checked:
            return
        content = self.queue.pop(0)
        if len(content.get("op", ())) > MOST_COMPONENTS:
            self.queue.insert(0, {"op": content["op"][MOST_COMPONENTS:]})
            content = {"op": content["op"][:MOST_COMPONENTS]}
        self.client.seq += 1  # of all documents: one that is opened again uses no number twice
        self.now, self.sent = content, self.message(content, self.version, self.client.seq)
        # (an accepted content is too long only if the values that it removes have grown)
        self.drop_all(TOO_LONG) if size(self.sent) > LONGEST_MESSAGE else self.client.send(self.sent)

    def drop_all(self, code):
        dropped = [it for it in (self.now, *self.queue) if it]
        self.sent, self.now, self.queue, self.shown = None, None, [], self.stored
        self.on_dropped(self, dropped, code)

    def connected(self):
        self.version = self.version if self.is_ready else None
        start = {} if self.version is None else {"v": max(0, self.version - 1)}
        self.is_checked, self.is_last_seen = False, not self.version
        self.client.send({"a": "s", **self.place, **start})

    def restarted(self):
        self.drop_all(RESTARTED)
        self.start_anew()
        self.connected()

    def receive(self, message):
        code = message.get("error", {}).get("code")
        if code == TOO_NEW:
            self.restarted()
        elif code == NO_MEMORY:
            self.client.reconnect()  # after a pause, and sends again
        elif code and message["a"] == "op":
            if self.sent and message["seq"] == self.sent["seq"]:
                if self.now:
                    self.drop_all(code)
                self.sent = None
                self.send_next()
        elif code:
            self.on_dropped(self, [], code)
        elif message["a"] == "op":
            self.receive_operation(message, (message["src"], message["seq"]))
        elif "data" in message:  # a start; a list shows who made the last operation
            self.version, self.is_last_seen = message["data"]["v"], message["data"]["v"] == 0
            self.stored = self.shown = message["data"].get("data", ABSENT)
            self.client.send({"a": "f", **self.place, "v": max(0, self.version - 1)})
        elif not self.is_last_seen:  # the end of a list without the last operation
            self.restarted()
        elif not self.is_checked:  # the end of the first list
            self.is_ready = self.is_checked = True
            self.client.send(self.sent) if self.sent else self.send_next()
        self.on_change(self)

    def receive_operation(self, message, name):
        version, has_content = message["v"], any(it in message for it in ("op", "create", "del"))
        if has_content and version + 1 == self.version and not self.is_last_seen:
            self.is_last_seen, self.last = self.last in (None, name), name
        is_new = self.version is not None and version >= self.version
        if self.sent and not self.now and name == (self.client.source, self.sent["seq"]):  # it is stored, against expectation
            self.sent = None
            if is_new and not has_content:
                self.client.send({"a": "f", **self.place, "v": self.version})
        if is_new and self.now and name == (self.client.source, self.sent["seq"]):
            self.ack = version
        elif is_new and has_content:
            self.early[version] = message
        while self.is_last_seen and (self.ack == self.version or self.version in self.early):
            if self.ack == self.version:
                self.last, self.stored = (self.client.source, self.sent["seq"]), apply_content(self.stored, self.now)
                self.sent = self.now = self.ack = None
            else:
                message = self.early.pop(self.version)
                self.last = message["src"], message["seq"]
                self.process({it: message[it] for it in ("op", "create", "del") if it in message})
            self.version += 1
        self.send_next()

    def process(self, received):
        """Applies a received content, and transforms the pending contents against it."""
        self.stored = self.shown = apply_content(self.stored, received)
        pending, kept = [it for it in (self.now, *self.queue) if it], []
        try:
            for content in pending:
                if received:
                    content, received = cross_contents(content, received)
                self.shown = apply_content(self.shown, content)
                kept.append(content)
        except Refused as refused:
            self.on_dropped(self, pending[len(kept) :], *refused.args)
        if self.now:
            self.now = kept.pop(0) if kept else None
        self.queue = kept


class Client:
    """A connection that is opened again after it is lost, and its documents."""

    def __init__(self, url, source=None, first_pause=FIRST_PAUSE):
        self.url, self.source, self.first_pause = url, source or secrets.token_hex(16), first_pause
        self.documents, self.socket, self.outgoing, self.is_open = {}, None, None, True
        self.seq, self.idle_since = 0, 0

    def document(self, collection, name, on_change=lambda it: None, on_dropped=lambda it, contents, code: None):
        found = self.documents.get((collection, name))
        if not found:
            found = self.documents[collection, name] = Document(self, {"c": collection, "d": name}, on_change, on_dropped)
            if self.outgoing:
                found.connected()
        found.on_change, found.on_dropped, found.is_closing = on_change, on_dropped, False
        return found

    def forget(self, document):
        document.is_ready = document.is_closing = False
        self.send({"a": "u", **document.place})
        self.documents = {place: it for place, it in self.documents.items() if it is not document}
        self.idle_since = time.monotonic()

    def send(self, message):
        if self.outgoing:
            self.outgoing.put_nowait(encoded(message))

    def reconnect(self):
        if self.socket and self.socket.transport:
            self.socket.transport.abort()

    def close(self):
        self.is_open = False
        self.reconnect()

    async def run(self):
        pause = self.first_pause
        while self.is_open:
            try:
                async with websockets.connect(self.url, max_size=None) as self.socket:
                    await self.serve()
            except (OSError, websockets.WebSocketException, asyncio.TimeoutError):
                pass
            pause, self.outgoing = self.first_pause if self.outgoing else min(2 * pause, LONGEST_PAUSE), None
            await asyncio.sleep(pause * random.uniform(0.5, 1) if self.is_open else 0)

    async def serve(self):
        greeting = json.loads(await self.socket.recv())
        if not isinstance(greeting, dict) or greeting.get("protocol") != 1:
            raise RuntimeError("the other end is no server with protocol 1")
        self.outgoing = asyncio.Queue()
        self.send({"a": "hs", "id": self.source})
        for document in self.documents.values():
            document.connected()
        tasks = [asyncio.create_task(it) for it in (self.read(), self.write())]
        try:
            done, _ = await asyncio.wait(tasks, return_when=asyncio.FIRST_COMPLETED)
            for task in done:
                task.result()  # or its exception
        finally:
            for task in tasks:
                task.cancel()

    async def read(self):
        async for text in self.socket:
            message = json.loads(text)
            if message["a"] != "u" and (message.get("c"), message.get("d")) in self.documents:
                self.documents[message["c"], message["d"]].receive(message)

    async def write(self):
        while True:
            await self.socket.send(await self.outgoing.get())


class Cluster:
    """Clients of servers that share the documents: a document is at the server of bucket crc32(name) % buckets."""

    def __init__(self, url, buckets, source=None, first_pause=FIRST_PAUSE):
        self.url, self.buckets, self.source, self.first_pause = url, buckets, source or secrets.token_hex(16), first_pause
        self.clients, self.is_open = {}, True

    def client(self, name):
        bucket = zlib.crc32(name.encode()) % self.buckets
        if bucket not in self.clients:
            self.clients[bucket] = Client(f"{self.url}/b/{bucket}", self.source, self.first_pause)
        return self.clients[bucket]

    def document(self, collection, name, *listeners):
        return self.client(name).document(collection, name, *listeners)

    def close(self):
        self.is_open = False
        for client in self.clients.values():
            client.close()

    async def run(self):
        """Runs the clients that have documents, also those that are opened meanwhile. Closes the others."""
        tasks = {}
        while self.is_open:
            for client in self.clients.values():
                client.is_open = bool(client.documents) or time.monotonic() < client.idle_since + IDLE
                if client in tasks and tasks[client].done():
                    tasks.pop(client).result()
                if client.is_open and client not in tasks:
                    tasks[client] = asyncio.create_task(client.run())
                if not client.is_open:
                    client.close()
            await asyncio.sleep(0.05)
        await asyncio.gather(*tasks.values())


if __name__ == "__main__":
    address = sys.argv[1] if "://" in sys.argv[1] else f"ws://{sys.argv[1]}"
    program = Cluster(address, int(sys.argv[4])) if sys.argv[4:] else Client(address)
    program.document(*sys.argv[2:4], lambda it: print(it.version, "-" if it.shown is ABSENT else json.dumps(it.shown), flush=True))
    asyncio.run(program.run())
