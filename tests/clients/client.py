"""One client in Python: edits a document concurrently with others, subscribes to it, and compares it at the end.

    /usr/bin/python3 tests/clients/client.py ADDRESS DOCUMENT [EDITS] [CLIENTS] [SEED]

It shares no code with the others and needs no transform: each edit is made at the version that the client has seen,
and its stored form is fetched when it is acknowledged. After its edits the client sets a key `finished-..` in the document;
once CLIENTS of these keys are set, no client edits. Then it fetches the document over a new connection, and the document at
every fifth version that it has seen. If these differ from its copies, it prints a line that says where, and the status is 1.

Needs python3-websockets.
"""
import asyncio
import hashlib
import json
import random
import sys

import websockets

COLLECTION = "examples"
NAME = "python"
PATIENCE = 120  # seconds without a message
MOST_FAULTS = 5  # that are printed
EVERY = 5  # one version in this number is compared at the end
CARDS, ITEMS, TEXT = 20, 8, 300  # maximum number of cards, and maximum length of a list and of a text
START = {"text": "", "columns": ["To do", "Doing", "Done"], "cards": {}}
PIECES = ["a", "bc", "😀", "word ", "\n", "é", "漢字", "🎉🎉"]


# Texts: offsets count UTF-16 units ------------------------------------------------------------------------------------


def units(text):
    return len(text.encode("utf-16-le")) // 2


def split(text, at):
    data = text.encode("utf-16-le")
    assert 2 * at <= len(data), "an offset past the end"
    return data[: 2 * at].decode("utf-16-le"), data[2 * at :].decode("utf-16-le")


# Operations -----------------------------------------------------------------------------------------------------------


# Returns the text with the component's text inserted or deleted.
def edited(text, component, offset):
    front, rest = split(text, offset)
    if "si" in component:
        return front + component["si"] + rest
    assert rest.startswith(component["sd"]), "another text is deleted"
    return front + rest[len(component["sd"]) :]


def change(place, step, component):
    if "na" in component:
        place[step] += component["na"]
    elif "li" in component and "ld" not in component:
        place.insert(step, component["li"])
    elif "li" in component or "oi" in component:
        place[step] = component.get("li", component.get("oi"))
    elif "ld" in component:
        del place[step]
    else:
        place.pop(step, None)


# Applies one component in place. The document is the item of a list, so that its root has a container.
def apply_component(holder, component):
    path = [0, *component["p"]]
    of_text = "si" in component or "sd" in component
    steps = path[:-2] if of_text else path[:-1]
    place = holder
    for step in steps:
        place = place[step]
    if of_text:
        place[path[-2]] = edited(place[path[-2]], component, path[-1])
    else:
        change(place, path[-1], component)


# Edits ----------------------------------------------------------------------------------------------------------------


# Returns an offset, often at the start or the end, where others write concurrently.
def text_edit(path, text, most):
    points = list(text)
    start = random.choice([0, random.randrange(len(points) + 1), len(points)])
    at = [*path, units("".join(points[:start]))]
    if points[start:] and random.random() < len(points) / most:
        return [{"p": at, "sd": "".join(points[start : start + random.randint(1, 6)])}]
    return [{"p": at, "si": random.choice(PIECES if len(path) == 1 else PIECES[:3])}]


def new_card():
    return {"column": random.randrange(3), "rank": random.choice("cfilor"), "title": "card", "done": False, "votes": 0}


# Edits a list that the page doesn't show. Its items have the form of cards.
def list_edit(data):
    if "items" not in data:
        return [{"p": ["items"], "oi": []}]
    items = data["items"]
    if not items or (len(items) < ITEMS and random.random() < 0.5):
        return [{"p": ["items", random.randint(0, len(items))], "li": new_card()}]
    index = random.randrange(len(items))
    removed = {"p": ["items", index], "ld": items[index]}
    kind = random.random()
    if kind < 0.3:
        return [{**removed, "li": new_card()}]
    if kind < 0.6:
        return [removed, {"p": ["items", random.randrange(len(items))], "li": items[index]}]
    return [removed] if kind < 0.8 else card_edit(["items", index], items[index])


def add_or_remove(data):
    if data["cards"] and (len(data["cards"]) >= CARDS or random.random() < 0.4):
        key = random.choice(list(data["cards"]))
        return [{"p": ["cards", key], "od": data["cards"][key]}]
    return [{"p": ["cards", f"{random.getrandbits(40):x}"], "oi": new_card()}]


# Moves a card: it gets another column and rank.
def move_edit(path, card):
    new = new_card()
    return [{"p": [*path, key], "od": card[key], "oi": new[key]} for key in ("column", "rank")]


def key_edit(path, place):
    key = f"key-{random.randrange(4)}"
    if key in place and random.random() < 0.4:
        return [{"p": [*path, key], "od": place[key]}]
    put = {"p": [*path, key], "oi": random.choice([random.randrange(100), "text", None, [1, 2], {"deep": True}])}
    return [{**put, "od": place[key]} if key in place else put]


def card_edit(path, card):
    kind = random.randrange(5)
    if kind == 0:
        return [{"p": [*path, "votes"], "na": random.randint(-3, 5)}]
    if kind == 1:
        return [{"p": [*path, "done"], "od": card["done"], "oi": not card["done"]}]
    if kind == 2:
        return text_edit([*path, "title"], card["title"], 20)
    return key_edit(path, card) if kind == 3 else move_edit(path, card)


def random_edit(data):
    kind = random.randrange(9)
    if kind < 3:
        return text_edit(["text"], data["text"], TEXT)
    if kind == 3:
        return key_edit([], data)
    if kind == 4:
        return list_edit(data)
    if kind == 5 or not data["cards"]:
        return add_or_remove(data)
    key = random.choice(list(data["cards"]))
    return card_edit(["cards", key], data["cards"][key])


# The client -----------------------------------------------------------------------------------------------------------


class Client:
    def __init__(self, socket, document):
        self.socket = socket
        self.source = f"{NAME}-{random.SystemRandom().getrandbits(32):x}"
        self.address = {"c": COLLECTION, "d": document}
        self.number = 0
        self.version = None
        self.holder = [None]
        self.arrived = {}
        self.held = {}  # the document as JSON text, by version
        self.refused = 0

    @property
    def data(self):
        return self.holder[0]

    async def send(self, **message):
        await self.socket.send(json.dumps({**message, **self.address}))

    async def receive(self):
        message = json.loads(await asyncio.wait_for(self.socket.recv(), PATIENCE))
        if message["a"] == "op" and any(member in message for member in ("op", "create", "del")):
            self.arrived[message["v"]] = message
            self.advance()
        return message

    async def until(self, *wanted):
        while True:
            message = await self.receive()
            if message["a"] in wanted and not any(member in message for member in ("op", "create", "del")):
                return message

    # Applies received operations in the order of versions. Applies none before the first answer.
    def advance(self):
        while self.version is not None and self.version in self.arrived:
            entry = self.arrived.pop(self.version)
            if "create" in entry:
                self.holder[0] = entry["create"]["data"]
            for component in entry.get("op", []):
                apply_component(self.holder, component)
            self.version += 1
            if self.version % EVERY == 0:
                self.held[self.version] = spelled(self.data)

    async def start(self):
        await self.until("init")
        await self.send(a="hs", id=self.source, protocol=1)
        await self.until("hs")
        await self.send(a="s")
        loaded = (await self.until("s"))["data"]
        self.version, self.holder[0] = loaded["v"], loaded.get("data")
        self.advance()
        if self.data is None:
            await self.submit(create={"type": "json0", "data": START})
        while self.data is None:
            await self.receive()

    # Sends an edit at the seen version, and waits until the version at which it is stored is seen.
    async def submit(self, **content):
        self.number += 1
        await self.send(a="op", v=self.version, src=self.source, seq=self.number, **content)
        answer = await self.until("op")
        if "error" in answer:
            self.refused += 1
            return
        await self.send(a="f", v=answer["v"])
        await self.until("f")
        while self.version <= answer["v"]:
            await self.receive()

    async def edit(self, edits):
        for _ in range(edits):
            await self.submit(op=random_edit(self.data))
        await self.submit(op=[{"p": [f"finished-{NAME}"], "oi": True}])

    async def follow(self, clients):
        while sum(key.startswith("finished-") for key in self.data) < clients:
            await self.receive()


# The end --------------------------------------------------------------------------------------------------------------


# Returns the version and the document over a new connection, and the document at some versions.
async def fetch(address, document, versions):
    async with websockets.connect(address) as socket:
        fresh = Client(socket, document)
        await fresh.until("init")
        await fresh.send(a="f")
        found = (await fresh.until("f"))["data"]
        before = {}
        for version in versions:
            await fresh.send(a="nf", id=version, v=version)
            before[version] = (await fresh.until("nf")).get("data")
        return found["v"], found.get("data"), before


# Returns the first place at which two values differ, or None.
def difference(ours, theirs, path="document"):
    if type(ours) is not type(theirs):
        return f"{path}: {json.dumps(ours)} and {json.dumps(theirs)}"
    if isinstance(ours, dict) and ours.keys() == theirs.keys():
        return next(filter(None, (difference(ours[key], theirs[key], f"{path}.{key}") for key in ours)), None)
    if isinstance(ours, list) and len(ours) == len(theirs):
        return next(filter(None, (difference(*both, f"{path}[{at}]") for at, both in enumerate(zip(ours, theirs)))), None)
    return None if ours == theirs else f"{path}: {json.dumps(ours)} and {json.dumps(theirs)}"


# Returns the differences at the kept versions, each with the document there as JSON text.
def differences_before(held, before):
    for version, text in held.items():
        found = difference(json.loads(text), before[version])
        if found:
            yield f"held another document at version {version}: {found}"


def spelled(data):
    return json.dumps(data, sort_keys=True, separators=(",", ":"), ensure_ascii=False)


def digest(data):
    return hashlib.sha256(spelled(data).encode()).hexdigest()[:16]


# Prints how a client ended and its first faults. Returns the status.
def told(name, ended, faults):
    print(f"{name}: {ended}")
    for fault in faults[:MOST_FAULTS]:
        print(f"{name}: {fault}")
    return 1 if faults else 0


async def main(address, document, edits="300", clients="1", seed="1"):
    random.seed(seed)
    async with websockets.connect(address, max_size=None, max_queue=None) as socket:
        client = Client(socket, document)
        await client.start()
        await client.edit(int(edits))
        await client.follow(int(clients))
    version, data, before = await fetch(address, document, client.held)
    faults = list(differences_before(client.held, before))
    if differs := difference([client.version, client.data], [version, data]):
        faults.append(f"holds another document: {differs}")
    ended = f"{edits} edits, {client.refused} refused, version {client.version}, digest {digest(client.data)}"
    return told(NAME, ended, faults)


if __name__ == "__main__":
    sys.exit(asyncio.run(main(*sys.argv[1:])))
