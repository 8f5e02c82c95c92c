"""Writes the input of a benchmark, lines of one session: generate.py KIND NUMBER.. [--steps]

    lines LINES                  1,000 documents: creates, fetches, members set at a version, increments
    counts OPERATIONS            one number, incremented by one source
    snapshots ENTRIES READS BACK counts, and reads at a random version of the last BACK ones (0: the current one)
    trace OPERATIONS             8 sources type inside the text of the create, with base versions up to 8 before the log's
    boards OPERATIONS [CARDS]    8 sources insert, move and mark cards, with such base versions. Each source inserts cards anywhere
                                 into a column of its own and moves them to the top of a shared one, of which the first source
                                 removes the oldest; marks are in one object. A column has some 20 cards, or CARDS
    objects KEYS OPERATIONS      one source changes members of one object
    pairs KILOBYTES EDITS        a delete and an insert in one operation, in one text of a document of this size
    places KIND SIZE OPERATIONS  edits at random places of a large text, list or object (KIND), each at the current version. SIZE is
                                 its characters, items or keys; a create has at most 1,048,576 bytes, so some 50,000 items or keys
    subscriptions INCREMENTS SUBSCRIBED FETCHES
                                 increments of one number in each of 64 documents, in turn, after subscriptions to the first
                                 SUBSCRIBED ones; then fetches of an absent document, which find all queues empty

Each operation applies at its base version. With --steps each operation is begun and committed by its source, as steps."""
import bisect
import json
import random
import sys

TYPE = "http://sharejs.org/types/JSONv0"
SOURCES = 8
MAX_LAG = 8


def operation(collection, document="1", **members):
    return {"a": "op", "c": collection, "d": document, **members}


def create(data):
    return {"create": {"type": TYPE, "data": data}}


def lines(count):
    documents = 1000
    pick = random.Random(1)
    versions = [0] * documents
    for number in range(count):
        at = pick.randrange(documents)
        message = operation("board", f"card{at}", src=f"user{number % SOURCES}", seq=number)
        if versions[at] == 0:
            message |= create({"title": f"Card {at}", "votes": 0, "fields": {"state": "open"}, "notes": []})
        elif number % 5 == 0:
            message = {"a": "f", "c": "board", "d": f"card{at}"}
        elif number % 5 == 1:
            message |= {"v": versions[at], "op": [{"p": ["fields", f"f{number % 16}"], "oi": f"value {number}"}]}
        else:
            message["op"] = [{"p": ["votes"], "na": 1}]
        if message["a"] == "op":
            versions[at] += 1
        yield message


def counts(operations):
    yield operation("notes", seq=0, **create({"n": 0}))
    for number in range(1, operations):
        yield operation("notes", seq=number, op=[{"p": ["n"], "na": 1}])


def snapshots(entries, reads, back):
    yield from counts(entries)
    pick = random.Random(3)
    for number in range(reads):
        version = entries - (pick.randrange(back) if back else 0)
        yield {"a": "nf", "c": "notes", "d": "1", "id": number, "v": version}


def trace(operations):
    pick = random.Random(2)
    start = "The quick brown fox jumps over the lazy dog. " * 4
    yield operation("notes", src="u0", seq=0, **create({"text": start}))
    for number in range(1, operations):
        version = max(1, number - pick.randrange(MAX_LAG + 1))
        # each version has this offset, since nothing is deleted
        offset = pick.randrange(len(start))
        insert = [{"p": ["text", offset], "si": pick.choice("abcdefgh ")}]
        yield operation("notes", v=version, src=f"u{number % SOURCES}", seq=number, op=insert)


class Board:
    MARKS = 500

    def __init__(self, cards):
        self.pick, self.cards = random.Random(4), cards
        self.columns = [[] for _ in range(SOURCES)]
        # the moved cards, with the versions at which their moves are stored, and how many were removed
        self.moved, self.versions, self.gone = [], [], 0

    def put(self, source, number):
        column = self.columns[source]
        at = self.pick.randrange(len(column) + 1)
        card = {"id": number, "text": f"what is to be done, {number}"}
        column.insert(at, card)
        return [{"p": ["columns", source, at], "li": card}]

    def move(self, source, number):
        column = self.columns[source]
        at = self.pick.randrange(len(column))
        card = column.pop(at)
        self.moved.append(card)
        self.versions.append(number)
        return [{"p": ["columns", source, at], "ld": card}, {"p": ["columns", SOURCES, 0], "li": card}]

    def take_out(self, version):
        components = []
        count = bisect.bisect_left(self.versions, version) - self.gone
        for at in range(count - 1, max(count - 5, self.cards), -1):
            components.append({"p": ["columns", SOURCES, at], "ld": self.moved[self.gone]})
            self.gone += 1
        return components

    def edit(self, source, number, version):
        components = self.take_out(version) if source == 0 else []
        kind = self.pick.randrange(10)
        if components:
            return components
        if kind < 3:
            return [{"p": ["marks", f"card{number % self.MARKS}"], "oi": number}]
        if self.columns[source] and (kind < 6 or len(self.columns[source]) > self.cards):
            return self.move(source, number)
        return self.put(source, number)


def boards(operations, cards=20):
    board = Board(cards)
    yield operation("boards", src="u0", seq=0, **create({"columns": [[] for _ in range(SOURCES + 1)], "marks": {}}))
    for number in range(1, operations):
        source = number % SOURCES
        # the source has seen its own last operation
        version = max(1, number - board.pick.randrange(MAX_LAG))
        edit = board.edit(source, number, version)
        yield operation("boards", v=version, src=f"u{source}", seq=number, op=edit)


def objects(keys, operations):
    pick = random.Random(7)
    members = {f"key{number:08}": number for number in range(keys)}
    yield operation("objects", src="u", seq=0, **create(members))
    for number in range(1, operations):
        key = f"key{pick.randrange(keys):08}"
        yield operation("objects", v=number, src="u", seq=number, op=[{"p": [key], "od": members[key], "oi": number}])
        members[key] = number


def pairs(kilobytes, edits):
    part = 100
    yield operation("notes", seq=0, **create({"text": "word " * 200}))
    parts = kilobytes // part
    for number in range(parts):
        yield operation("notes", seq=number + 1, op=[{"p": [f"part{number}"], "oi": ["x" * 1000 for _ in range(part)]}])
    for edit in range(edits):
        replaced = [{"p": ["text", 500], "sd": "word "}, {"p": ["text", 500], "si": "word "}]
        yield operation("notes", seq=parts + edit + 1, op=replaced)


def large_value(kind, size):
    if kind == "text":
        return "abcdefghij" * (size // 10)
    if kind == "list":
        return [{"n": number} for number in range(size)]
    return {f"k{2 * number:06d}": number for number in range(size)}


def component(kind, size, number, pick):
    if kind == "text":
        return {"p": ["it", pick.randrange(size)], "si": "z"}
    if kind == "list":
        return {"p": ["it", pick.randrange(size)], "li": {"n": number}}
    return {"p": ["it", f"k{pick.randrange(2 * size):06d}"], "oi": number}


def places(kind, size, operations):
    pick = random.Random(5)
    yield operation("large", src="u", seq=0, **create({"it": large_value(kind, size)}))
    for number in range(1, operations + 1):
        yield operation("large", src="u", v=number, seq=number, op=[component(kind, size, number, pick)])


def subscriptions(increments, subscribed, fetches):
    documents = 64
    for number in range(documents):
        yield operation("boards", str(number), src="x", seq=0, **create({"n": 0}))
    for number in range(subscribed):
        yield {"a": "s", "c": "boards", "d": str(number)}
    for number in range(increments):
        yield operation("boards", str(number % documents), src="x", seq=number + 1, op=[{"p": ["n"], "na": 1}])
    for _ in range(fetches):
        yield {"a": "f", "c": "boards", "d": "none"}


def as_steps(messages):
    sessions = {}
    for message in messages:
        session = sessions.setdefault(message["src"], len(sessions))
        del message["a"]
        yield {"s": session, "do": "begin", **message}
        yield {"s": session, "do": "commit"}


KINDS = {it.__name__: it for it in (lines, counts, snapshots, trace, boards, objects, pairs, places, subscriptions)}


def main(words):
    if words[:1] == [] or words[0] not in KINDS:
        sys.exit(__doc__)
    numbers = [int(it) if it.isdigit() else it for it in words[1:] if it != "--steps"]
    messages = KINDS[words[0]](*numbers)
    for message in as_steps(messages) if "--steps" in words else messages:
        print(json.dumps(message, separators=(",", ":")))


if __name__ == "__main__":
    main(sys.argv[1:])
