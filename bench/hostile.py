"""Measures what hostile clients cost the others: hostile.py SERVER [CLIENTS]

CLIENTS clients, 40 without it, do each of these at once, without a pause:

- late: sends an operation of 256 components that missed 30 operations of 256 components, to a document of its own;
- split: inserts a text into a document of its own, inserts into it 1,792 times, and deletes it with the base version before that;
- replay: reads old versions of a document with 30,000 operations;
- last: as late, to one document, which another client edits with operations of 256 components;
- short: sends an operation of 128 components that missed one of 128 components, to a document of its own.

The first ones are near the bound of what the server transforms, the last near that of what it transforms without a place.
Meanwhile one client edits sixteen other documents in turn, one connects anew, and one sends edits of one component with the base
version 1 to a document with 30 operations of 256 components. For each it prints the middle and the slowest, first without the
hostile clients. An answer with ERR_OUT_OF_MEMORY counts as one, and is counted too. The hostile clients have the lowest priority,
since they would be other machines.

SERVER is the program of the server. It is started at a port of its own and stopped at the end."""
import multiprocessing
import os
import sys
import time

from bystanders import COMPONENTS, TYPE, Client, Fault, Server, long_edit, report

HOSTILE = 40
DOCUMENTS = 16
ENTRIES = 30  # of the document with honest late edits, which it makes longer
MISSED = 30  # by a hostile edit
SHORT = 128  # components of a short one
INSERTS = 1_792
TEXT = "a" * 2 * INSERTS
REPLAYED = 30_000
BATCH = 500
SECONDS = 20


def answer_of(client, document, **content):
    """Sends an operation and returns the code of its answer, or None if it is stored."""
    client.seq += 1
    client.send_message({"a": "op", "c": "boards", "d": document, "src": client.source, "seq": client.seq, **content})
    while True:
        message = client.message()
        if message.get("seq") == client.seq and message.get("src") == client.source:
            return message.get("error", {}).get("code")


def store(client, document, count, edit):
    for start in range(0, count, BATCH):
        numbers = range(start, min(start + BATCH, count))
        for _ in numbers:
            client.seq += 1
            client.send_message({"a": "op", "c": "boards", "d": document, "src": client.source, "seq": client.seq, "op": edit})
        for _ in numbers:
            assert b'"error"' not in client.next_text()


def prepare(port, clients):
    author = Client(port, "author")
    for number in range(DOCUMENTS):
        author.submit(f"b{number}", create={"type": TYPE, "data": {"n": 0}})
    edits = {"honest": (ENTRIES, long_edit()), "last": (MISSED, long_edit())}
    edits.update((f"late{number}", (MISSED, long_edit())) for number in range(clients))
    edits.update((f"short{number}", (1, long_edit()[:SHORT])) for number in range(clients))
    for document, (count, edit) in edits.items():
        author.submit(document, create={"type": TYPE, "data": {"t": "", "n": 0}})
        store(author, document, count, edit)
    for number in range(clients):
        author.submit(f"split{number}", create={"type": TYPE, "data": {"t": ""}})
    author.submit("replay", create={"type": TYPE, "data": {"n": 0}})
    store(author, "replay", REPLAYED, [{"p": ["n"], "na": 1}])


def late(client, number):
    code = answer_of(client, f"late{number}", v=client.base, op=long_edit())
    client.base += code is None
    return code


def short(client, number):
    code = answer_of(client, f"short{number}", v=client.base, op=long_edit()[:SHORT])
    client.base += code is None
    return code


def split(client, number):
    document = f"split{number}"
    client.submit(document, op=[{"p": ["t", 0], "si": TEXT}])
    base = client.base + 1
    for first in range(0, INSERTS, COMPONENTS):
        client.submit(document, op=[{"p": ["t", 2 * it], "si": "b"} for it in range(first, first + COMPONENTS)])
    code = answer_of(client, document, v=base, op=[{"p": ["t", 0], "sd": TEXT}])
    client.base = base + INSERTS // COMPONENTS + (code is None)
    return code


def replay(client, number):
    client.send_message({"a": "nf", "id": number, "c": "boards", "d": "replay", "v": 1 + (number * 7_919) % REPLAYED})
    return client.message().get("error", {}).get("code")


def last(client, number):
    if number == 0:
        return answer_of(client, "last", op=long_edit())
    client.send_message({"a": "nf", "id": number, "c": "boards", "d": "last", "v": None})
    present = client.message()["v"]
    return answer_of(client, "last", v=present - MISSED, op=long_edit())


def attack(port, kind, number, counts):
    os.nice(19)
    client = Client(port, f"{kind.__name__}-{number}")
    client.base = 1
    try:
        while True:
            code = kind(client, number)
            with counts.get_lock():
                counts[0] += 1
                counts[1] += code is not None
    except (EOFError, OSError, Fault):
        pass


def measure(port, name):
    """Measures for some seconds: edits of other documents, new clients, and late edits of one component."""
    bystander, honest = Client(port, f"bystander-{name}"), Client(port, f"honest-{name}")
    edits, entries, late_edits, refused = [], [], [], 0
    end = time.monotonic() + SECONDS
    while time.monotonic() < end:
        for number in range(50):
            start = time.perf_counter()
            bystander.submit(f"b{number % DOCUMENTS}", op=[{"p": ["n"], "na": 1}])
            edits.append(time.perf_counter() - start)
        start = time.perf_counter()
        Client(port, f"new-{len(entries)}").socket.close()
        entries.append(time.perf_counter() - start)
        start = time.perf_counter()
        refused += answer_of(honest, "honest", v=1, op=[{"p": ["n"], "na": 1}]) is not None
        late_edits.append(time.perf_counter() - start)
    report(f"{name}: other documents", edits)
    report(f"{name}: new clients", entries)
    report(f"{name}: late edits of one component, {refused} refused", late_edits)


def main(program, clients=HOSTILE):
    with Server(program, "--clients", str(6 * clients + 16)) as server:
        port = server.address[1]
        prepare(port, clients)
        measure(port, "alone")
        for kinds in ([late], [split], [replay], [last], [short], [late, split, replay, last]):
            counts = [multiprocessing.Array("q", 2) for _ in kinds]
            loads = [(port, kind, number, count) for kind, count in zip(kinds, counts) for number in range(clients)]
            others = [multiprocessing.Process(target=attack, daemon=True, args=load) for load in loads]
            for other in others:
                other.start()
            try:
                time.sleep(2)
                measure(port, ", ".join(it.__name__ for it in kinds))
            finally:
                for other in others:
                    other.kill()
            for kind, (answers, refused) in zip(kinds, counts):
                print(f"meanwhile {answers} answers to {kind.__name__}, {refused} refused", flush=True)


if __name__ == "__main__":
    main(sys.argv[1], *map(int, sys.argv[2:]))
