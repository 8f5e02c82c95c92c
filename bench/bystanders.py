"""Measures what one client's long edits cost the editors of other documents: bystanders.py SERVER [EDITS [LATE]]

One document gets 1,000 operations of 256 components. Then one client, or LATE, send operations of 256 components with base
version 1, so each is transformed against all of them. Another client edits the document without a pause, so each commit
finds a longer log. At the same time a bystander sends edits to sixteen other documents in turn, of which some share the
document's lock: 10,000 (or EDITS), and more until two of the late operations are acknowledged, but at most for five minutes.
It prints the middle and the slowest acknowledgement of the bystander, first without the other two.

A third document has as many operations, which nobody adds to. An honest client sends it operations of one component with base
version 1, twenty times; the same is printed of their acknowledgements.

SERVER is the program of the server. It is started at a port of its own and stopped at the end."""
import json
import multiprocessing
import pathlib
import re
import sys
import time

sys.path.insert(0, str(pathlib.Path(__file__).resolve().parent.parent / "tests"))

from support.frames import NO_MASK, Connection, Fault, frame  # noqa: E402
from support.server import Server  # noqa: E402

TYPE = "http://sharejs.org/types/JSONv0"
COMPONENTS = 256
LONG = 1_000
ENOUGH = 2  # late operations that are acknowledged
HONEST = 20  # late operations of one component
LONGEST = 300  # seconds for two late operations
DOCUMENTS = 16


class Client(Connection):
    """A session whose edits have a source. The mask of its messages is zero, so that no mask is computed."""

    def __init__(self, port, source):
        super().__init__(("127.0.0.1", port), patience=None)
        self.source, self.seq = source, 0
        self.enter()

    def send_message(self, message):
        self.send(frame(json.dumps(message, separators=(",", ":")).encode(), mask=NO_MASK))

    def submit(self, document, **content):
        """Sends an operation and waits for its acknowledgement, after the operations of others."""
        self.seq += 1
        self.send_message({"a": "op", "c": "boards", "d": document, "src": self.source, "seq": self.seq, **content})
        own = re.compile(rb'"seq":%d[,}]' % self.seq)
        while True:
            text = self.next_text()
            if b'"error"' in text:
                raise RuntimeError(text)
            if own.search(text) and f'"src":"{self.source}"'.encode() in text:
                return


def long_edit():
    return [{"p": ["t", 0], "si": "x"}] * COMPONENTS


def bystand(client, edits, is_enough):
    took = []
    while len(took) < edits or not is_enough():
        start = time.perf_counter()
        client.submit(f"b{len(took) % DOCUMENTS}", op=[{"p": ["n"], "na": 1}])
        took.append(time.perf_counter() - start)
    return took


def edit_late(client):
    took = []
    for _ in range(HONEST):
        start = time.perf_counter()
        client.submit("c", v=1, op=[{"p": ["n"], "na": 1}])
        took.append(time.perf_counter() - start)
    return took


def repeat(port, source, edit, count):
    client = Client(port, source)
    try:
        while True:
            client.submit("a", **edit)
            with count.get_lock():
                count.value += 1
    except (EOFError, OSError, Fault):
        pass


def report(name, took):
    middle, slowest = sorted(took)[len(took) // 2], max(took)
    print(f"{name}: {len(took)} edits, middle {middle * 1e6:.0f} us, slowest {slowest * 1e3:.1f} ms", flush=True)


def main(program, edits=10_000, late_clients=1):
    with Server(program) as server:
        port = server.address[1]
        bystander, author = Client(port, "bystander"), Client(port, "author")
        for number in range(DOCUMENTS):
            bystander.submit(f"b{number}", create={"type": TYPE, "data": {"n": 0}})
        for document in ("a", "c"):
            author.submit(document, create={"type": TYPE, "data": {"t": "", "n": 0}})
            for _ in range(LONG):
                author.submit(document, op=long_edit())
        honest = Client(port, "honest")
        report("alone", bystand(bystander, edits, lambda: True))
        report("late edits of one component, alone", edit_late(honest))
        late, stored = multiprocessing.Value("q"), multiprocessing.Value("q")
        one = {"op": [{"p": ["n"], "na": 1}]}
        late_edit = {"v": 1, "op": long_edit()}
        loads = [(port, f"late-{number}", late_edit, late) for number in range(late_clients)] + [(port, "storer", one, stored)]
        others = [multiprocessing.Process(target=repeat, daemon=True, args=load) for load in loads]
        for other in others:
            other.start()
        try:
            time.sleep(1)
            end = time.monotonic() + LONGEST
            report("concurrent", bystand(bystander, edits, lambda: late.value >= ENOUGH or time.monotonic() > end))
            report("late edits of one component, concurrent", edit_late(honest))
            print(f"meanwhile {late.value} late operations and {stored.value} others were acknowledged")
        finally:
            for other in others:
                other.kill()


if __name__ == "__main__":
    main(sys.argv[1], *map(int, sys.argv[2:]))
