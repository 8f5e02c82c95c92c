"""Measures how long one long edit takes: long_works.py SERVER

One client sends edits with the base version 1: of one component and of 256 to documents with 15, 30 and 250 operations of 256
components, and a deletion of a text of 400,000 units into which 1,024, 1,792 or 4,096 inserts fell. It prints the milliseconds
until each is stored, with the answer's missed operations, or the code of its refusal, and how many pairs of components it meets.

SERVER is the program of the server. It is started at a port of its own and stopped at the end."""
import sys
import time

from bystanders import COMPONENTS, TYPE, Client, Server, long_edit
from hostile import answer_of, store

ENTRIES = (15, 30, 250)
INSERTS = (1_024, 1_792, 4_096)
TEXT = "a" * 400_000


def measure(title, client, document, operation):
    start = time.perf_counter()
    code = answer_of(client, document, v=1, op=operation)
    print(f"{title}: {1_000 * (time.perf_counter() - start):,.0f} ms{f', {code}' if code else ''}", flush=True)


def main(program):
    with Server(program, "--clients", "16") as server:
        author = Client(server.address[1], "author")
        for count in ENTRIES:
            author.submit(f"d{count}", create={"type": TYPE, "data": {"t": "", "n": 0}})
            store(author, f"d{count}", count, long_edit())
            for operation in ([{"p": ["n"], "na": 1}], long_edit()):
                pairs = count * len(operation) * COMPONENTS
                measure(f"{len(operation)} components, {pairs:,} pairs", author, f"d{count}", operation)
        for inserts in INSERTS:
            author.submit(f"s{inserts}", create={"type": TYPE, "data": TEXT})
            for first in range(0, inserts, COMPONENTS):
                author.submit(f"s{inserts}", op=[{"p": [2 * it], "si": "b"} for it in range(first, first + COMPONENTS)])
            measure(f"a deletion, {inserts:,} inserts", author, f"s{inserts}", [{"p": [0], "sd": TEXT}])


if __name__ == "__main__":
    main(sys.argv[1])
