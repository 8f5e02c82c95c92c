"""Measures the memory of a client that lists a long log: bench/listing.py SERVER [OPERATIONS]

One client stores the operations, another one fetches them from version 0 on and reads slowly."""
import pathlib
import sys
import time

sys.path.insert(0, str(pathlib.Path(__file__).resolve().parent.parent / "tests"))

from support.frames import text  # noqa: E402
from support.server import Server  # noqa: E402

KEY = {"c": "board", "d": "1"}
PAUSE = 3  # seconds in which the client doesn't read


def store(server, count):
    with server.enter() as client:
        client.ask({"a": "op", **KEY, "src": "writer", "seq": 1, "create": {"type": "json0", "data": {"n": 0}}})
        for number in range(count):
            client.ask({"a": "op", **KEY, "src": "writer", "seq": number + 2, "op": [{"p": ["n"], "na": 1}]})


def listed(server):
    with server.enter() as client:
        client.send(text({"a": "f", **KEY, "v": 0}))
        time.sleep(PAUSE)
        count = 0
        while client.message()["a"] != "f":
            count += 1
        return count


def main(program, count):
    with Server(program) as server:
        store(server, count)
        before = server.megabytes()
        server.restart_maximum()
        entries = listed(server)
        more = (server.megabytes("VmHWM") - before) * 1e6
        print(f"{entries} operations listed, {more / entries:.1f} bytes more for each")


if __name__ == "__main__":
    main(sys.argv[1], int(sys.argv[2]) if len(sys.argv) > 2 else 100_000)
