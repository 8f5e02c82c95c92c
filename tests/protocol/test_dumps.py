"""The program of steps accepts the dump of a server, and refuses it with one digit changed."""
import subprocess

from support.frames import text
from support.server import Server

STORED = [
    {"a": "op", "c": "board", "d": "2", "v": 0, "seq": 1, "create": {"type": "json0", "data": {"n": 0}}},
    {"a": "op", "c": "board", "d": "1", "v": 0, "seq": 1, "create": {"type": "json0", "data": []}},
    {"a": "op", "c": "board", "d": "2", "v": 1, "seq": 2, "op": [{"p": ["n"], "na": 7}]},
    {"a": "op", "c": "board", "d": "2", "v": 1, "seq": 3, "op": [{"p": ["n"], "na": 5}]},
]


def served_dump(program):
    """Returns the dump of a server that stored these, which is all of its standard output."""
    with Server(program, dump=True) as server:
        with server.enter() as connection:
            for message in STORED:
                connection.send(text(message))
                # missed operations are sent before the acknowledgement
                while connection.message().get("seq") != message["seq"]:
                    pass
        return server.stop()


def check(steps_program, dump):
    return subprocess.run([steps_program, "--check"], input=dump, stdout=subprocess.PIPE, text=True).stdout


def test_dump(program, steps_program):
    dump = served_dump(program)
    assert check(steps_program, dump) == "accepted 2 documents, 4 entries\n"
    assert check(steps_program, dump.replace('"na":5', '"na":6', 1)) == "wrong at line 5\n"
