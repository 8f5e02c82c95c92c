"""Measures the memory of a key that was subscribed to and has neither a document nor an open queue: bench/keys.py SERVER

It runs one session over lines twice, with different numbers of keys. It prints the additional bytes for each additional key, and
the bytes of the key's own texts."""
import json
import os
import subprocess
import sys
import tempfile

FEW, MANY = 20_000, 220_000
COLLECTION = "b"


def name(number):
    return f"{number:08}"


def write_lines(file, keys):
    for number in range(keys):
        for message in ("s", "u"):
            line = json.dumps({"a": message, "c": COLLECTION, "d": name(number)}, separators=(",", ":"))
            file.write(line.encode() + b"\n")


def most_memory(server, keys):
    with tempfile.TemporaryFile() as lines:
        write_lines(lines, keys)
        lines.seek(0)
        program = subprocess.Popen([server, "--lines"], stdin=lines, stdout=subprocess.DEVNULL)
        _, status, used = os.wait4(program.pid, 0)
    if status != 0:
        sys.exit(f"the server ended with {status}")
    return used.ru_maxrss * 1024


def main(server):
    more = most_memory(server, MANY) - most_memory(server, FEW)
    texts = len(COLLECTION) + len(name(0))
    print(f"{more / (MANY - FEW):.0f} bytes for each of {MANY:,} keys, {texts} of them of its texts")


if __name__ == "__main__":
    main(*sys.argv[1:])
