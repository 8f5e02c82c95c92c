"""Runs the programs over generated input, in turn, and prints the best of fifteen runs each.

    bench/measure.py [--json [FILE]]

--json also writes all figures with the spread of their runs: to FILE, or to bench/results/DATE-COMMIT.json. `bench/tables.py`
makes tables of it.
"""
import json
import os
import random
import subprocess
import sys
import tempfile
import time

from results import Results

HERE = os.path.dirname(os.path.abspath(__file__))
GENERATE = os.path.join(HERE, "generate.py")
SERVER = os.path.join(HERE, "..", "crates", "sdb_server_main", "out", "sdb_server_main")
BENCH = os.path.join(HERE, "..", "crates", "sdb_bench", "out", "sdb_bench")
RUNS = 15
RESULTS = Results()


# Returns the processor time of a command over a file, in seconds.
def spent(command, path, output=os.devnull):
    with open(path, "rb") as source, open(output, "wb") as sink:
        child = subprocess.Popen(command, stdin=source, stdout=sink)
        _, status, used = os.wait4(child.pid, 0)
        assert status == 0
    return used.ru_utime + used.ru_stime


# Measures the server, and what any server must do: read each line as JSON and print each answer (without reading it).
def compare(title, kind, lines, *more):
    with tempfile.NamedTemporaryFile("w", suffix=".lines") as made, tempfile.NamedTemporaryFile(suffix=".answers") as answers:
        subprocess.run([sys.executable, GENERATE, kind, str(lines), *map(str, more)], stdout=made, check=True)
        made.flush()
        spent([SERVER, "--lines"], made.name, answers.name)
        passes = {
            "read": ([BENCH, "read"], made.name),
            "read answers": ([BENCH, "read"], answers.name),
            "print answers": ([BENCH, "json"], answers.name),
            "server": ([SERVER, "--lines"], made.name),
        }
        runs = {name: [] for name in passes}
        for _ in range(RUNS):
            for name, (command, path) in passes.items():
                runs[name].append(spent(command, path))
        best = {name: min(times) for name, times in runs.items()}
        sizes = os.path.getsize(made.name), os.path.getsize(answers.name)
    printed = best["print answers"] - best["read answers"]
    plain, server = best["read"] + printed, best["server"]
    RESULTS.add(f"{title}: server, {lines} lines", "s", server, runs["server"])
    RESULTS.add(f"{title}: JSON of the lines and answers", "s", plain)
    RESULTS.add(f"{title}: ratio", "ratio", server / plain)
    print(f"{title}: {lines} lines, {sizes[0] / 1e6:.1f} MB, answers {sizes[1] / 1e6:.1f} MB; processor time")
    print(f"  JSON of the lines read, of the answers printed: {best['read']:.3f} + {printed:.3f} = {plain:.3f} s")
    print(f"  server: {server:.3f} s, {server / lines * 1e6:.2f} microseconds each line; ratio {server / plain:.2f}")


# Returns the server's best time over an input in seconds, its maximum memory in bytes, and all times.
def server_over(runs, kind, *counts):
    with tempfile.NamedTemporaryFile("w", suffix=".lines") as made:
        subprocess.run([sys.executable, GENERATE, kind, *map(str, counts)], stdout=made, check=True)
        made.flush()
        times, held = [], 0
        for _ in range(runs):
            with open(made.name, "rb") as source, open(os.devnull, "wb") as sink:
                start = time.perf_counter()
                server = subprocess.Popen([SERVER, "--lines"], stdin=source, stdout=sink)
                _, status, used = os.wait4(server.pid, 0)
                assert status == 0
                times.append(time.perf_counter() - start)
                held = max(held, used.ru_maxrss * 1024)
    return min(times), held, times


# Returns the time of one of `count` edits, as the difference of the best times with and without them.
def each_of(title, kind, parts, count):
    with_edits, without = (server_over(5, kind, *parts, it) for it in (count, 0))
    value = (with_edits[0] - without[0]) / count
    RESULTS.add(title, "s", value, [(it - without[0]) / count for it in with_edits[2]])
    return value


def long_logs():
    few, many = 10_000, 1_000_000
    short, long = server_over(5, "counts", few)[0] / few, server_over(1, "counts", many)[0] / many
    RESULTS.add(f"an increment, on a log that grows to {few} entries", "s", short)
    RESULTS.add(f"an increment, on a log that grows to {many} entries", "s", long)
    print(f"each increment of one number, on a log that grows to {few} entries: {short * 1e6:.2f} microseconds")
    print(f"  to {many}: {long * 1e6:.2f} microseconds, ratio {long / short:.2f}")
    held = server_over(1, "trace", many)[1] - server_over(1, "trace", few)[1]
    RESULTS.add("memory of an insert", "bytes", held / (many - few))
    print(f"memory for each insert of a character by 8 sources: {held / (many - few):.0f} bytes")


def pairs():
    edits = 1000
    title = "an edit of two components, in a document of {} KB"
    small, large = (each_of(title.format(size), "pairs", [size], edits) for size in (100, 10_000))
    print(f"an edit of two components in a text of 1 KB, in a document of 100 KB: {small * 1e6:.0f} microseconds")
    print(f"  of 10 MB: {large * 1e6:.0f} microseconds, ratio {large / small:.2f}")


def places():
    edits = 5_000
    for kind, sizes in (("text", (10_000, 1_000_000)), ("list", (500, 50_000)), ("object", (500, 50_000))):
        small, large = (each_of(f"a session's edit of a {kind} of {size}", "places", [kind, size], edits) for size in sizes)
        print(f"an edit by a session of a {kind} of {sizes[0]}: {small * 1e6:.1f} microseconds, of {sizes[1]}: {large * 1e6:.1f}")


def snapshots():
    entries, reads = 100_000, 10_000
    alone = server_over(5, "snapshots", entries, 0, 0)[0]
    present, near = ((server_over(5, "snapshots", entries, reads, back)[0] - alone) / reads for back in (0, 1000))
    far = server_over(5, "snapshots", entries, 1, entries)[0] - alone
    for title, value in (("the current version", present), ("one of the last 1,000 versions", near), ("any version", far)):
        RESULTS.add(f"a read of {title}, on a log of {entries} entries", "s", value)
    print(f"a document at the present version of a log of {entries} entries: {present * 1e6:.1f} microseconds")
    print(f"  at a random one of the last 1,000: {near * 1e6:.1f} microseconds, of all: {far * 1e3:.1f} milliseconds")


def subscriptions():
    lines = 100_000
    for subscribed in (0, 64):
        compare(f"64 documents, {subscribed} of them subscribed to", "subscriptions", lines, subscribed, 0)
    for subscribed in (0, 64):
        idle = server_over(5, "subscriptions", 0, subscribed, lines)[0] - server_over(5, "subscriptions", 0, subscribed, 0)[0]
        print(f"a line after which nothing waits in {subscribed} subscriptions: {idle / lines * 1e6:.2f} microseconds")


# Prints the program's measurements of these lines, each a JSON value.
def measured(title, part, lines):
    given = "".join(json.dumps(line, ensure_ascii=False, separators=(",", ":")) + "\n" for line in lines)
    said = subprocess.run([BENCH, part], input=given.encode(), stdout=subprocess.PIPE, check=True).stdout.decode()
    for line in said.splitlines():
        print(f"{title}: {line}", flush=True)


# Returns a value, and operations of one component.
def edited(value, count, component):
    return [value, *([component()] for _ in range(count))]


def calls():
    at, inserts = random.Random(1), 100_000
    for length in (250_000, 500_000, 1_000_000):
        into = edited("a" * length, inserts, lambda: {"p": [at.randrange(length)], "si": "b"})
        measured(f"a character into a text of {length}", "apply", into)
    for length in (25_000, 50_000, 100_000):
        into = edited([{"n": 1}] * length, inserts, lambda: {"p": [at.randrange(length)], "li": {"n": 1}})
        measured(f"an object into a list of {length}", "apply", into)
    for length in (1_000, 10_000, 100_000):
        # at random keys among twice as many as the object has at first
        keys = {f"k{key}": None for key in range(length)}
        into = edited(keys, inserts, lambda: {"p": [f"k{at.randrange(2 * length)}"], "oi": None})
        measured(f"a key into an object of {length}", "apply", into)
    length = 10_000_000
    measured(f"a text of {length}", "fetch", edited("a" * length, 10_000, lambda: {"p": [at.randrange(length)], "si": "b"}))
    path = ["board", 3, "notes"]
    members = {f"m{number}": 1 for number in range(1_000)}
    for title, component, other in [
        ("a text insert past another", {"p": [*path, 9], "si": "x"}, {"p": [*path, 5], "si": "x"}),
        ("a list insert past another, 3 steps deep", {"p": [*path, 9], "li": 1}, {"p": [*path, 5], "li": 1}),
        ("an edit into a removed value of 1,000 members", {"p": [*path, "k"], "od": members}, {"p": [*path, "k", "m500"], "oi": 1}),
    ]:
        measured(title, "transform", [None, [component], [other]])
    for title, insert in [("256 text inserts", {"si": "x"}), ("256 list inserts", {"li": 1})]:
        operation = [{"p": [*path, index], **insert} for index in range(256)]
        measured(title, "cross", [None, operation, operation])


def main(words):
    compare("1,000 documents", "lines", 100_000)
    compare("one text, 8 sources, base versions up to 8 old", "trace", 100_000)
    compare("one number", "counts", 100_000)
    compare("one board, 8 sources, base versions up to 8 old", "boards", 100_000)
    subscriptions()
    long_logs()
    pairs()
    places()
    snapshots()
    calls()
    subprocess.run([BENCH, "lock"], check=True)
    if words[:1] == ["--json"]:
        print(f"written: {RESULTS.write(*words[1:2])}")


if __name__ == "__main__":
    if sys.argv[1:] and sys.argv[1] != "--json":
        sys.exit(__doc__)
    main(sys.argv[1:])
