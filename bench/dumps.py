"""Measures dumps: dumps.py [ENTRIES] takes the built program of steps and the measuring program

One session stores the entries in 64 documents: of five edits four add to one number, the fifth inserts into one text. It prints
processor seconds of the answered steps, of the steps with a dump at the end, of the check of that dump, and of a pass that only
reads and prints the JSON of the dump's lines; and the memory of the check for each entry. Then it measures texts that grow by
100 bytes 100,000 times, in one document and in 1,000: the memory of the steps, which keep documents and logs, and that of the
check, which keeps the logs and one document."""
import json
import os
import subprocess
import sys
import tempfile

HERE = os.path.dirname(os.path.abspath(__file__))
CRATES = os.path.join(HERE, "..", "crates")
STEPS = os.path.join(CRATES, "sdb_steps_main", "out", "sdb_steps_main")
BENCH = os.path.join(CRATES, "sdb_bench", "out", "sdb_bench")
TYPE = "http://sharejs.org/types/JSONv0"
DOCUMENTS = 64


def steps(entries):
    for at in range(entries):
        edit = [{"p": ["text", 4], "si": "er"}] if at % 5 == 4 else [{"p": ["n"], "na": 1}]
        data = {"n": 0, "text": "The quick brown fox jumps over the lazy dog."}
        content = {"op": edit} if at >= DOCUMENTS else {"create": {"type": TYPE, "data": data}}
        yield {"s": 0, "do": "begin", "c": "board", "d": str(at % DOCUMENTS), "src": "w", "seq": at, **content}
        yield {"s": 0, "do": "commit", "ms": at}


# Returns lines of texts that grow: `edits` edits in each of `documents` documents.
def growing(documents, edits):
    for key in range(documents):
        for seq in range(1, edits + 2):
            edit = {"op": [{"p": ["t", 0], "si": "x" * 100}]}
            content = edit if seq > 1 else {"create": {"type": TYPE, "data": {"t": ""}}}
            yield {"s": 0, "do": "begin", "c": "board", "d": f"{key:06}", "src": "w", "seq": seq, **content}
            yield {"s": 0, "do": "commit"}


def write_steps(path, lines):
    with open(path, "w", encoding="ascii") as file:
        file.writelines(json.dumps(step, separators=(",", ":")) + "\n" for step in lines)


def run(command, path, out):
    """Returns the processor seconds, and the maximum memory in kilobytes."""
    with open(path, "rb") as lines, open(out, "wb") as written:
        process = subprocess.Popen(command, stdin=lines, stdout=written)
        _, status, usage = os.wait4(process.pid, 0)
    if status:
        sys.exit(f"{command} ended with {status}")
    return usage.ru_utime + usage.ru_stime, usage.ru_maxrss


def main(entries):
    with tempfile.TemporaryDirectory() as folder:
        lines, dump, out = (os.path.join(folder, name) for name in ("steps", "dump", "out"))
        write_steps(lines, steps(entries))
        answered, _ = run([STEPS], lines, out)
        dumped, _ = run([STEPS, "--dump"], lines, dump)
        checked, held = run([STEPS, "--check"], dump, out)
        print(open(out, encoding="ascii").read().strip())
        passed, _ = run([BENCH, "json"], dump, out)
        size = os.path.getsize(dump)
    print(f"{entries} entries, {size} bytes: JSON pass {passed:.2f} s")
    print(f"steps answered {answered:.2f} s; with a dump at the end, and no answers, {dumped:.2f} s")
    each = held * 1_024 / entries
    print(f"the dump checked {checked:.2f} s, {checked / passed:.1f} times the pass, {each:.0f} bytes for each entry")
    for documents, edits in ((1, 100_000), (1_000, 100)):
        print_memory(documents, edits)


def print_memory(documents, edits):
    with tempfile.TemporaryDirectory() as folder:
        lines, dump, out = (os.path.join(folder, name) for name in ("steps", "dump", "out"))
        write_steps(lines, growing(documents, edits))
        stored = run([STEPS, "--dump"], lines, dump)[1]
        checked = run([STEPS, "--check"], dump, out)[1]
        print(f"{documents} documents of {edits} edits: the steps held {stored // 1_024} MB, the check {checked // 1_024} MB")


if __name__ == "__main__":
    main(int(sys.argv[1]) if len(sys.argv) > 1 else 100_000)
