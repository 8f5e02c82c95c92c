"""Measures the program of steps: 100,000 lines of 64 sessions on one document and on 64, next to a pass that only reads and
prints the JSON of the same lines. steps.py [RUNS] builds the programs and runs each RUNS times.
steps.py --lines DOCUMENTS unnamed|named only writes the lines: an edit has no version, or the one that its session saw.

In a random order, with a fixed seed, each session begins an edit, works it or not, and commits until that decides. Four edits
of five add to one number, the fifth inserts into one text. A tenth of the lines fetch the document, and a tenth take from a
queue that the session opened at the start."""
import json
import os
import random
import resource
import subprocess
import sys
import tempfile
import time

HERE = os.path.dirname(os.path.abspath(__file__))
CRATES = os.path.join(HERE, "..", "crates")
TYPE = "http://sharejs.org/types/JSONv0"
SESSIONS = 64
LINES = 100_000
LAST_TRY = 8


class Attempt:
    def __init__(self, version, tries):
        self.version, self.tries, self.worked = version, tries, False


class Sessions:
    """Chooses the next steps of the sessions. It tracks which commits decide, so that no line is idle."""

    def __init__(self, documents, is_named):
        self.pick = random.Random(5)
        self.is_named = is_named
        self.versions = [0] * documents
        self.edits = [0] * SESSIONS
        self.attempts = [None] * SESSIONS

    def step(self, session, what, **more):
        return {"s": session, "do": what, "c": "board", "d": str(session % len(self.versions)), **more}

    def opening(self):
        for document in range(len(self.versions)):
            data = {"n": 0, "text": "The quick brown fox jumps over the lazy dog."}
            yield self.step(document, "begin", src="maker", seq=document, create={"type": TYPE, "data": data})
            yield {"s": document, "do": "commit"}
            self.versions[document] = 1
        for session in range(SESSIONS):
            yield self.step(session, "subscribe")

    def next(self):
        session, chance = self.pick.randrange(SESSIONS), self.pick.random()
        if chance < 0.1:
            return self.step(session, "fetch")
        if chance < 0.2:
            return self.step(session, "take", max=64)
        attempt = self.attempts[session]
        if attempt is None:
            return self.begin(session)
        if not attempt.worked and chance < 0.6:
            attempt.worked = True
            return {"s": session, "do": "work"}
        return self.commit(session, attempt)

    def begin(self, session):
        version = self.versions[session % len(self.versions)]
        self.attempts[session] = Attempt(version, 0)
        self.edits[session] += 1
        act = {"p": ["n"], "na": 1}
        if self.edits[session] % 5 == 0:
            act = {"p": ["text", self.pick.randrange(40)], "si": self.pick.choice("abcdefgh ")}
        named = {"v": version} if self.is_named else {}
        return self.step(session, "begin", src=f"user{session}", seq=self.edits[session], **named, op=[act])

    def commit(self, session, attempt):
        document = session % len(self.versions)
        if attempt.version == self.versions[document] or attempt.tries == LAST_TRY:
            self.versions[document] += 1
            self.attempts[session] = None
        else:
            self.attempts[session] = Attempt(self.versions[document], attempt.tries + 1)
        return {"s": session, "do": "commit"}


def write_lines(documents, is_named, out):
    sessions = Sessions(documents, is_named)
    lines = list(sessions.opening())
    lines += [sessions.next() for _ in range(LINES - len(lines))]
    out.writelines(json.dumps(line, separators=(",", ":")) + "\n" for line in lines)


def build(crate, *words):
    folder = os.path.join(CRATES, crate)
    with open(os.path.join(folder, "stdin"), "rb") as source:
        pipes = {"stdin": source, "stdout": subprocess.PIPE, "stderr": subprocess.STDOUT}
        built = subprocess.run(["rt", "run", "--", *words], cwd=folder, text=True, **pipes)
    if built.returncode != 0:
        sys.exit(f"{built.stdout}{crate} was not built")
    return os.path.join(folder, "out", crate)


def timed(command, path):
    """Returns the elapsed seconds of a run, and its processor seconds."""
    with open(path, "rb") as source, open(os.devnull, "wb") as sink:
        before, start = resource.getrusage(resource.RUSAGE_CHILDREN), time.perf_counter()
        subprocess.run(command, stdin=source, stdout=sink, check=True)
        clock, after = time.perf_counter() - start, resource.getrusage(resource.RUSAGE_CHILDREN)
    return clock, after.ru_utime + after.ru_stime - before.ru_utime - before.ru_stime


def compare(title, plain, program, lines, runs):
    with tempfile.NamedTemporaryFile("w", suffix=".lines") as made:
        write_lines(*lines, made)
        made.flush()
        size = os.path.getsize(made.name)
        taken = [(timed(plain, made.name), timed(program, made.name)) for _ in range(runs)]
    print(f"{title}: {LINES} steps of {SESSIONS} sessions, {size / 1e6:.1f} MB, the best of {runs} runs")
    best = [[min(each) for each in zip(*runs_of_one)] for runs_of_one in zip(*taken)]
    for name, (clock, processor) in zip(("JSON read and printed:", "steps:"), best):
        print(f"  {name:22} {clock:.3f} s, {LINES / clock:,.0f} steps/s, {processor:.3f} processor seconds")
    print(f"  {'ratio:':22} {best[1][1] / best[0][1]:.2f}", flush=True)


def main(words):
    if words[:1] == ["--lines"]:
        return write_lines(int(words[1]), words[2] == "named", sys.stdout)
    runs = int(words[0]) if words else 7
    plain, program = [build("sdb_bench", "json"), "json"], [build("sdb_steps_main")]
    compare("one document, no edit names a version", plain, program, (1, False), runs)
    compare("64 documents, no edit names a version", plain, program, (64, False), runs)
    compare("64 documents, each edit names one", plain, program, (64, True), runs)
    compare("one document, each edit names one", plain, program, (1, True), runs)


if __name__ == "__main__":
    main(sys.argv[1:])
