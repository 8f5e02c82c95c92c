"""Fails each allocation of the calls of a table in turn, and checks the result: python3 tests/failed_allocations.py

It uses what `rt ci` or `rt test` and `rt run` have built: runs of the two programs, and the tests of the modules
failed_allocations of sdb_model_tests and sdb_service_tests. A line for each call says how many allocations failed, how many of
them inside the call, and how many runs went wrong. The status is 1 if one did, or if no allocation is inside a call.

A run of a program is inside its call from end to end. If an allocation of a request or a step fails, it is answered E10 and
the others as if it had not been sent, and the status is 0; so a failed commit counts as no try. If a line can't be held or its
answer not written, the output is a prefix of the whole answer, then `fault: memory`, and the status is 1. A failed allocation
that the run doesn't need changes nothing. Before the opening text a failure ends the program with an error.

A test makes its call between two marks (tests/fail_nth.c), and again after an allocation failure. It passes if the first answer
was an allocation failure, all was as before, and the second answer is right. Outside of the marks it may also end with an
allocation failure of the code around the call."""
import os
import struct
import subprocess
import sys
import tempfile

HERE = os.path.dirname(os.path.abspath(__file__))
CRATES = os.path.join(HERE, "..", "crates")
SERVER = [os.path.join(CRATES, "sdb_server_main", "out", "sdb_server_main"), "--lines", "--projection", "titles=boards:title"]
STEPS = [os.path.join(CRATES, "sdb_steps_main", "out", "sdb_steps_main")]
TESTS = [os.path.join(CRATES, crate, "out", f"{crate}_tests") for crate in ("sdb_model_tests", "sdb_service_tests")]
FAULT = b"fault: memory\n"
OUT_OF_MEMORY = (b"ERR_OUT_OF_MEMORY", b'{"error":"E10"}')
# how a test ends if an allocation around its call fails
AROUND = ("out of memory", "OutOfMemory", "AllocError", "AllocFailed")


def lines_of(kind, count):
    command = [sys.executable, os.path.join(HERE, "..", "bench", "generate.py"), kind, str(count)]
    return subprocess.run(command, stdout=subprocess.PIPE, check=True).stdout


STORED = b"""{"a":"op","c":"b","d":"1","v":null,"src":"x","seq":1,"create":\
{"type":"http://sharejs.org/types/JSONv0","data":{"n":1}}}
{"a":"f","c":"b","d":"1"}
"""

# A session that sets its source, subscribes, receives operations, also through a projection, subscribes anew and unsubscribes.
SESSION = b"""{"a":"hs","id":"me"}
{"a":"op","c":"boards","d":"1","src":"x","seq":1,"create":{"type":"json0","data":{"title":"a","votes":0}}}
{"a":"s","c":"boards","d":"1","v":0}
{"a":"s","c":"titles","d":"1"}
{"a":"op","c":"boards","d":"1","v":1,"src":"x","seq":2,"op":[{"p":["votes"],"na":1}]}
{"a":"op","c":"titles","d":"1","v":2,"src":"x","seq":3,"op":[{"p":["title",0],"si":"b"}]}
{"a":"s","c":"boards","d":"1","v":2}
{"a":"f","c":"titles","d":"1"}
{"a":"f","c":"titles","d":"1","v":0}
{"a":"nf","c":"titles","d":"1","id":1,"v":2}
{"a":"u","c":"titles","d":"1"}
{"a":"op","c":"boards","d":"1","v":3,"src":"x","seq":4,"op":[{"p":["votes"],"na":1}]}
"""

# Two sessions race for a document, one subscribes twice, and each kind of step stands once.
INTERLEAVED = b"""{"s":0,"do":"begin","c":"b","d":"1","src":"w","seq":1,"create":{"type":"json0","data":{"n":0}}}
{"s":0,"do":"commit"}
{"s":3,"do":"subscribe","c":"b","d":"1","v":0}
{"s":1,"do":"begin","c":"b","d":"1","src":"x","seq":1,"v":1,"op":[{"p":["n"],"na":10}]}
{"s":2,"do":"begin","c":"b","d":"1","src":"y","seq":1,"v":1,"op":[{"p":["n"],"na":5}]}
{"s":1,"do":"work"}
{"s":2,"do":"commit"}
{"s":1,"do":"commit"}
{"s":1,"do":"commit"}
{"s":3,"do":"take","c":"b","d":"1","max":2}
{"s":3,"do":"subscribe","c":"b","d":"1"}
{"s":4,"do":"subscribe","c":"b","d":"1","v":9}
{"s":0,"do":"snapshot","c":"b","d":"1","v":2}
{"s":0,"do":"forget","c":"b","d":"1"}
{"s":3,"do":"unsubscribe","c":"b","d":"1"}
{"s":0,"do":"fetch","c":"b","d":"1"}
{"s":0,"do":"fetch","c":"b"}
"""


# An edit that finds a longer log at each of its nine commits.
def ninth():
    lines = [
        '{"s":0,"do":"begin","c":"b","d":"1","src":"w","seq":1,"create":{"type":"json0","data":{"n":0}}}',
        '{"s":0,"do":"commit"}',
        '{"s":1,"do":"begin","c":"b","d":"1","src":"x","seq":1,"v":1,"op":[{"p":["n"],"na":100}]}',
    ]
    for seq in range(1, 10):
        lines.append(f'{{"s":2,"do":"begin","c":"b","d":"1","src":"y","seq":{seq},"op":[{{"p":["n"],"na":1}}]}}')
        lines += ['{"s":2,"do":"commit"}', '{"s":1,"do":"commit"}']
    lines.append('{"s":0,"do":"fetch","c":"b","d":"1"}')
    return "".join(line + "\n" for line in lines).encode()


class FailingRuns:
    """Runs of programs with one failed allocation."""

    def __init__(self, folder):
        self.library, self.counted = os.path.join(folder, "fail_nth.so"), os.path.join(folder, "counts")
        made = ["cc", "-shared", "-fPIC", "-O1", "-o", self.library, os.path.join(HERE, "fail_nth.c"), "-ldl"]
        subprocess.run(made, check=True)

    def run(self, program, given=b"", nth=0):
        env = dict(os.environ, LD_PRELOAD=self.library, FAIL_NTH=str(nth), FAIL_COUNT=self.counted)
        return subprocess.run(program, input=given, stdout=subprocess.PIPE, stderr=subprocess.PIPE, env=env, timeout=60)

    def counts(self):
        """Returns the allocations of the last run, those inside its call, and how many of these failed."""
        with open(self.counted, "rb") as file:
            return struct.unpack("3Q", file.read(24))


def is_right(ended, whole, without_one, refused):
    status, written = ended.returncode, ended.stdout
    if status == 0:
        lines = written.splitlines(keepends=True)
        others = [line for line in lines if not any(code in line for code in OUT_OF_MEMORY)]
        return written == whole or (refused == len(lines) - len(others) > 0 and b"".join(others) in without_one)
    prefix = written[: -len(FAULT)] if written.endswith(FAULT) else written
    is_ended = written.endswith(FAULT) or written == b""
    return status == 1 and is_ended and whole.startswith(prefix) and prefix[-1:] in (b"", b"\n")


def report(name, count, inside, wrong):
    print(f"{name}: {count} allocations failed in turn, {inside} of them inside the call, ", end="")
    print(f"{len(wrong)} went wrong {wrong[:10] or ''}", flush=True)
    return not wrong and inside > 0


def program_is_right(failing_runs, name, program, given, refusal_answers=1):
    whole = failing_runs.run(program, given)
    assert whole.returncode == 0, name
    count = failing_runs.counts()[0]
    lines = given.splitlines(keepends=True)
    # the answers to the input without one of its lines, for each line
    without_one = {failing_runs.run(program, b"".join(lines[:at] + lines[at + 1 :])).stdout for at in range(len(lines))}
    runs = ((nth, failing_runs.run(program, given, nth)) for nth in range(1, count + 1))
    wrong = [nth for nth, run in runs if not is_right(run, whole.stdout, without_one, refusal_answers)]
    return report(name, count, count, wrong)


def test_is_right(failing_runs, program, test):
    assert failing_runs.run([program, test]).returncode == 0, test
    count, inside, _ = failing_runs.counts()
    wrong = [nth for nth in range(1, count + 1) if not test_ends_well(failing_runs, program, test, nth)]
    return report(test, count, inside, wrong)


def test_ends_well(failing_runs, program, test, nth):
    ended = failing_runs.run([program, test], nth=nth)
    output, is_inside = ended.stderr.decode(), failing_runs.counts()[2] > 0
    return ended.returncode == 0 or (not is_inside and "assertion" not in output and any(word in output for word in AROUND))


def tests_of(program):
    listed = subprocess.run([program, "--list"], stdout=subprocess.PIPE, text=True, check=True).stdout
    return [line.split(": test")[0] for line in listed.splitlines() if line.startswith("failed_allocations::")]


def dump_of(steps):
    return subprocess.run([*STEPS, "--dump"], input=steps, stdout=subprocess.PIPE, check=True).stdout


def main():
    runs = [
        ("run_lines, a create and a fetch", SERVER, STORED),
        ("run_lines, 40 lines on new documents", SERVER, lines_of("lines", 40)),
        ("run_lines, 40 inserts into one text", SERVER, lines_of("trace", 40)),
        ("run_lines, a session", SERVER, SESSION),
        ("run_steps, interleaved steps", STEPS, INTERLEAVED),
        ("run_steps, nine commits of one edit", STEPS, ninth()),
        # a run that writes a dump ends at the first allocation failure
        ("run_dump, interleaved steps", [*STEPS, "--dump"], INTERLEAVED, 0),
        ("check_dump, their dump", [*STEPS, "--check"], dump_of(INTERLEAVED)),
    ]
    with tempfile.TemporaryDirectory() as folder:
        failing_runs = FailingRuns(folder)
        right = [program_is_right(failing_runs, *each) for each in runs]
        right += [test_is_right(failing_runs, program, test) for program in TESTS for test in tests_of(program)]
    return 0 if all(right) else 1


if __name__ == "__main__":
    sys.exit(main())
