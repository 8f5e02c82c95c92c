"""The program with --store and --lines, --check, --dump or --load, and a disk that stops at each of its calls."""
import json
import os
import pathlib
import subprocess

import pytest

from support.disks import library_of
from support.server import END

TYPE = "http://sharejs.org/types/JSONv0"
STOPPED = 75  # the status of a program whose disk has stopped
DISK = pathlib.Path(__file__).with_name("stopping_disk.c")
# name, number of operations, and how many lines are written at once: one group of the store has their operations
RUNS = [("groups", 40, 8), ("single operations", 100, 1)]


def line(message):
    return json.dumps(message, separators=(",", ":")) + "\n"


def submission(number, **content):
    return {"a": "op", "c": "b", "d": "1", "v": number, "seq": number + 1, "src": "x", **content}


def create():
    return submission(0, create={"type": TYPE, "data": {"n": 0}})


def add(number):
    return submission(number, op=[{"p": ["n"], "na": 1}])


def ended(program, *options, text=""):
    """Returns the status of a program, and what it has written."""
    run = subprocess.run([program, *options], input=text, capture_output=True, text=True, timeout=END, check=False)
    return run.returncode, run.stdout, run.stderr


def logs_of(program, file):
    """Returns the source and the number of each operation of a file, by document. An empty file has none."""
    status, dump, errors = ended(program, "--store", str(file), "--dump")
    if errors == f"store: {file}: the file is empty\n":
        return {}
    assert status == 0, errors
    logs = {}
    for text in dump.splitlines()[1:-1]:
        entry = json.loads(text)
        logs.setdefault(entry["d"], []).append((entry["src"], entry["seq"]))
    return logs


def test_a_session_of_lines_is_continued(program, tmp_path):
    file = str(tmp_path / "store")
    sources = []
    for number in range(3):
        status, answers, errors = ended(program, "--lines", "--store", file, text=line(create()) + line(add(number + 1)))
        answers = [json.loads(answer) for answer in answers.splitlines()]
        assert (status, errors) == (0, "")
        sources.append(int(answers[0]["id"][1:]))
        assert [answer["v"] for answer in answers[1:]] == [0, number + 1]
    assert sources == sorted(set(sources)) and sources[0] == 1
    assert logs_of(program, file) == {"1": [("x", seq) for seq in range(1, 5)]}


def test_a_dump_is_loaded(program, tmp_path):
    first, second = str(tmp_path / "first"), str(tmp_path / "second")
    ended(program, "--lines", "--store", first, text=line(create()) + line(add(1)))
    dump = ended(program, "--store", first, "--dump")
    assert dump[0] == 0 and dump[2] == "ended: 1 documents, 2 operations\n"
    accepted = (0, "accepted 1 documents, 2 entries\n", "")
    assert ended(program, "--store", first, "--check") == accepted
    assert ended(program, "--store", second, "--load", text=dump[1]) == accepted
    assert ended(program, "--store", second, "--dump") == dump
    assert ended(program, "--store", second, "--load", text=dump[1]) == (1, "", "store: --load needs a new file\n")
    # (the sources of the loaded entries aren't given again)
    opening = ended(program, "--lines", "--store", second)[1]
    assert json.loads(opening)["id"] == "s2"


@pytest.mark.parametrize("cut, wrong", [(0, 1), (1, 2), (3, 4), (-1, 4)])
def test_a_wrong_dump_creates_no_file(program, tmp_path, cut, wrong):
    first, second = str(tmp_path / "first"), tmp_path / "second"
    ended(program, "--lines", "--store", first, text=line(create()) + line(add(1)))
    lines = ended(program, "--store", first, "--dump")[1].splitlines(keepends=True)
    text = "".join(lines[:cut]) if cut >= 0 else "".join(lines).replace('"entries":2', '"entries":3')
    assert ended(program, "--store", str(second), "--load", text=text) == (1, "", f"load: wrong at line {wrong}\n")
    assert not second.exists()


def test_a_dump_has_no_block_of_numbers(program, tmp_path):
    dump = '{"dump":2}\n{"given":7}\n{"entries":0}\n'
    assert ended(program, "--store", str(tmp_path / "store"), "--load", text=dump) == (1, "", "load: wrong at line 2\n")
    assert not list(tmp_path.iterdir())


@pytest.mark.parametrize("task", ["--check", "--dump"])
def test_a_missing_file_is_not_created(program, tmp_path, task):
    assert ended(program, "--store", str(tmp_path / "store"), task) == (1, "", f"store: {tmp_path}/store: no such file\n")
    assert not list(tmp_path.iterdir())


@pytest.mark.parametrize(
    "options",
    [
        ["--check"],
        ["--load"],
        ["--dump"],
        ["--recover", "y"],
        ["--backup", "y"],
        ["--store", "x", "--recover", "y", "--backup", "z"],
        ["--store", "x", "--check", "--recover", "y"],
        ["--store", "x", "--lines", "--recover", "y"],
        ["--store", "x", "--check", "--dump"],
        ["--store", "x", "--check", "--load"],
        ["--store", "x", "--dump", "--lines"],
        ["--store", "x", "--listen", "127.0.0.1:0", "--until-eof", "--dump"],
        ["--store", "x"],
    ],
)
def test_refused_command_lines(program, tmp_path, options):
    status, written, errors = ended(program, *options)
    assert (status, written) == (2, "") and errors.startswith("error: ")


# A disk that stops ----------------------------------------------------------------------------------------


@pytest.fixture(scope="module")
def disk(tmp_path_factory):
    return library_of(DISK, tmp_path_factory.mktemp("disk"))


def acknowledged(program, disk, file, groups, stop_at, seed):
    """Sends groups of lines, each after the answers to the one before, over a disk that stops at one of its calls. Returns the
    versions of the acknowledged operations by number, and the status."""
    settings = {"LD_PRELOAD": disk, "STOP_AT": str(stop_at), "SEED": str(seed), "STOP_COUNT": f"{file}.calls"}
    pipes = {"stdin": subprocess.PIPE, "stdout": subprocess.PIPE, "stderr": subprocess.DEVNULL}
    command = [program, "--lines", "--store", str(file)]
    process = subprocess.Popen(command, env=os.environ | settings, text=True, **pipes)
    versions = {}
    try:
        process.stdout.readline()
        for group in groups:
            process.stdin.write("".join(line(message) for message in group))
            process.stdin.flush()
            for _ in group:
                answer = json.loads(process.stdout.readline())
                versions[answer["seq"]] = answer["v"]
        process.stdin.close()
    except (BrokenPipeError, ValueError):
        pass
    finally:
        process.stdout.close()
        status = process.wait(timeout=END)
    return versions, status


def messages(operations):
    """Returns submissions, some of which are sent twice."""
    sent = [create(), *(add(number) for number in range(1, operations))]
    return [message for k, message in enumerate(sent) for _ in range(1 + (k % 7 == 3))]


@pytest.mark.slow
@pytest.mark.parametrize("name, operations, size", RUNS)
def test_a_disk_that_stops_at_each_call(program, disk, tmp_path, seed, name, operations, size):
    sent = messages(operations)
    groups = [sent[k : k + size] for k in range(0, len(sent), size)]
    whole = [("x", number + 1) for number in range(operations)]
    file = tmp_path / "whole"
    versions, status = acknowledged(program, disk, file, groups, 0, seed)
    assert status == 0 and logs_of(program, file) == {"1": whole} and len(versions) == operations
    calls = int(pathlib.Path(f"{file}.calls").read_text())
    assert calls > 3 * len(groups)
    for stop_at in range(1, calls + 1):
        file = tmp_path / f"stopped{stop_at}"
        versions, status = acknowledged(program, disk, file, groups, stop_at, f"{seed}{stop_at}")
        assert status == STOPPED
        log = logs_of(program, file).get("1", []) if file.exists() else []
        assert log == whole[: len(log)] and len(log) >= len(versions)
        assert all(version == number - 1 for number, version in versions.items())
        # the submissions are sent again, and each is stored once
        again, status = acknowledged(program, disk, file, groups, 0, seed)
        assert status == 0 and all(again[number] == number - 1 for number in again)
        assert logs_of(program, file) == {"1": whole}
    print(f"{name}: {calls} calls of the disk")
