"""The program with a store whose files are damaged or missing: what it refuses, and what it recovers."""
import os
import pathlib
import random
import shutil
import sqlite3
import struct
import subprocess
import tempfile

import pytest

from support.server import END, Server

TYPE = "http://sharejs.org/types/JSONv0"
OPERATIONS = 40  # before the kill, each in a group of its own
FRAME = 24 + 4096
COUNT_PAGE = 0xFF00_0000  # of the first frame of a group
NOBODY = 65534  # a user without files
TASKS = [["--check"], ["--dump"], ["--listen", "127.0.0.1:0"], ["--lines"]]  # that read the file
START = ["--listen", "127.0.0.1:0"]
MISSING = "the file is missing or empty, but its log isn't empty"
HEADER = "the header of the log is damaged"
MIDDLE = "the log is damaged before its last group"
NO_LOG = "the log is missing, and the file wasn't closed"


def submission(number, **content):
    return {"a": "op", "c": "b", "d": "1", "v": number, "seq": number + 1, "src": "x", **content}


@pytest.fixture(name="killed", scope="module")
def killed_fixture(program, tmp_path_factory):
    """Returns the file of a server that was killed, so that its operations are in the log."""
    file = tmp_path_factory.mktemp("killed") / "store"
    with Server(program, "--store", str(file)) as server, server.enter() as connection:
        connection.ask(submission(0, create={"type": TYPE, "data": {"n": 0}}))
        for number in range(1, OPERATIONS):
            assert connection.ask(submission(number, op=[{"p": ["n"], "na": 1}]))["v"] == number
    assert len(log_of(file).read_bytes()) > 2 * OPERATIONS * FRAME
    return file


def log_of(file):
    return file.with_name(file.name + "-wal")


def copied(file, folder):
    """Returns a copy of a file and its log."""
    for found in (file, log_of(file)):
        shutil.copy(found, folder / found.name)
    return folder / file.name


def contents(folder):
    """Returns the files of a folder, by name."""
    return {found.name: found.read_bytes() for found in folder.iterdir()}


def change(file, at, value=None):
    """Changes a byte of a file: to a value, or its lowest bit."""
    data = bytearray(file.read_bytes())
    data[at] = data[at] ^ 1 if value is None else value
    file.write_bytes(data)


def ended(program, file, options, **how):
    """Returns the status of a program with a store, and what it has written."""
    command = [program, "--store", str(file), *options]
    run = subprocess.run(command, input="", capture_output=True, text=True, timeout=END, check=False, **how)
    return run.returncode, run.stdout, run.stderr


def frames(data):
    """Returns the offset, the page number and the commit size of each frame of a log."""
    return [(at, *struct.unpack_from(">II", data, at)) for at in range(32, len(data) - FRAME + 1, FRAME)]


def end_of(data):
    """Returns the offset after the last group of a log."""
    found = frames(data)
    last = max(k for k, (_, page, _) in enumerate(found) if page == COUNT_PAGE)
    return next(at for at, _, size in found[last:] if size) + FRAME


def checksum(start, data):
    """Returns SQLite's checksum after words of which the lowest byte is the first."""
    first, second = start
    words = struct.unpack(f"<{len(data) // 4}I", data)
    for x, y in zip(words[::2], words[1::2]):
        first = (first + x + second) % 2**32
        second = (second + y + first) % 2**32
    return first, second


def with_uncommitted(data, count, group):
    """Returns a log with the frames of a transaction that isn't committed, of which each `group`th states a commit."""
    end = end_of(data)
    data, salt = data[:end], data[16:24]
    before = struct.unpack_from(">II", data, end - FRAME + 16)
    for number in range(count):
        front, page = struct.pack(">II", 2 + number, 500 * (number % group == group - 1)), bytes([number]) * 4096
        before = checksum(checksum(before, front), page)
        # (the first byte of the first salt is written by the commit)
        data += front + (bytes(1) + salt[1:] if number == 0 else salt) + struct.pack(">II", *before) + page
    return data


def is_refused(program, file, options, cause):
    """Checks that the program ends with one line, and writes and creates nothing."""
    before = contents(file.parent)
    assert ended(program, file, options) == (1, "", f"store: {file}: {cause}\n")
    assert contents(file.parent) == before


def accepted(count):
    return 0, f"accepted 1 documents, {count} entries\n", ""


# Refused --------------------------------------------------------------------------------------------------


@pytest.mark.parametrize("task", TASKS)
@pytest.mark.parametrize("at", [0, 1, 3, 5, 10, 13, 20, 30])
def test_a_changed_header_of_the_log(program, killed, tmp_path, task, at):
    file = copied(killed, tmp_path)
    change(log_of(file), at)
    is_refused(program, file, task, HEADER)


@pytest.mark.parametrize("task", TASKS)
@pytest.mark.parametrize("place", ["gate", "header", "page"])
def test_a_changed_byte_in_the_middle_of_the_log(program, killed, tmp_path, task, place):
    file = copied(killed, tmp_path)
    change(log_of(file), 32 + 20 * FRAME + {"gate": 8, "header": 2, "page": 1000}[place])
    is_refused(program, file, task, MIDDLE)


def test_a_lost_block_in_the_middle_of_the_log(program, killed, tmp_path):
    file = copied(killed, tmp_path)
    data = bytearray(log_of(file).read_bytes())
    data[0x14000:0x15000] = bytes(0x1000)
    log_of(file).write_bytes(data)
    is_refused(program, file, START, MIDDLE)


@pytest.mark.parametrize("task", TASKS)
@pytest.mark.parametrize("is_empty", [False, True])
def test_a_log_without_its_file(program, killed, tmp_path, task, is_empty):
    file = copied(killed, tmp_path)
    file.unlink()
    if is_empty:
        file.touch()
    is_refused(program, file, task, MISSING)


@pytest.mark.parametrize("task", TASKS)
@pytest.mark.parametrize("is_empty", [False, True])
def test_a_file_without_its_log(program, killed, tmp_path, task, is_empty):
    file = copied(killed, tmp_path)
    log_of(file).unlink()
    if is_empty:
        log_of(file).touch()
    is_refused(program, file, task, NO_LOG)


def test_a_file_whose_log_stock_sqlite_has_removed(program, killed, tmp_path):
    """It copies the log into the file, which keeps the mark of a file that wasn't closed."""
    file = copied(killed, tmp_path)
    connection = sqlite3.connect(file)
    assert connection.execute("SELECT line FROM sdb_line WHERE number = 0").fetchone() == (b"open",)
    connection.close()
    assert not log_of(file).exists()
    is_refused(program, file, START, NO_LOG)
    assert recovered(program, file) == OPERATIONS


def test_a_load_beside_a_log(program, killed, tmp_path):
    file = copied(killed, tmp_path)
    dump = ended(program, file, ["--dump"])[1]
    file.unlink()
    before = contents(tmp_path)
    run = subprocess.run([program, "--store", file, "--load"], input=dump, capture_output=True, text=True, check=False)
    assert (run.returncode, run.stderr) == (1, f"store: {file}: {MISSING}\n") and contents(tmp_path) == before


def test_a_zeroed_log(program, killed, tmp_path):
    file = copied(killed, tmp_path)
    log_of(file).write_bytes(bytes(len(log_of(file).read_bytes())))
    is_refused(program, file, START, HEADER)


@pytest.mark.parametrize("task", ["--check", "--dump"])
def test_files_that_are_no_store(program, tmp_path, task):
    for name, text, cause in [("empty", "", "the file is empty"), ("text", "text", "the file is damaged or no database")]:
        (tmp_path / name).write_text(text)
        is_refused(program, tmp_path / name, [task], cause)
    is_refused(program, tmp_path / "missing", [task], "no such file")
    assert ended(program, tmp_path / "folder" / "store", [task]) == (1, "", f"store: {tmp_path}/folder/store: no such file\n")
    assert ended(program, tmp_path, [task]) == (1, "", f"store: {tmp_path}: is a directory\n")
    os.mkfifo(tmp_path / "pipe")
    assert ended(program, tmp_path / "pipe", [task]) == (1, "", f"store: {tmp_path / 'pipe'}: not a regular file\n")


@pytest.mark.parametrize("task", [["--check"], ["--dump"], START])
def test_a_file_in_use(program, tmp_path, task):
    file = tmp_path / "store"
    with Server(program, "--store", str(file)) as server, server.enter() as connection:
        connection.ask(submission(0, create={"type": TYPE, "data": {"n": 0}}))
        is_refused(program, file, task, "another process has the file open")
        # (a file that was moved is still in use)
        file.rename(tmp_path / "moved")
        is_refused(program, file, task, "another process has the file open")


# Not refused ----------------------------------------------------------------------------------------------


def test_a_closed_file_without_its_log(program, killed, tmp_path):
    """A graceful end leaves all operations in the file, also one after a kill."""
    file = copied(killed, tmp_path)
    assert ended(program, file, ["--lines"])[0] == 0
    log_of(file).unlink()
    assert ended(program, file, ["--check"]) == accepted(OPERATIONS)
    assert ended(program, file, ["--lines"])[0] == 0
    assert ended(program, file, ["--check"]) == accepted(OPERATIONS)


def test_a_check_leaves_the_files(program, killed, tmp_path):
    file = copied(killed, tmp_path)
    before = contents(tmp_path)
    assert ended(program, file, ["--check"]) == accepted(OPERATIONS)
    assert ended(program, file, ["--dump"])[0] == 0
    assert contents(tmp_path) == before


def test_a_read_only_copy_is_checked(program, killed):
    with tempfile.TemporaryDirectory() as folder:
        file = copied(killed, pathlib.Path(folder))
        for found in (file, log_of(file)):
            found.chmod(0o444)
        os.chmod(folder, 0o555)
        # (root may write each file)
        other = {"user": NOBODY} if os.geteuid() == 0 else {}
        try:
            assert ended(program, file, ["--check"], **other) == accepted(OPERATIONS)
            assert ended(program, file, START, **other) == (1, "", f"store: {file}: permission denied\n")
            if other:
                missing = file.with_name("missing")
                assert ended(program, missing, START, **other) == (1, "", f"store: {missing}: permission denied\n")
                assert not missing.exists()
        except PermissionError:
            pytest.skip("another user can't start the program")


def test_a_torn_last_group(program, killed, tmp_path, seed):
    """Each set of the sectors of the last group may be lost, since the group was not acknowledged then."""
    chance = random.Random(seed)
    data = log_of(killed).read_bytes()
    last = [at for at, page, _ in frames(data) if page == COUNT_PAGE][-1]
    end = end_of(data)
    for number in range(12):
        folder = tmp_path / str(number)
        folder.mkdir()
        file = copied(killed, folder)
        torn = bytearray(data)
        for sector in range(last // 512, end // 512 + 1):
            if chance.random() < 0.5:
                start = max(last, sector * 512)
                torn[start : (sector + 1) * 512] = bytes((sector + 1) * 512 - start)
        log_of(file).write_bytes(torn)
        assert ended(program, file, ["--check"]) in (accepted(OPERATIONS), accepted(OPERATIONS - 1))


@pytest.mark.parametrize("group", [1, 3, 7])
def test_frames_of_a_transaction_that_is_not_committed(program, killed, tmp_path, group):
    """A kill while a large transaction is written leaves sound frames, several of which state a commit."""
    file = copied(killed, tmp_path)
    log_of(file).write_bytes(with_uncommitted(log_of(killed).read_bytes(), 20, group))
    assert ended(program, file, ["--check"]) == accepted(OPERATIONS)


def test_a_log_that_is_being_emptied(program, killed, tmp_path):
    """A power cut during a checkpoint leaves the first byte 0, and each other byte of the header old or new."""
    file = copied(killed, tmp_path)
    log = log_of(file)
    head = log.read_bytes()[:32]
    assert ended(program, file, ["--lines"])[0] == 0
    assert len(log.read_bytes()) == 41
    new, old = log.read_bytes(), log_of(killed).read_bytes()
    for number in range(8):
        chance = random.Random(number)
        mixed = bytes(chance.choice(pair) for pair in zip(head[1:32], new[1:32]))
        log.write_bytes(b"\0" + mixed + old[32:])
        assert ended(program, file, ["--check"]) == accepted(OPERATIONS)


# Recovered ------------------------------------------------------------------------------------------------


def recovered(program, file):
    """Recovers a store, whose files stay, and returns the numbers of entries that are said and found."""
    before = contents(file.parent)
    new = file.parent.with_name(file.parent.name + "-new")
    status, written, errors = ended(program, file, ["--recover", str(new)])
    assert (status, errors) == (0, "") and contents(file.parent) == before
    count = int(written.removeprefix("recovered 1 documents, ").removesuffix(" entries\n"))
    assert ended(program, new, ["--check"]) == accepted(count)
    return count


@pytest.mark.parametrize("at", [5, 13, 20, 30])
def test_recovery_from_a_changed_header(program, killed, tmp_path, at):
    file = copied(killed, tmp_path)
    change(log_of(file), at)
    assert recovered(program, file) == OPERATIONS


def test_recovery_from_a_changed_byte_in_the_middle(program, killed, tmp_path):
    file = copied(killed, tmp_path)
    change(log_of(file), 32 + 20 * FRAME + 1000)
    assert recovered(program, file) > OPERATIONS // 4


def test_recovery_without_the_file(program, killed, tmp_path):
    file = copied(killed, tmp_path)
    file.unlink()
    assert recovered(program, file) == OPERATIONS


def test_recovery_of_an_undamaged_store(program, killed, tmp_path):
    assert recovered(program, copied(killed, tmp_path)) == OPERATIONS


def test_recovery_needs_a_new_file(program, killed, tmp_path):
    file = copied(killed, tmp_path)
    before = contents(tmp_path)
    assert ended(program, file, ["--recover", str(file)]) == (1, "", f"store: {file}: the file exists\n")
    assert contents(tmp_path) == before
