"""The names of a store: links, a file that is moved while it is served, and a copy of FILE with a later FILE-wal."""
import json
import os
import shutil
import subprocess
from pathlib import Path

import pytest

from store.test_damage import MIDDLE, accepted, contents, copied, ended, killed_fixture, log_of, submission  # noqa: F401
from store.test_damage import OPERATIONS
from support.server import END, Server

TYPE = "http://sharejs.org/types/JSONv0"
MOVED = "store: the file was moved, removed or replaced\n"


def store_some(connection, first, last):
    for number in range(first, last):
        change = {"op": [{"p": ["n"], "na": 1}]} if number else {"create": {"type": TYPE, "data": {"n": 0}}}
        assert connection.ask(submission(number, **change))["v"] == number


def serve_some(program, file, first, last, is_killed):
    """Stores operations of a document, and ends the server, by a kill or gracefully."""
    with Server(program, "--until-eof", "--store", str(file)) as server, server.enter() as connection:
        store_some(connection, first, last)
        if not is_killed:
            server.process.stdin.close()
            assert server.process.wait(timeout=END) == 0


def test_a_symbolic_link(program, killed, tmp_path):
    """The log is that of the file, and none is made for the link."""
    file = copied(killed, tmp_path)
    link = tmp_path / "link"
    link.symlink_to(file.name)
    assert ended(program, link, ["--check"]) == accepted(OPERATIONS)
    serve_some(program, link, OPERATIONS, OPERATIONS + 2, True)
    assert ended(program, file, ["--check"]) == accepted(OPERATIONS + 2)
    assert not log_of(link).exists()


def test_a_second_name(program, killed, tmp_path):
    """The log of a file with two names isn't known, so neither is served. The files are unchanged."""
    file = copied(killed, tmp_path)
    os.link(file, tmp_path / "hard")
    before = contents(tmp_path)
    for name in (file, tmp_path / "hard"):
        status, written, errors = ended(program, name, ["--listen", "127.0.0.1:0"])
        assert (status, written) == (1, "") and errors.startswith(f"store: {name}: ") and errors.count("\n") == 1
    assert contents(tmp_path) == before


def replace(file):
    """Puts a copy in the place of a file."""
    os.replace(shutil.copy(file, file.with_name("copy")), file)


MOVES = {
    "the file": lambda file: file.rename(file.with_name("moved")),
    "its log": lambda file: log_of(file).rename(file.with_name("moved-wal")),
    "the folder": lambda file: file.parent.rename(file.parent.with_name("moved")),
    "a removed file": Path.unlink,
    "a replaced file": replace,
    "a replaced log": lambda file: replace(log_of(file)),
}


@pytest.mark.parametrize("options", [["--listen", "127.0.0.1:0"], ["--lines"]])
@pytest.mark.parametrize("move", MOVES)
def test_a_file_that_is_moved_while_it_is_served(program, tmp_path, move, options):
    """The server ends with status 1 and one line, also if no client does anything."""
    (tmp_path / "folder").mkdir()
    file = tmp_path / "folder" / "store"
    command = [program, "--store", str(file), *options]
    pipes = {"stdin": subprocess.PIPE, "stdout": subprocess.PIPE, "stderr": subprocess.PIPE}
    with subprocess.Popen(command, text=True, **pipes) as server:
        try:
            assert server.stdout.readline()
            MOVES[move](file)
            if options == ["--lines"]:
                server.stdin.write(json.dumps(submission(0, create={"type": TYPE, "data": {"n": 0}})) + "\n")
                server.stdin.flush()
            assert server.wait(timeout=END) == 1
            assert server.stderr.read() == MOVED
        finally:
            server.kill()


def test_a_moved_file_has_what_was_saved(program, tmp_path):
    """A refused start at the old path creates nothing. Both files have all operations until then, also apart."""
    file, moved = tmp_path / "store", tmp_path / "moved"
    with Server(program, "--store", str(file)) as server, server.enter() as connection:
        store_some(connection, 0, 3)
        file.rename(moved)
        before = sorted(tmp_path.iterdir())
        assert ended(program, file, ["--lines"])[0] == 1
        assert sorted(tmp_path.iterdir()) == before, "a refused start creates a file"
        assert server.process.wait(timeout=END) == 1
        assert server.process.stderr.read() == MOVED
    assert ended(program, moved, ["--check"]) == accepted(3)


@pytest.mark.parametrize("between", [0, 1])
def test_an_older_file_with_a_later_log(program, tmp_path, between):
    """FILE of a graceful end is put in the place of a later one, and FILE-wal stays: with the operations of FILE-wal the file is
    whole, or it is refused unchanged. So an operation is never missing between two others."""
    file, backup = tmp_path / "store", tmp_path / "backup"
    serve_some(program, file, 0, 5, False)
    shutil.copy(file, backup)
    count = 5
    for _ in range(between):
        serve_some(program, file, count, count + 20, False)
        count += 20
    serve_some(program, file, count, count + 5, True)
    shutil.copy(backup, file)
    backup.unlink()
    before = contents(tmp_path)
    found = ended(program, file, ["--check"])
    assert contents(tmp_path) == before
    if between:
        assert found[:2] == (1, "") and found[2].startswith("store: ")
    else:
        assert found == accepted(count + 5)
