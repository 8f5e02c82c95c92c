"""The server with --store: its program is killed, its file is damaged, and the disk is full."""
import json
import os
import pathlib
import random
import re
import resource
import shutil
import signal
import subprocess
import tempfile
import threading
import time

import pytest

from support.frames import Connection, Fault, text
from support.server import END, ROOT, Server

TYPE = "http://sharejs.org/types/JSONv0"
NOBODY = 65534  # a user without files
PLACES = [8, pytest.param(100, marks=pytest.mark.slow)]  # at which a file is cut or changed


class Editor(threading.Thread):
    """Inserts at the front of a text, and notes what is acknowledged, until its connection ends."""

    def __init__(self, address, document, source):
        super().__init__()
        self.address, self.document, self.source = address, document, source
        self.stored, self.sent, self.version, self.first = {}, 0, 0, 0

    def run(self):
        try:
            with Connection(self.address) as connection:
                connection.enter()
                connection.ask({"a": "hs", "id": self.source, "protocol": 1, "protocolMinor": 1})
                self.edit(connection)
        except (EOFError, OSError, Fault):
            pass

    def edit(self, connection):
        self.version = self.first = connection.ask(self.message(fetch=True))["data"]["v"]
        while True:
            self.sent += 1
            answer = connection.ask(self.message())
            if "error" in answer:
                raise Fault(answer)
            while answer.get("src") != self.source or answer.get("seq") != self.sent:
                answer = connection.message()
            self.stored[self.sent] = answer["v"]
            self.version = answer["v"] + 1

    def message(self, fetch=False):
        key = {"c": "b", "d": self.document}
        if fetch:
            return {"a": "f", **key}
        if self.version == 0:
            change = {"create": {"type": TYPE, "data": {"t": ""}}}
        else:
            change = {"op": [{"p": ["t", 0], "si": "x"}]}
        return {"a": "op", **key, "v": self.version, "seq": self.sent, "src": self.source, **change}


def log_of(address, document, start=0):
    """Returns the source and the number of each operation of a document, by version, from a version on."""
    log = {}
    with Connection(address).enter() as connection:
        current = connection.ask({"a": "f", "c": "b", "d": document})["data"]["v"]
        connection.send(text({"a": "s", "c": "b", "d": document, "v": start}))
        while start + len(log) < current:
            answer = connection.message()
            if answer["a"] == "op":
                assert answer["v"] == start + len(log)
                log[answer["v"]] = answer["src"], answer["seq"]
    return log


def kill_and_compare(program, file, editors, chance, rounds):
    """Kills a server under load, and compares after each restart what was acknowledged before it."""
    threads, stored, options = [], 0, ("--clients", "200", "--store", str(file))
    for number in range(rounds):
        with Server(program, *options) as server:
            compare(server.address, threads)
            threads = [Editor(server.address, f"d{k % max(1, editors // 2)}", f"c{number}-{k}") for k in range(editors)]
            for thread in threads:
                thread.start()
            time.sleep(chance.uniform(0.1, 0.6))
            server.process.send_signal(signal.SIGKILL)
            server.process.wait()
            for thread in threads:
                thread.join()
        stored += sum(len(thread.stored) for thread in threads)
    with Server(program, *options) as server:
        compare(server.address, threads)
    print(f"{stored} acknowledged operations")
    assert stored > rounds


def compare(address, threads):
    """Compares the logs with what was acknowledged to the editors, each of which has a source of its own."""
    for document in {thread.document for thread in threads}:
        editors = [thread for thread in threads if thread.document == document]
        log = log_of(address, document, min(thread.first for thread in editors))
        for thread in editors:
            assert all(log[version] == (thread.source, seq) for seq, version in thread.stored.items())
            own = [entry for entry in log.values() if entry[0] == thread.source]
            assert len(own) == len(set(own)) and len(own) <= thread.sent


def test_what_was_acknowledged_is_there_after_a_kill(program, tmp_path, seed):
    kill_and_compare(program, tmp_path / "store", 8, random.Random(seed), 4)


@pytest.mark.slow
def test_two_hundred_kills(program, tmp_path, seed):
    kill_and_compare(program, tmp_path / "store", 64, random.Random(seed), 200)
    if shutil.which("sqlite3"):
        checked = subprocess.run(["sqlite3", tmp_path / "store", "pragma integrity_check"], capture_output=True, text=True)
        assert checked.stdout == "ok\n"


def test_a_resend_after_a_restart_has_its_first_version(program, tmp_path):
    file = str(tmp_path / "store")
    create = {"a": "op", "c": "b", "d": "1", "v": 0, "seq": 7, "src": "x", "create": {"type": TYPE, "data": {"n": 0}}}
    add = {"a": "op", "c": "b", "d": "1", "v": 1, "seq": 8, "src": "x", "op": [{"p": ["n"], "na": 1}]}
    for _ in range(3):
        with Server(program, "--store", file) as server, server.enter() as connection:
            assert connection.ask(create)["v"] == 0
            assert connection.ask(add)["v"] == 1
            assert connection.ask({"a": "f", "c": "b", "d": "1"})["data"] == {"v": 2, "data": {"n": 1}}


def test_numbers_continue_after_a_restart(program, tmp_path):
    file = str(tmp_path / "store")
    sources = []
    for _ in range(3):
        with Server(program, "--store", file) as server:
            for _ in range(40):
                with server.connect() as connection:
                    connection.upgrade()
                    sources.append(int(connection.message()["id"][1:]))
    assert sources == sorted(set(sources))


def test_a_graceful_end_saves_all(program, tmp_path):
    file = str(tmp_path / "store")
    with Server(program, "--until-eof", "--store", file) as server:
        with server.enter() as connection:
            connection.ask({"a": "op", "c": "b", "d": "1", "v": 0, "seq": 1, "create": {"type": TYPE, "data": [1]}})
            server.process.stdin.close()
            assert connection.status() == 1001
        assert server.process.wait(timeout=END) == 0
        assert server.process.stderr.read() == "ended: 1 documents, 1 operations\n"
    with Server(program, "--store", file) as server, server.enter() as connection:
        assert connection.ask({"a": "f", "c": "b", "d": "1"})["data"] == {"v": 1, "data": [1]}


# Files that aren't served ---------------------------------------------------------------------------------


def refusal(program, file):
    """Returns what a program that doesn't serve this file writes."""
    command = [program, "--listen", "127.0.0.1:0", "--store", str(file)]
    ended = subprocess.run(command, capture_output=True, text=True, timeout=END, check=False)
    assert ended.returncode == 1 and ended.stdout == ""
    return ended.stderr


def test_two_servers(program, tmp_path):
    with Server(program, "--store", str(tmp_path / "store")):
        assert refusal(program, tmp_path / "store") == f"store: {tmp_path / 'store'}: another process has the file open\n"


def test_other_files(program, tmp_path):
    (tmp_path / "text").write_text("no database")
    assert refusal(program, tmp_path / "text") == f"store: {tmp_path / 'text'}: the file is damaged or no database\n"
    assert (tmp_path / "text").read_text() == "no database"
    assert refusal(program, tmp_path / "missing" / "store") == f"store: {tmp_path}/missing/store: no such file\n"
    assert refusal(program, tmp_path) == f"store: {tmp_path}: is a directory\n"


def test_an_unwritable_file(program):
    with tempfile.TemporaryDirectory() as folder:
        file = pathlib.Path(folder) / "store"
        with Server(program, "--store", str(file)):
            pass
        os.chmod(folder, 0o555)
        for found in file.parent.iterdir():
            found.chmod(0o444)
        before = file.read_bytes()
        command = [program, "--listen", "127.0.0.1:0", "--store", str(file)]
        # (root may write each file)
        other = {"user": NOBODY} if os.geteuid() == 0 else {}
        try:
            ended = subprocess.run(command, capture_output=True, text=True, timeout=END, check=False, **other)
        except PermissionError:
            pytest.skip("another user can't start the program")
        assert (ended.returncode, ended.stdout) == (1, "")
        assert ended.stderr == f"store: {file}: permission denied\n" and file.read_bytes() == before


@pytest.fixture(scope="module")
def filled(program, tmp_path_factory):
    """Returns a file with 300 operations, and its log."""
    file = tmp_path_factory.mktemp("filled") / "store"
    with Server(program, "--until-eof", "--store", str(file)) as server:
        with server.enter() as connection:
            editor = Editor(server.address, "1", "x")
            for _ in range(300):
                editor.sent += 1
                editor.version = connection.ask(editor.message())["v"] + 1
            log = log_of(server.address, "1")
        server.stop()
    return file, log


def served_log(program, file):
    """Returns the log that the server serves, or None. Then it must write one line, and leave the file unchanged."""
    before = file.read_bytes()
    command = [program, "--listen", "127.0.0.1:0", "--store", str(file)]
    process = subprocess.Popen(command, stdout=subprocess.PIPE, stderr=subprocess.PIPE, text=True)
    try:
        line = process.stdout.readline()
        if not line:
            written = process.communicate(timeout=END)[1]
            assert process.returncode == 1 and written.startswith("store: ") and written.count("\n") == 1
            assert file.read_bytes() == before
            return None
        host, port = line.split()[-1].rsplit(":", 1)
        return log_of((host, int(port)), "1")
    finally:
        process.kill()
        process.communicate()


@pytest.mark.parametrize("places", PLACES)
def test_cut_files(program, filled, tmp_path, places):
    file, _ = filled
    data = file.read_bytes()
    for k in range(places):
        cut = tmp_path / f"cut{k}"
        cut.write_bytes(data[: len(data) * k // places])
        # (an empty file becomes a store)
        assert served_log(program, cut) == ({} if k == 0 else None)
        remove(cut)


@pytest.mark.parametrize("places", PLACES)
def test_changed_bytes(program, filled, tmp_path, seed, places):
    file, log = filled
    data = file.read_bytes()
    chance = random.Random(seed)
    for k in range(places):
        at = chance.randrange(len(data))
        changed = tmp_path / f"changed{k}"
        changed.write_bytes(data[:at] + bytes([data[at] ^ chance.randrange(1, 256)]) + data[at + 1 :])
        # (some bytes have no meaning)
        assert served_log(program, changed) in (None, log)
        remove(changed)


def remove(file):
    for found in file.parent.glob(file.name + "*"):
        found.unlink()


# A full disk ----------------------------------------------------------------------------------------------


def test_answers_wait_while_the_disk_is_full(program, tmp_path):
    # (a file that is too long sends a signal to the program, which Python ignores for itself)
    server = Server(program, "--store", str(tmp_path / "store"), restore_signals=False)
    with server, server.enter() as connection:
        editor = Editor(server.address, "1", "x")
        editor.sent = 1
        editor.version = connection.ask(editor.message())["v"] + 1
        limit_files(server.process.pid, 0)
        editor.sent = 2
        message = editor.message()
        with Silence(connection, message):
            time.sleep(2)
        limit_files(server.process.pid, resource.RLIM_INFINITY)
        assert connection.message()["v"] == 1


def health(server):
    """Returns the status and the content of /health."""
    with server.connect() as connection:
        connection.send(b"GET /health HTTP/1.1\r\nHost: localhost\r\n\r\n")
        answer = b""
        while piece := connection.socket.recv(65_536):
            answer += piece
    return int(answer.split(b" ")[1]), json.loads(answer.split(b"\r\n\r\n")[1])


def test_an_operator_sees_that_saving_fails(program, tmp_path):
    server = Server(program, "--store", str(tmp_path / "store"), restore_signals=False)
    with server, server.enter() as connection:
        editor = Editor(server.address, "1", "x")
        editor.sent = 1
        editor.version = connection.ask(editor.message())["v"] + 1
        assert health(server)[0] == 200
        limit_files(server.process.pid, 0)
        start = time.time()
        editor.sent = 2
        connection.send(text(editor.message()))
        wait_until(lambda: health(server)[0] == 503)
        found = health(server)[1]
        assert (found["saving"], found["entries"]) == (False, 1) and found["reason"].startswith("the disk")
        assert start - 2 < found["since"] <= time.time()
        time.sleep(1.5)
        assert health(server)[1]["since"] == found["since"]
        limit_files(server.process.pid, resource.RLIM_INFINITY)
        assert connection.message()["v"] == 1
        assert health(server) == (200, {**health(server)[1], "saving": True, "entries": 2})
        server.process.terminate()
        lines = server.process.communicate(timeout=END)[1].splitlines()
        assert lines[0] == f"store: operations aren't saved: {found['reason']}"
        assert re.fullmatch(r"store: operations are saved again, after \d+ seconds", lines[1])
        assert len(lines) == 2


def wait_until(holds):
    end = time.monotonic() + END
    while not holds():
        assert time.monotonic() < end
        time.sleep(0.05)


# Backups --------------------------------------------------------------------------------------------------


def backup(program, file, copy):
    """Stores a copy of a store in a new one, and returns its number of entries."""
    command = [program, "--store", str(file), "--backup", str(copy)]
    ended = subprocess.run(command, capture_output=True, text=True, timeout=4 * END, check=False)
    assert (ended.returncode, ended.stderr) == (0, "")
    documents, entries = re.fullmatch(r"saved (\d+) documents, (\d+) entries\n", ended.stdout).groups()
    checked = subprocess.run([program, "--store", str(copy), "--check"], capture_output=True, text=True, timeout=END, check=False)
    assert checked.stdout == f"accepted {documents} documents, {entries} entries\n"
    return int(entries)


class SlowEditor(Editor):
    """Pauses after each edit, since the unproved program reads some hundred entries in a second."""

    def message(self, fetch=False):
        time.sleep(0.2)
        return super().message(fetch)


def test_backups_while_clients_edit(program, tmp_path):
    file, copies = tmp_path / "store", []
    with Server(program, "--store", str(file)) as server:
        editors = [SlowEditor(server.address, str(k), f"e{k}") for k in range(3)]
        for editor in editors:
            editor.start()
        time.sleep(2)
        for k in range(4):
            acknowledged = {it.source: (it.document, dict(it.stored)) for it in editors}
            copies.append((backup(program, file, tmp_path / f"copy{k}"), acknowledged))
    for editor in editors:
        editor.join()
    assert [it[0] for it in copies] == sorted(it[0] for it in copies) and copies[0][0] < copies[-1][0]
    for k, (entries, acknowledged) in enumerate(copies):
        with Server(program, "--store", str(tmp_path / f"copy{k}")) as server:
            logs = {document: log_of(server.address, document) for document in "012"}
        assert sum(len(log) for log in logs.values()) == entries
        for source, (document, stored) in acknowledged.items():
            assert all(logs[document].get(v) == (source, seq) for seq, v in stored.items())


def test_a_backup_of_a_stopped_server(program, filled, tmp_path):
    file, log = filled
    before = file.read_bytes()
    assert backup(program, file, tmp_path / "copy") == len(log)
    assert file.read_bytes() == before
    assert served_log(program, tmp_path / "copy") == log


def test_the_script_keeps_the_last_copies(program, filled, tmp_path):
    script = ROOT / "examples" / "deploy" / "backup"
    file, log = filled
    names = []
    for _ in range(4):
        ended = subprocess.run([script, program, file, tmp_path, "2"], capture_output=True, text=True, timeout=4 * END, check=False)
        assert (ended.returncode, ended.stdout) == (0, f"saved 1 documents, {len(log)} entries\n")
        names.append(max(it.name for it in tmp_path.iterdir()))
        time.sleep(1.1)  # until the next name
    assert sorted(it.name for it in tmp_path.iterdir()) == names[2:]
    assert served_log(program, tmp_path / names[3]) == log
    for source, keep in [(file, "0"), (tmp_path / "missing", "1")]:
        found = sorted(tmp_path.iterdir())
        ended = subprocess.run([script, program, source, tmp_path, keep], capture_output=True, timeout=END, check=False)
        assert ended.returncode != 0 and sorted(tmp_path.iterdir()) == found


def test_refused_backups(program, filled, tmp_path):
    file, _ = filled
    missing = [program, "--store", str(tmp_path / "missing"), "--backup", str(tmp_path / "copy")]
    there = [program, "--store", str(file), "--backup", str(file)]
    for command, message in [(missing, f"{tmp_path}/missing: no such file"), (there, f"{file}: the file exists")]:
        ended = subprocess.run(command, capture_output=True, text=True, timeout=END, check=False)
        assert (ended.returncode, ended.stdout, ended.stderr) == (1, "", f"store: {message}\n")
    assert not list(tmp_path.iterdir())


# Refused starts -------------------------------------------------------------------------------------------


def test_a_refused_start_creates_nothing(program, tmp_path):
    file = tmp_path / "store"
    command = [program, "--listen", "127.0.0.1:0", "--until-eof", "--store", str(file)]
    closed = ["sh", "-c", 'exec "$@" <&-', "sh", *map(str, command)]
    ended = subprocess.run(closed, capture_output=True, text=True, timeout=END, check=False)
    assert ended.returncode == 2 and ended.stderr.startswith("error: cannot read standard input")
    assert list(tmp_path.iterdir()) == []


def limit_files(process, size):
    """Limits the size of the files that a process writes."""
    resource.prlimit(process, resource.RLIMIT_FSIZE, (size, resource.RLIM_INFINITY))


class Silence:
    """Sends a message, and checks that no byte of an answer comes meanwhile."""

    def __init__(self, connection, message):
        self.connection, self.message = connection, message

    def __enter__(self):
        self.connection.send(text(self.message))

    def __exit__(self, *_):
        self.connection.socket.setblocking(False)
        try:
            with pytest.raises(BlockingIOError):
                self.connection.read_more()
        finally:
            self.connection.socket.setblocking(True)
