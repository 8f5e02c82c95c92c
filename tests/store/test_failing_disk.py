"""The server with --store and a disk whose writes or syncs fail, that is full, or whose syncs don't return."""
import errno
import http.client
import json
import pathlib
import re
import subprocess
import threading
import time

import pytest

from store.test_lines import logs_of
from support.disks import library_of
from support.frames import Connection, Fault, text
from support.server import END, Server

TYPE = "http://sharejs.org/types/JSONv0"
DISK = pathlib.Path(__file__).with_name("failing_disk.c")
EDITORS, EDITS = 3, 12
HOLD = 30  # seconds after which a client with held output is closed
LATE = 20  # seconds more, for a busy machine
# the calls of the store that fail, and the status of the program: a failed write is tried again, a failed sync closes the file
FAULTS = {
    "two writes": (f"write:35:2:{errno.EIO}", 0),
    "three writes of a full disk": (f"write:36:3:{errno.ENOSPC}", 0),
    "a late write": (f"write:48:1:{errno.EIO}", 0),
    "each third write": (",".join(f"write:{at}:1:{errno.EIO}" for at in range(39, 52, 3)), 0),
    "a sync": (f"sync:40:1:{errno.EIO}", 1),
    "a sync of a full disk": (f"sync:42:1:{errno.ENOSPC}", 1),
    "the truncation at the end": (f"truncate:3:1:{errno.EIO}", 1),
}


@pytest.fixture(scope="module")
def disk(tmp_path_factory):
    return library_of(DISK, tmp_path_factory.mktemp("disk"))


class Disk(Server):
    """A server over such a disk. Its store is in a folder, with files whose presence fills or hangs the disk."""

    def __init__(self, program, disk, folder, *options, **settings):
        self.store, self.full, self.hang, self.failed = (folder / name for name in ("store", "full", "hang", "failed"))
        variables = {"LD_PRELOAD": disk, "STORE": str(self.store), "FULL": str(self.full), "HANG": str(self.hang)}
        variables["FAILED"] = str(self.failed)
        super().__init__(program, "--until-eof", "--store", str(self.store), *options, environment={**variables, **settings})

    def page(self, path):
        connection = http.client.HTTPConnection(*self.address, timeout=END)
        connection.request("GET", path)
        return connection.getresponse().read().decode()

    def health(self):
        return json.loads(self.page("/health"))

    def acknowledged(self):
        """Returns the number of acknowledgements that were sent."""
        return int(re.search(r"^navirotsohy_acknowledgements_total (\d+)$", self.page("/metrics"), re.M)[1])


def submission(document, version, source):
    content = {"op": [{"p": ["n"], "na": 1}]} if version else {"create": {"type": TYPE, "data": {"n": 0}}}
    return {"a": "op", "c": "b", "d": document, "v": version, "seq": version + 1, "src": source, **content}


def edit(address, number, acknowledged):
    """Stores operations of a document until the connection ends, and notes those that are acknowledged."""
    try:
        with Connection(address, END).enter() as connection:
            for version in range(EDITS):
                assert connection.ask(submission(f"d{number}", version, f"c{number}"))["v"] == version
                acknowledged.append((number, version))
    except (Fault, EOFError, OSError):
        pass


@pytest.mark.parametrize("calls, status", FAULTS.values(), ids=FAULTS)
def test_failing_calls(program, disk, tmp_path, calls, status):
    """Nothing that is acknowledged is lost, and no operation is stored twice. A failed sync ends the program."""
    acknowledged = []
    with Disk(program, disk, tmp_path, FAIL=calls) as server:
        editors = [threading.Thread(target=edit, args=(server.address, number, acknowledged)) for number in range(EDITORS)]
        for editor in editors:
            editor.start()
        for editor in editors:
            editor.join()
        if "sync" not in calls:
            assert server.is_running()
            server.process.stdin.close()
        assert server.process.wait(timeout=2 * END) == status
        errors = server.process.stderr.read()
        assert (errors.splitlines()[-1].startswith("store: ")) == (status == 1), errors
    assert server.failed.stat().st_size == sum(int(call.split(":")[2]) for call in calls.split(","))
    if "sync" not in calls:
        assert len(acknowledged) == EDITORS * EDITS
    logs = logs_of(program, str(tmp_path / "store"))
    assert all(len(log) == len(set(log)) for log in logs.values())
    assert all(logs[f"d{number}"][version] == (f"c{number}", version + 1) for number, version in acknowledged)


@pytest.mark.parametrize("call", ["write:1", "sync:1", "sync:12", "sync:25"])
def test_a_store_that_is_not_created(program, disk, tmp_path, call):
    command = [program, "--listen", "127.0.0.1:0", "--store", str(tmp_path / "store")]
    settings = {"LD_PRELOAD": disk, "STORE": str(tmp_path / "store"), "FAIL": f"{call}:1:{errno.EIO}"}
    ended = subprocess.run(command, env=settings, capture_output=True, text=True, timeout=END, check=False)
    assert (ended.returncode, ended.stdout) == (1, "") and ended.stderr.startswith("store: ")


@pytest.mark.slow
def test_clients_that_wait_for_their_numbers_are_closed(program, disk, tmp_path):
    """The disk is full before the first client, so no number is reserved."""
    with Disk(program, disk, tmp_path, "--clients", "4") as server:
        server.full.touch()
        waiting = [server.connect() for _ in range(4)]
        began = time.monotonic()
        for connection in waiting:
            connection.upgrade()
        assert [connection.status(HOLD + LATE) for connection in waiting] == [1013] * 4
        assert time.monotonic() - began > HOLD / 2
        for connection in waiting:
            connection.socket.close()
        end = time.monotonic() + LATE
        while server.health()["clients"]:
            assert time.monotonic() < end, "a client that has closed keeps its place"
            time.sleep(0.2)
        server.full.unlink()
        with Connection(server.address, END).enter() as connection:
            assert connection.ask(submission("1", 0, "x"))["v"] == 0


@pytest.mark.slow
def test_a_disk_that_hangs(program, disk, tmp_path):
    """No sync returns: a client whose answer waits is closed with 1013, others with 1001 at a stop, and the pages are served."""
    with Disk(program, disk, tmp_path) as server, server.enter() as held, server.enter() as idle:
        assert held.ask(submission("1", 0, "x"))["v"] == 0
        server.hang.touch()
        held.send(text(submission("1", 1, "x")))
        assert held.status(HOLD + LATE) == 1013
        assert server.health()["documents"] == 1
        with server.connect() as late:
            late.upgrade()
            server.process.stdin.close()
            assert idle.status(LATE) == 1001
            assert late.status(LATE) == 1001
        server.hang.unlink()
        assert server.process.wait(timeout=END) == 0
    assert logs_of(program, str(tmp_path / "store")) == {"1": [("x", 1), ("x", 2)]}


@pytest.mark.slow
def test_a_stop_while_the_disk_is_full(program, disk, tmp_path):
    """A client with a held answer is closed with 1001, and the program tells that it doesn't save."""
    with Disk(program, disk, tmp_path) as server, server.enter() as held:
        assert held.ask(submission("1", 0, "x"))["v"] == 0
        server.full.touch()
        held.send(text(submission("1", 1, "x")))
        time.sleep(2)
        # (the one that isn't saved isn't counted)
        assert server.health()["entries"] == 1
        server.process.stdin.close()
        assert held.status(LATE) == 1001
        assert server.process.wait(timeout=HOLD + 2 * LATE) == 1
        assert "store: " in server.process.stderr.read()
    assert logs_of(program, str(tmp_path / "store")) == {"1": [("x", 1)]}


def test_the_end_of_a_disk_that_is_full_for_a_moment(program, disk, tmp_path):
    with Disk(program, disk, tmp_path) as server, server.enter() as held:
        assert held.ask(submission("1", 0, "x"))["v"] == 0
        server.full.touch()
        held.send(text(submission("1", 1, "x")))
        time.sleep(1)
        assert server.acknowledged() == 1
        server.full.unlink()
        held.socket.settimeout(END)
        assert held.message()["v"] == 1
        time.sleep(1)
        assert server.acknowledged() == 2
        assert server.failed.stat().st_size > 0
        server.process.stdin.close()
        assert held.status(LATE) == 1001
        assert server.process.wait(timeout=END) == 0
