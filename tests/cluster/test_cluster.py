"""A cluster: clients edit documents of 16 buckets at three machines, while a bucket is moved and a server is killed.

Needs nginx, node-ws and python3-websockets; for network namespaces also root and iproute2."""
import base64
import contextlib
import http.client
import json
import os
import socket
import ssl
import subprocess
import time
import zlib

import pytest

from machines import HERE, NGINX, PASSWORD, SSHD, USER, Machines, may_have_namespaces
from support.frames import HEAD, Connection, text
from support.server import UNPROVED

BUCKETS, DOCUMENTS = 16, 1000
MOVED, KILLED = 7, 4  # buckets
EDITORS = {"python": (["/usr/bin/python3", HERE / "editors.py"], 1), "node": (["node", HERE / "editors.js"], 5)}
CLIENTS = 24  # of each program
PAUSE, UNPROVED_PAUSE = 0.1, 2.0  # seconds between two edits of a client, on average: an unproved program is slow
PATIENCE = 60  # seconds for a reload of nginx, and for a server that is started again
RETURN = 180  # seconds until clients edit again

pytestmark = pytest.mark.skipif(NGINX is None, reason="nginx isn't installed")


def bucket_of(document, buckets=BUCKETS):
    return zlib.crc32(document.encode()) % buckets


@contextlib.contextmanager
def running_machines(program, folder, *parts, **options):
    """Starts nginx, and servers of as many buckets at each of the first machines."""
    with Machines(folder, program, sum(parts), **options) as running:
        running.start_nginx()
        for number, (machine, part) in enumerate(zip(running.machines, parts)):
            start = sum(parts[:number])
            running.buckets("add", f"{start}-{start + part - 1}", machine)
        yield running


@pytest.fixture
def machines(program, tmp_path):
    with running_machines(program, tmp_path, 6, 5, 5) as running:
        assert running.count == BUCKETS
        yield running


@pytest.fixture
def few(program, tmp_path):
    """Machines with a bucket each: bucket 1 is at the second one."""
    with running_machines(program, tmp_path, 1, 1, 1) as running:
        yield running


# Moves ------------------------------------------------------------------------------------------------------------


def store(address, document, count):
    """Stores operations of a document."""
    with Connection(address).enter() as connection:
        version = connection.ask({"a": "f", "c": "b", "d": document})["data"]["v"]
        for number in range(version, version + count):
            content = {"op": [{"p": ["n"], "na": 1}]} if number else {"create": {"type": "json0", "data": {"n": 0}}}
            assert connection.ask({"a": "op", "c": "b", "d": document, "v": number, "seq": number + 1, **content})["v"] == number


def answer_of(machines, bucket):
    """Returns the status and what nginx gets from the server of a bucket at /health."""
    with contextlib.closing(http.client.HTTPConnection("127.0.0.1", machines.monitor, timeout=10)) as connection:
        connection.request("GET", f"/b/{bucket}/health")
        answer = connection.getresponse()
        return answer.status, json.loads(answer.read()) if answer.status == 200 else None


def health(machines, bucket):
    """Returns it once nginx forwards to the server: just after a reload old processes of nginx accept connections too."""
    end = time.monotonic() + PATIENCE
    status = None
    while status != 200 and time.monotonic() < end:
        status, found = answer_of(machines, bucket)
    assert status == 200
    return found


def test_a_move_that_fails_leaves_the_bucket_where_it_was(few):
    first, second, third = few.machines
    store(few.place(1), "d7", 20)
    assert "is at" in few.buckets("move", 1, second, succeeds=False)
    assert "is no bucket" in few.buckets("move", 3, first, succeeds=False)
    assert "already" in few.buckets("add", 1, first, succeeds=False)
    older = few.file(1, third)
    older.parent.mkdir(parents=True)
    older.write_text("an older file")
    assert "test ! -e" in few.buckets("move", 1, third, succeeds=False)
    assert older.read_text() == "an older file"
    settings = few.folder / "cluster.ini"
    settings.write_text(settings.read_text().replace("check = ", "check = echo accepted 1 documents, 19 entries # "))
    assert "has 1 documents, 19 entries, but the server had" in few.buckets("move", 1, first, succeeds=False)
    assert few.place(1)[0] == second and not few.file(1, first).exists()
    assert health(few, 1)["entries"] == 20


def test_a_move_to_a_machine_where_no_server_starts(few):
    """The first server is started again soon, and not after the time that the other one has to answer."""
    _, second, third = few.machines
    store(few.place(1), "d7", 20)
    settings = few.folder / "cluster.ini"
    wrong = f"$(test {{machine}} != {third} || echo --wrong) --listen {{machine}}"
    settings.write_text(settings.read_text().replace("--listen {machine}", wrong))
    assert "isn't started again" in few.buckets("move", 1, third, succeeds=False)
    assert few.place(1)[0] == second and not few.file(1, third).exists()
    assert health(few, 1)["entries"] == 20


def test_a_server_that_is_not_running_is_not_moved(few):
    first, second, _ = few.machines
    store(few.place(1), "d7", 20)
    subprocess.run([HERE / "unit", "stop", few.file(1)], check=True)
    assert "not served" in few.buckets("list", succeeds=False)
    assert "start it first" in few.buckets("move", 1, first, succeeds=False)
    assert answer_of(few, 1) == (502, None)
    assert few.place(1)[0] == second


def test_moves(few):
    first, second, _ = few.machines
    store(few.place(1), "d7", 20)
    for count, machine in ((20, first), (30, second), (40, first)):
        assert f"1 documents, {count} entries" in few.buckets("move", 1, machine)
        assert few.place(1)[0] == machine
        assert health(few, 1)["entries"] == count
        store(few.place(1), "d7", 10)
    assert few.buckets("list").count("documents") == 3
    assert few.file(1, second).with_name("documents.db.moved").exists()


@pytest.mark.skipif(SSHD is None, reason="sshd isn't installed")
def test_ssh(program, tmp_path):
    """Runs the commands by ssh, with the name of a file that a shell would divide and expand."""
    if not may_have_namespaces():
        pytest.skip("there are no network namespaces")
    with running_machines(program, tmp_path, 1, store='it\'s $HOME; a "store" *.db', has_ssh=True) as machines:
        first, second, third = machines.machines
        store(machines.place(0), "d7", 20)
        older = machines.file(0, third)
        older.parent.mkdir(parents=True)
        older.write_text("an older file")
        assert "test ! -e" in machines.buckets("move", 0, third, succeeds=False)
        settings = machines.folder / "cluster.ini"
        settings.write_text(settings.read_text().replace("{command}", "env sh -c {quoted}"))
        moved = machines.buckets("move", 0, second)
        assert "1 documents, 20 entries" in moved
        print(moved, end="")
        assert health(machines, 0)["entries"] == 20
        assert second in machines.buckets("list")
        names = {it.name for it in machines.file(0, first).parent.iterdir()}
        assert f"{machines.store}.moved" in names and machines.store not in names


# Clients ----------------------------------------------------------------------------------------------------------


@contextlib.contextmanager
def editors(machines, clients, documents, seed, pause):
    """Starts the clients. Ends them at the end of the block."""
    shared = [machines.url, machines.count, clients, documents]
    pipes = {"stdin": subprocess.PIPE, "stdout": subprocess.PIPE, "text": True, "env": {**os.environ, **machines.trust}}
    started = []
    try:
        for words, stride in EDITORS.values():
            command = [*words, *shared, stride, seed, pause]
            started.append(subprocess.Popen([str(it) for it in command], **pipes))
        yield started
    finally:
        for process in started:
            process.kill()
            process.communicate()


def read_line(process):
    line = process.stdout.readline()
    assert line, "a program of the clients has ended"
    return line


def write_line(process, line):
    process.stdin.write(line + "\n")
    process.stdin.flush()


def disturb(machines, seconds):
    """Moves a bucket three times and kills a server twice. Each time clients then edit the bucket."""
    first, second, third = machines.machines
    disturbances = [first, None, third, None, second]
    for machine in disturbances:
        time.sleep(seconds / (len(disturbances) + 1))
        if machine:
            print(machines.buckets("move", MOVED, machine), end="")
        else:
            machines.kill(KILLED)
            print(f"bucket {KILLED} killed")
        wait_for_edits(machines, MOVED if machine else KILLED)
    time.sleep(seconds / (len(disturbances) + 1))


def wait_for_edits(machines, bucket):
    """Waits until a bucket has more entries: clients may pause for half a minute before they try again."""
    before = health(machines, bucket)["entries"]
    end = time.monotonic() + RETURN
    while health(machines, bucket)["entries"] <= before:
        assert time.monotonic() < end, "no client edits the bucket"
        time.sleep(0.1)


def log_of(connection, document):
    """Returns the source and the number of each operation of a document, by version, and the document."""
    current = connection.ask({"a": "f", "c": "b", "d": document})["data"]
    connection.send(text({"a": "f", "c": "b", "d": document, "v": 0}))
    log = []
    while len(log) < current["v"]:
        answer = connection.message()
        assert answer["v"] == len(log)
        log.append((answer["src"], answer["seq"]))
    assert "v" not in connection.message()
    assert len(log) == len(set(log)), "an operation is stored twice"
    return log, current["data"]


def stored(machines, count):
    """Returns the log and the content of each document, which must be at the server of its bucket."""
    found = {}
    for bucket in range(machines.count):
        documents = [it for it in map("d{}".format, range(count)) if bucket_of(it, machines.count) == bucket]
        assert health(machines, bucket)["documents"] == len(documents)
        with Connection(machines.place(bucket)).enter() as connection:
            found.update((it, log_of(connection, it)) for it in documents)
    return found


def compare(report, found):
    """Compares the acknowledged operations and the documents of clients with the servers'."""
    assert report["lost"] == []
    for document, source, seq, version, _ in report["acknowledged"]:
        assert found[document][0][version] == (source, seq)
    assert len(report["documents"]) == report["opened"]
    for document, version, data in report["documents"]:
        log, current = found[document]
        assert (version, data) == (len(log), current)


def print_pauses(reports):
    """Prints the longest times without an acknowledgement, in the moved bucket and in the others."""
    times = {bucket: [] for bucket in range(BUCKETS)}
    for document, _, _, _, moment in (it for report in reports for it in report["acknowledged"]):
        times[bucket_of(document)].append(moment)
    gaps = {bucket: max(after - before for before, after in zip(sorted(it), sorted(it)[1:])) for bucket, it in times.items()}
    others = max(gaps[it] for it in gaps if it not in (MOVED, KILLED))
    print(f"longest time without an acknowledgement: moved bucket {gaps[MOVED]:.2f} s, ", end="")
    print(f"bucket of the killed server {gaps[KILLED]:.2f} s, others {others:.2f} s")
    waits = [wait / 1000 for report in reports for document, wait in report.get("waits", ()) if bucket_of(document) == MOVED]
    print(f"longest pause of an edit in the moved bucket: {max(waits):.2f} s, of {len(waits):,} edits")


def edit(machines, documents, programs, disturb):
    """Lets the clients edit meanwhile. Returns their reports, and the logs and documents of the servers."""
    for process in programs:
        assert read_line(process) == "ready\n"
    disturb()
    for process in programs:
        write_line(process, "end")
    for process in programs:
        assert read_line(process) == "settled\n"
    found = stored(machines, documents)
    for process in programs:
        write_line(process, json.dumps({document: len(log) for document, (log, _) in found.items()}))
    reports = [json.loads(read_line(process)) for process in programs]
    for report in reports:
        compare(report, found)
    return reports, found


def test_edits_while_a_bucket_is_moved_and_a_server_is_killed(machines, seed, request):
    seconds = float(request.config.getoption("--seconds"))
    pause = UNPROVED_PAUSE if machines.program == str(UNPROVED) else PAUSE
    with editors(machines, CLIENTS, DOCUMENTS, seed, pause) as programs:
        reports, found = edit(machines, DOCUMENTS, programs, lambda: disturb(machines, seconds))
    count = len({tuple(it[:4]) for report in reports for it in report["acknowledged"]})
    print(f"{machines.hosts.what}: {count:,} acknowledged operations, {sum(len(log) for log, _ in found.values()):,} stored")
    print_pauses(reports)
    assert count > DOCUMENTS + seconds * len(EDITORS) * CLIENTS / pause / 2


# TLS and passwords ------------------------------------------------------------------------------------------------


def status_by_tls(machines, request):
    """Returns the status that nginx answers to a request."""
    trusting = ssl.create_default_context(cafile=machines.trust["SSL_CERT_FILE"])
    with socket.create_connection(("127.0.0.1", machines.port), PATIENCE) as plain:
        with trusting.wrap_socket(plain, server_hostname="127.0.0.1") as connection:
            connection.sendall(request.encode())
            return int(connection.recv(1024).split()[1])


def handshake(path, origin="https://documents.example.org", password=PASSWORD):
    """Returns a request for a WebSocket, without a password if none is given."""
    lines = [f"GET {path} {HEAD.split(' ', 2)[2]}Sec-WebSocket-Key: dGhlIHNhbXBsZSBub25jZQ=="]
    lines += [f"Origin: {origin}"] if origin else []
    lines += ["Authorization: Basic " + base64.b64encode(f"{USER}:{password}".encode()).decode()] if password else []
    return "\r\n".join(lines) + "\r\n\r\n"


def until_reloaded(machines):
    """Waits until no old process of nginx accepts connections: it knows no bucket."""
    end = time.monotonic() + PATIENCE
    while any(status_by_tls(machines, handshake("/b/1")) != 101 for _ in range(10)):
        assert time.monotonic() < end


def test_tls_and_passwords(program, seed, tmp_path):
    with running_machines(program, tmp_path, 2, has_tls=True) as machines:
        until_reloaded(machines)
        assert status_by_tls(machines, handshake("/b/1")) == 101
        assert status_by_tls(machines, handshake("/b/1", origin=None)) == 101
        assert status_by_tls(machines, handshake("/b/1", password=None)) == 401
        assert status_by_tls(machines, handshake("/b/1", password="wrong")) == 401
        assert status_by_tls(machines, handshake("/b/1", origin="https://other.example.org")) == 403
        assert status_by_tls(machines, handshake("/b/2")) == status_by_tls(machines, handshake("/b/01")) == 404
        assert status_by_tls(machines, handshake("/b/1").replace("Upgrade", "Other")) == 426
        assert status_by_tls(machines, handshake("/", password=None)) == 401
        assert [answer_of(machines, bucket)[0] for bucket in (0, 1, 2)] == [200, 200, 404]
        with editors(machines, 2, 20, seed, UNPROVED_PAUSE) as programs:
            reports, _ = edit(machines, 20, programs, lambda: time.sleep(UNPROVED_PAUSE))
        assert all(report["acknowledged"] for report in reports)
