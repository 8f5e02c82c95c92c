"""Clients that edit one document concurrently: in Python, in Node, and the page in Chromium. And the client with the server, and
with the reference client.

The client in Python shares no code with the others. Each client makes as many edits as --edits says, subscribes to the
document, and compares its copy with a fresh fetch. Each runs alone too: client.py, client.js and page.py.

Needs Node 20, python3-websockets, node-ws and chromium.
"""
import contextlib
import itertools
import json
import pathlib
import re
import subprocess
import time

import pytest

HERE = pathlib.Path(__file__).resolve().parent
PYTHON = "/usr/bin/python3"  # Debian's, which has Debian's packages
PAIRS = "1000"  # random cases of agreement.js
PATIENCE = 900  # seconds for all clients
GRACE = 10  # seconds for the others after one has failed
MOST_SHOWN = 3  # differences of traces that are printed


@pytest.fixture(scope="session")
def edits(request):
    return request.config.getoption("--edits")


@pytest.fixture(scope="session")
def traces(request):
    return request.config.getoption("--traces")


def run_script(*command):
    ran = subprocess.run([str(it) for it in command], capture_output=True, text=True, timeout=PATIENCE)
    print(ran.stdout)
    assert ran.returncode == 0, ran.stdout + ran.stderr


def test_transforms_agree_with_the_server(program, seed):
    run_script("node", HERE / "agreement.js", program, PAIRS, seed)


def differing(commands, states, answers):
    """Yields each command after which a client of client/src has another state than the reference client."""
    for command, state, answer in itertools.zip_longest(commands, states, answers):
        wanted, found = json.loads(state or "null"), json.loads(answer or "null")
        if not found or "error" in found or wanted and wanted["state"] != found:
            yield f"{command}client/src: {state}reference: {answer}"


def test_traces(reference_program, traces, seed, tmp_path):
    """The client's states are those of the reference client on random lists of steps."""
    run_script("node", HERE / "traces.js", tmp_path, traces, seed)
    commands, states, answers = (tmp_path / it for it in ("commands", "states", "answers"))
    with open(commands) as given, open(answers, "w") as written:
        subprocess.run([reference_program], stdin=given, stdout=written, timeout=PATIENCE, check=True)
    with open(commands) as given, open(states) as wanted, open(answers) as written:
        first = list(itertools.islice(differing(given, wanted, written), MOST_SHOWN))
    assert not first, "\n".join(first)


def test_restarted_server(program):
    """The server is killed and started again: the clients report it and continue."""
    run_script("node", HERE / "restart.js", program)


def test_lost_connections(server, edits, seed):
    """Clients subscribe, unsubscribe, fetch, read versions and lose their connections at random, while they edit."""
    run_script("node", HERE / "links.js", server.url, edits, seed)


@contextlib.contextmanager
def running(commands):
    """Starts the commands at once. Ends them all at the end of the block, and waits for their ends."""
    started = {}
    try:
        for name, command in commands.items():
            words = [str(it) for it in command]
            started[name] = subprocess.Popen(words, stdout=subprocess.PIPE, stderr=subprocess.STDOUT, text=True)
        yield started
    finally:
        for process in started.values():
            process.terminate()
        for process in started.values():
            try:
                process.wait(GRACE)
            except subprocess.TimeoutExpired:
                process.kill()
                process.wait()


def wait_for_all(processes):
    """Waits until all have ended, or until one has failed: the others would wait for it."""
    latest = time.monotonic() + PATIENCE
    while any(it.poll() is None for it in processes):
        time.sleep(0.1)
        if any(it.returncode for it in processes):
            latest = min(latest, time.monotonic() + GRACE)
        if time.monotonic() > latest:
            for process in processes:
                process.terminate()


def test_three_clients(server, edits, seed):
    shared = [server.url, f"clients-{seed}", edits, "3", seed]
    commands = {
        "python": [PYTHON, HERE / "client.py", *shared],
        "node": ["node", HERE / "client.js", *shared],
        "page": [PYTHON, HERE / "page.py", *shared],
    }
    with running(commands) as clients:
        wait_for_all(clients.values())
        outputs = {name: client.communicate()[0] for name, client in clients.items()}
        statuses = {name: client.returncode for name, client in clients.items()}
    print("".join(outputs.values()))
    assert statuses == dict.fromkeys(commands, 0), outputs
    ends = {name: re.search(r"version (\d+), digest (\w+)", text).groups() for name, text in outputs.items()}
    assert len(set(ends.values())) == 1, ends
    assert server.is_running()
