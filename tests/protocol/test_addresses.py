"""`localhost` is an address of the server, of `./serve` and of the programs of examples/."""
import importlib.machinery
import importlib.util
import os
import re
import subprocess
import sys
import threading

import pytest

from support.frames import Connection
from support.server import END, ROOT, Server

DEPLOY = ROOT / "examples" / "deploy"
CREATE = {"a": "op", "c": "b", "d": "1", "v": 0, "seq": 1, "create": {"type": "json0", "data": {"n": 0}}}
SETTINGS = """[cluster]
buckets = 1
map = {folder}/map
port = {port}
file = {folder}/{{bucket}}/store

[commands]
at = sh -c {{command}}
start = true
failed = false
reload = true
"""


def serve():
    """Returns the module of the script `serve`."""
    loader = importlib.machinery.SourceFileLoader("serve", str(ROOT / "serve"))
    module = importlib.util.module_from_spec(importlib.util.spec_from_loader("serve", loader))
    loader.exec_module(module)
    return module


@pytest.mark.parametrize(
    "words, address",
    [
        ([], "127.0.0.1:8080"),
        (["localhost:8081"], "127.0.0.1:8081"),
        (["localhost"], "127.0.0.1:8080"),
        (["8081"], "127.0.0.1:8081"),
        ([":8081"], "127.0.0.1:8081"),
        (["--unproved", "localhost:8081", "--log"], "127.0.0.1:8081"),
        (["0.0.0.0:8081"], "0.0.0.0:8081"),
        (["[::1]:8081"], "[::1]:8081"),
    ],
)
def test_addresses_of_serve(words, address):
    assert serve().called(words)[2] == address


def test_serve_listens_at_localhost(program):
    _, _, address, _ = serve().called(["localhost:0"])
    with Server(program, address=address) as server, Connection(("localhost", server.address[1])).enter() as connection:
        assert connection.ask(CREATE)["v"] == 0


@pytest.mark.parametrize("words", [["--listen", "localhost:0"], ["--listen=localhost:0"]])
def test_stoppable_listens_at_localhost(program, words):
    with subprocess.Popen([DEPLOY / "stoppable", program, *words], stdout=subprocess.PIPE, text=True) as server:
        port = re.fullmatch(r"listening 127.0.0.1:(\d+)\n", server.stdout.readline())[1]
        with Connection(("localhost", int(port))).enter() as connection:
            server.terminate()
            assert connection.status() == 1001
        server.communicate(timeout=END)
        assert server.returncode == 0


def test_the_client_in_python_connects_to_localhost(server):
    with server.enter() as connection:
        connection.ask(CREATE)
    command = ["/usr/bin/python3", ROOT / "examples" / "client.py", f"localhost:{server.address[1]}", "b", "1"]
    with subprocess.Popen(command, stdout=subprocess.PIPE, text=True) as client:
        timer = threading.Timer(END, client.kill)  # (it connects again for ever)
        timer.start()
        try:
            assert client.stdout.readline() == '1 {"n": 0}\n'
        finally:
            timer.cancel()
            client.kill()


def test_a_bucket_is_added_at_localhost(server, tmp_path):
    """The map of nginx gets an address, since a name in it needs a resolver."""
    (tmp_path / "cluster.ini").write_text(SETTINGS.format(folder=tmp_path, port=server.address[1]))
    environment = {**os.environ, "CLUSTER": str(tmp_path / "cluster.ini")}
    command = [sys.executable, DEPLOY / "cluster" / "buckets", "add", "0", "localhost"]
    subprocess.run(command, env=environment, check=True, capture_output=True, timeout=END)
    assert f"\n0 127.0.0.1:{server.address[1]};\n" in (tmp_path / "map").read_text()
