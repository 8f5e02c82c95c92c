"""The socket of examples/sharedb.js, with a client in Node that sends messages as ShareDB's package does."""
import pathlib
import shutil
import subprocess

import pytest

SCRIPT = pathlib.Path(__file__).with_name("sharedb.js")
WS = pathlib.Path("/usr/share/nodejs/ws")
PATIENCE = 60  # seconds


@pytest.mark.skipif(not shutil.which("node") or not WS.exists(), reason="needs node and node-ws")
def test_sharedb(server):
    ran = subprocess.run(["node", SCRIPT, server.url], capture_output=True, text=True, timeout=PATIENCE)
    assert ran.returncode == 0, ran.stderr
