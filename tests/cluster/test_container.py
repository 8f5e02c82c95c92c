"""The second stage of the container of examples/deploy. It needs podman, and the variable PODMAN (docs/TESTING.md)."""
import contextlib
import http.client
import json
import os
import shlex
import shutil
import subprocess
import time

import pytest

from machines import DEPLOY, PATIENCE, free_ports
from support.server import UNPROVED
from test_cluster import store

PODMAN = shlex.split(os.environ.get("PODMAN", ""))
OPTIONS = shlex.split(os.environ.get("PODMAN_OPTIONS", ""))
# as the comment in Containerfile has them
RUN = shlex.split("--init --stop-timeout 45 --memory 4g --ulimit nofile=4096")
DATA = ("--ulimit", "data=3221225472")
BUILT = "COPY --from=build /usr/local/bin/sdb_server"
NAME = f"sdb_server_{os.getpid()}"

pytestmark = pytest.mark.skipif(not PODMAN, reason="PODMAN isn't set")


def podman(*words):
    return subprocess.run([*PODMAN, *words], check=True, stdout=subprocess.PIPE, text=True).stdout


def build(folder, program):
    """Builds the second stage. Its program isn't that of the first one."""
    stage = "FROM" + (DEPLOY / "Containerfile").read_text().split("\nFROM")[2]
    assert BUILT in stage
    (folder / "Containerfile").write_text(stage.replace(BUILT, "COPY sdb_server"))
    shutil.copy(program, folder / "sdb_server")
    (folder / "examples" / "deploy").mkdir(parents=True)
    shutil.copy(DEPLOY / "stoppable", folder / "examples" / "deploy")
    podman("build", "--format", "docker", "-t", NAME, *OPTIONS, str(folder))


@contextlib.contextmanager
def running(program, port):
    limits = () if program == str(UNPROVED) else DATA
    places = ("-p", f"127.0.0.1:{port}:8080", "-v", f"{NAME}:/var/lib/sdb_server")
    podman("run", "-d", "--name", NAME, *places, *RUN, *limits, *OPTIONS, NAME)
    try:
        yield
    finally:
        podman("rm", "-f", NAME)
        podman("volume", "rm", NAME)
        podman("rmi", NAME)


def health(port):
    """Returns the numbers of documents and operations, once the server answers."""
    end = time.monotonic() + PATIENCE
    while True:
        connection = http.client.HTTPConnection("127.0.0.1", port, timeout=PATIENCE)
        with contextlib.closing(connection), contextlib.suppress(OSError, http.client.HTTPException):
            connection.request("GET", "/health")
            found = json.loads(connection.getresponse().read())
            return found["documents"], found["entries"]
        assert time.monotonic() < end
        time.sleep(0.1)


def test_container(program, tmp_path):
    (port,) = free_ports(1)
    build(tmp_path, program)
    with running(program, port):
        assert health(port) == (0, 0)
        assert podman("exec", NAME, "id", "-u").strip() == "65534"
        podman("healthcheck", "run", NAME)
        store(("127.0.0.1", port), "d", 20)
        podman("stop", NAME)
        assert podman("inspect", "--format", "{{.State.ExitCode}}", NAME).strip() == "0"
        podman("start", NAME)
        assert health(port) == (1, 20)
        store(("127.0.0.1", port), "d", 5)
        podman("kill", NAME)
        podman("start", NAME)
        assert health(port) == (1, 25)
