"""The units of a bucket's server and of one server, with systemd in containers.

They need root, systemd-nspawn and SYSTEMD_ROOT: see containers.py."""
import contextlib
import http.client
import re
import shutil
import socket
import time

import pytest

from containers import ROOT, Containers
from machines import DEPLOY, FIRST_PORT, PATIENCE
from test_cluster import store

pytestmark = pytest.mark.skipif(not ROOT or not shutil.which("systemd-nspawn"), reason="SYSTEMD_ROOT isn't set")


@pytest.fixture
def containers(program, tmp_path):
    with Containers(tmp_path, program) as running:
        yield running


def is_served(machine, bucket, source):
    """Returns whether a request from this address gets an answer."""
    connection = http.client.HTTPConnection(machine, FIRST_PORT + bucket, timeout=3, source_address=(source, 0))
    with contextlib.closing(connection):
        try:
            connection.request("GET", "/health")
            return connection.getresponse().status == 200
        except OSError:
            return False


def until_served(containers, machine, bucket):
    end = time.monotonic() + PATIENCE
    while not is_served(machine, bucket, containers.front):
        assert time.monotonic() < end
        time.sleep(0.1)


def test_unit(containers):
    first, second = containers.machines
    containers.buckets("add", "0-1", first)
    assert [containers.property(first, it, "NRestarts") for it in (0, 1)] == ["0", "0"]
    store((first, FIRST_PORT + 1), "d7", 20)
    moved = containers.buckets("move", 1, second)
    assert "1 documents, 20 entries" in moved
    print(moved, end="")
    assert containers.property(first, 1, "ExecMainStatus") == "0"
    assert containers.run(first, "systemctl is-enabled navirotsohy@001") == "disabled"
    assert containers.property(second, 1, "NRestarts") == "0"
    store((second, FIRST_PORT + 1), "d7", 5)
    containers.run(second, "systemctl kill -s KILL navirotsohy@001")
    until_served(containers, second, 1)
    assert containers.property(second, 1, "NRestarts") == "1"
    containers.reboot(second)
    until_served(containers, second, 1)
    assert "1 documents, 25 entries" in containers.buckets("list")
    with pytest.raises(ConnectionRefusedError):
        socket.create_connection((second, 1), PATIENCE, (containers.stranger, 0))
    assert not is_served(second, 1, containers.stranger)


HEALTH = (
    """bash -c 'exec 3<>/dev/tcp/127.0.0.1/8080; printf "GET /health HTTP/1.1\\r\\nHost: h\\r\\n\\r\\n" >&3; timeout 5 cat <&3'"""
)


def until_healthy(containers, machine):
    """Returns what the server of a container answers at /health, from inside."""
    end = time.monotonic() + PATIENCE
    while "200 OK" not in (answer := containers.run(machine, HEALTH)):
        assert time.monotonic() < end, containers.run(machine, "journalctl -u sdb_server")
        time.sleep(0.2)
    return answer


def commands_of(step):
    """Returns the commands of a step of examples/deploy/README.md."""
    part = (DEPLOY / "README.md").read_text().split("## One machine")[1]
    return re.search(rf"(?ms)^{step}\. .*?```\n(.*?)^ *```", part)[1].splitlines()


def test_unit_of_one_server(containers):
    """The first step of README.md installs and starts the server of the archive."""
    machine = containers.machines[0]
    for command in commands_of(1):
        if "service.d" not in command or containers.is_unproved:
            assert containers.run(machine, f"cd /root/archive && {command.strip()} && echo made") == "made", command
    assert '"documents":0' in until_healthy(containers, machine)
    shown = containers.run(machine, "systemctl show -p NRestarts -p LimitDATA -p MainPID sdb_server").splitlines()
    assert "NRestarts=0" in shown
    assert f"LimitDATA={'infinity' if containers.is_unproved else 3 << 30}" in shown
    server = containers.run(machine, "pidof sdb_server").split()[0]
    assert "2" == containers.run(machine, f"sed -n 's/^Seccomp:.//p' /proc/{server}/status"), "the filter of system calls is off"
    containers.run(machine, "systemctl stop sdb_server")
    assert containers.run(machine, "systemctl show -p ExecMainStatus --value sdb_server") == "0"


def test_unit_refuses_an_unproved_program_without_its_drop_in(containers):
    """Without the drop-in of its archive the limit of data refuses an unproved program, and nothing else does."""
    if not containers.is_unproved:
        pytest.skip("the program is proved")
    machine = containers.machines[0]
    for command in commands_of(1):
        if "service.d" not in command:
            containers.run(machine, f"cd /root/archive && {command.strip()}")
    until_failed = "for n in $(seq 100); do systemctl is-failed sdb_server && break; sleep 0.3; done"
    assert "failed" in containers.run(machine, until_failed)
    assert "AddressSanitizer failed to allocate" in containers.run(machine, "journalctl -u sdb_server")
