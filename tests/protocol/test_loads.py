"""The load generators of bench, for a moment each: they fail if an operation isn't stored exactly once."""
import json
import shutil
import subprocess
import sys

import pytest
from support.dialogue import ROOT

sys.path.insert(0, str(ROOT / "bench"))
from programs import build_clients  # noqa: E402

pytestmark = pytest.mark.skipif(not shutil.which("cc"), reason="needs a C compiler")

CLIENTS, SECONDS, PATIENCE = "3", "0.3", 120


def figures(tmp_path, server, name, mode, *more):
    command = [build_clients(str(tmp_path), name), mode, str(server.address[1]), "-c", CLIENTS, "-s", SECONDS, *more]
    ran = subprocess.run(command, capture_output=True, text=True, timeout=PATIENCE)
    assert ran.returncode == 0, ran.stderr
    return json.loads(ran.stdout)


@pytest.mark.parametrize("mode", ["own", "one", "subscribed", "fan", "shards", "shard"])
def test_closed_loop(tmp_path, server, mode):
    assert figures(tmp_path, server, "sockets", mode, "-n", "60")["acknowledged"]["count"] > 0


# Each of 31 operations is shown to the two other clients. In groups the first and the third client have one document, and the 21
# operations of these two are shown to the other one.
COUNTS = [("count", [31]), ("documents", [31]), ("groups", [31, 21]), ("text", [31, 62]), ("board", [31, 62])]
DOCUMENTS = {"documents": "7", "groups": "2"}


@pytest.mark.parametrize("scenario, counts", COUNTS)
def test_fixed_rate(tmp_path, server, scenario, counts):
    found = figures(tmp_path, server, "load", scenario, "-r", "100", "-d", DOCUMENTS.get(scenario, "1"))
    assert [found[it]["count"] for it in ("acknowledged", "shown") if it in found] == counts


def test_storm(tmp_path, server):
    found = figures(tmp_path, server, "load", "storm")
    assert found["client"]["count"] == 3 * found["all"]["count"] > 0


def test_servers(program):
    """One server and two, with and without stores. Each generator opens its clients and compares the stored operations."""
    command = [ROOT / "bench" / "cluster", "--server", program, "--processors", "2", "--clients", "4", "--rounds", "1"]
    ran = subprocess.run([*command, "--seconds", "2"], capture_output=True, text=True, timeout=PATIENCE)
    assert ran.returncode == 0, ran.stderr
    assert len([it for it in ran.stdout.splitlines() if it.startswith("processors: 2")]) == 4
