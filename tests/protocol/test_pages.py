"""What an operator reads: /health, /metrics and the log."""
import json
import re
import time

from support.frames import Connection, handshake
from support.server import END, START, Server

JSON0 = "http://sharejs.org/types/JSONv0"
CREATE = {"a": "op", "c": "b", "d": "1", "v": None, "src": "x", "seq": 1, "create": {"type": JSON0, "data": {"n": 1}}}
EDIT = {"a": "op", "c": "b", "d": "1", "v": 1, "src": "x", "seq": 2, "op": [{"p": ["n"], "na": 1}]}
DATE = r"(Mon|Tue|Wed|Thu|Fri|Sat|Sun), \d\d [A-Z][a-z]{2} \d{4} \d\d:\d\d:\d\d GMT"


def fetch(server, path, method="GET"):
    """Returns the status, the head and the body of an answer. The server ends it."""
    with server.connect() as connection:
        connection.send(f"{method} {path} HTTP/1.1\r\nHost: localhost\r\n\r\n".encode())
        answer = b""
        while piece := connection.socket.recv(65_536):
            answer += piece
    head, body = answer.decode().split("\r\n\r\n", 1)
    length = int(re.search(r"^Content-Length: (\d+)$", head.replace("\r", ""), re.M)[1])
    assert body == "" if method == "HEAD" else len(body) == length
    return int(head.split(" ")[1]), head, body


def metrics(server):
    """Returns each sample of /metrics. Each is one of a metric with a type and a line of help."""
    status, head, body = fetch(server, "/metrics")
    assert status == 200 and "text/plain; version=0.0.4" in head
    samples = dict(line.rsplit(" ", 1) for line in body.splitlines() if not line.startswith("#"))
    types = dict(re.findall(r"^# TYPE (\S+) (gauge|counter|histogram)$", body, re.M))
    assert set(re.findall(r"^# HELP (\S+) .*\.$", body, re.M)) == set(types)
    assert {metric_of(name, types) for name in samples} == set(types)
    return {name: float(value) for name, value in samples.items()}


def metric_of(sample, types):
    name = re.match(r"[a-z_]+", sample)[0]
    return name if name in types else re.sub(r"_(bucket|sum|count)$", "", name)


def test_health_and_metrics_count_what_the_server_does(program):
    with Server(program, "--clients", "1") as server:
        status, head, body = fetch(server, "/health")
        empty = json.loads(body)
        assert status == 200 and "application/json" in head
        assert (empty["clients"], empty["documents"], empty["entries"]) == (0, 0, 0)
        with server.enter() as client:
            client.ask(CREATE)
            client.ask(CREATE)  # the same submission, which is stored once
            client.ask(EDIT)
            client.ask({**EDIT, "v": 9, "seq": 3})
            health = json.loads(fetch(server, "/health")[2])
            assert list(health) == ["version", "clients", "documents", "entries", "uptime"]
            assert (health["clients"], health["documents"], health["entries"]) == (1, 1, 2)
            counted = metrics(server)
            assert counted["navirotsohy_messages_total"] == 4
            assert counted["navirotsohy_acknowledgements_total"] == 3
            assert counted["navirotsohy_entries"] == 2
            assert counted["process_resident_memory_bytes"] > 1_000_000
            refusal = "ERR_OP_VERSION_NEWER_THAN_CURRENT_SNAPSHOT"
            assert counted[f'navirotsohy_refusals_total{{code="{refusal}"}}'] == 1
            assert counted['navirotsohy_refusals_total{code="ERR_LIMIT"}'] == 0
            assert counted["navirotsohy_received_bytes_total"] > 400
            assert counted["navirotsohy_sent_bytes_total"] > 200
            assert counted['navirotsohy_sessions_ended_total{reason="closed"}'] == 0
            assert abs(counted["process_start_time_seconds"] - time.time()) < START
            assert "navirotsohy_saving" not in counted
            with server.connect() as second:
                second.upgrade()
                assert second.status() == 1013
        wait_until(lambda: metrics(server)["navirotsohy_clients"] == 0)
        counted = metrics(server)
        assert sum(counted[name] for name in counted if "sessions_ended" in name) == 1
        assert counted['navirotsohy_clients_refused_total{reason="no_room"}'] == 1


def test_subscriptions_are_counted(program):
    """Those of two sessions, of which one subscribes to two documents, and one twice to the same; an end of each kind."""
    with Server(program) as server, server.enter() as first:
        with server.enter() as second:
            for client, document in [(first, "1"), (second, "1"), (second, "1"), (second, "2")]:
                client.ask({"a": "s", "c": "b", "d": document})
            wait_until(lambda: metrics(server)["navirotsohy_subscriptions"] == 3)
            second.ask({"a": "u", "c": "b", "d": "1"})
            wait_until(lambda: metrics(server)["navirotsohy_subscriptions"] == 2)
        wait_until(lambda: metrics(server)["navirotsohy_subscriptions"] == 1)


def wait_until(holds):
    end = time.monotonic() + END
    while not holds():
        assert time.monotonic() < end
        time.sleep(0.05)


def test_a_store_counts_rounds_and_saved_entries(program, tmp_path):
    with Server(program, "--store", str(tmp_path / "store")) as server:
        with server.enter() as client:
            client.ask(CREATE)
            client.ask(EDIT)
        health = json.loads(fetch(server, "/health")[2])
        assert (health["saving"], health["entries"]) == (True, 2)
        counted = metrics(server)
        assert (counted["navirotsohy_saving"], counted["navirotsohy_unsaved_entries"]) == (1, 0)
        assert (counted["navirotsohy_entries"], counted["navirotsohy_save_failures_total"]) == (2, 0)
        assert counted["navirotsohy_rounds_total"] == counted["navirotsohy_round_seconds_count"] >= 2
        assert counted["navirotsohy_round_entries_sum"] == 2
        assert counted["navirotsohy_hold_seconds_count"] >= 2
        assert counted["navirotsohy_acknowledgements_total"] == 2
        for name in ["round_seconds", "round_entries", "hold_seconds"]:
            buckets = [counted[it] for it in counted if it.startswith(f"navirotsohy_{name}_bucket")]
            assert len(buckets) == 13 and buckets == sorted(buckets)
            assert buckets[-1] == counted[f"navirotsohy_{name}_count"]


def test_queries_and_heads_are_answered(program):
    with Server(program) as server:
        assert json.loads(fetch(server, "/health?a=1&b")[2])["documents"] == 0
        assert "navirotsohy_entries 0" in fetch(server, "/metrics?a")[2]
        for path in ["/health", "/metrics"]:
            assert fetch(server, path, "HEAD")[0] == 200


def test_other_requests_need_an_upgrade(program):
    with Server(program) as server:
        for method, path in [("GET", "/"), ("POST", "/health"), ("HEAD", "/"), ("GET", "/health/"), ("GET", "/?/health")]:
            assert fetch(server, path, method)[0] == 426


def logged(program, *options, fields=""):
    """Returns the log of one session and of one refused client."""
    with Server(program, "--log", "--clients", "1", "--until-eof", *options) as server:
        with Connection(server.address) as client:
            client.send(handshake().replace(b"\r\n\r\n", f"\r\n{fields}\r\n".encode()))
            while b"init" not in client.received:
                client.read_more()
            with server.connect() as second:
                second.upgrade()
                assert second.status() == 1013
        return server.process.communicate(timeout=END)[1]


def test_the_log_has_times_and_addresses(program):
    log = logged(program)
    assert re.search(rf'^{DATE} connection 1 begins: source "s1", peer 127\.0\.0\.1:\d+$', log, re.M)
    assert re.search(rf"^{DATE} connection refused: no more clients are served, peer 127\.0\.0\.1:\d+$", log, re.M)
    assert re.search(rf'^{DATE} connection 1 ends: source "s1", messages 0, operations 0, ', log, re.M)


def test_the_log_has_the_address_that_a_proxy_forwards(program):
    forwarded = "X-Forwarded-For: 192.0.2.1\r\nx-forwarded-for: 192.0.2.2, 2001:db8::7\r\n"
    assert 'source "s1", peer 2001:db8::7\n' in logged(program, "--proxy", fields=forwarded)
    assert 'source "s1", peer 127.0.0.1:' in logged(program, fields=forwarded)
    for fields in ["", "X-Forwarded-For: unknown\r\n"]:
        assert 'source "s1", peer 127.0.0.1:' in logged(program, "--proxy", fields=fields)


def test_memory_above_its_limit(program, tmp_path):
    """The server starts with what is stored, and answers reads and duplicates. It stores nothing."""
    options = ["--until-eof", "--store", tmp_path / "store"]
    with Server(program, *options, "--memory", "1000000") as server, server.enter() as client:
        assert client.ask(CREATE)["v"] == 0
        assert json.loads(fetch(server, "/health")[2])["storing"] is True
        assert metrics(server)["navirotsohy_storing"] == 1
        server.stop()
    with Server(program, *options, "--memory", "1") as server, server.enter() as client:
        wait_until(lambda: json.loads(fetch(server, "/health")[2])["storing"] is False)
        assert metrics(server)["navirotsohy_storing"] == 0 and metrics(server)["navirotsohy_memory_limit_bytes"] == 1_048_576
        assert client.ask(EDIT)["error"]["code"] == "ERR_OUT_OF_MEMORY"
        assert client.ask({"a": "f", "c": "b", "d": "1"})["data"] == {"v": 1, "data": {"n": 1}}
        assert client.ask(CREATE)["v"] == 0
        server.stop()
    with Server(program, *options) as server, server.enter() as client:
        assert client.ask(EDIT)["v"] == 1
        assert "storing" not in json.loads(fetch(server, "/health")[2])
