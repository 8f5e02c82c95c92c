"""The client of examples/client.py: by the vectors, and by clients that edit one document and lose their connections."""
import asyncio
import importlib.util
import json
import pathlib
import random
import subprocess

import pytest

from support.dialogue import ROOT
from support.edits import any_edit
from support.frames import text
from support.server import Server

pytest.importorskip("websockets")

# tests/clients has another module `client`
SPEC = importlib.util.spec_from_file_location("second_client", ROOT / "examples" / "client.py")
second = importlib.util.module_from_spec(SPEC)
SPEC.loader.exec_module(second)

VECTORS = json.loads((ROOT / "client" / "test" / "vectors" / "pairs.json").read_text())
START = {"n": 1, "t": "ab😀cd", "l": [1, "x", {"k": "v"}], "a": {"b": "t"}}
PATIENCE = 120  # seconds until all clients have the same document


# Vectors --------------------------------------------------------------------------------------------------------------


def applied(document, operation):
    """Returns the document after the operation as the vectors have it: null if it is refused."""
    try:
        return operation and {"data": second.apply_content(document["data"], {"op": operation})} or document
    except second.Refused:
        return None


def results(vector):
    document = {"data": vector["document"]}
    try:
        left, right = second.cross(vector["left"], vector["right"])
    except second.Refused:
        left = right = None
    after_left = applied(document, vector["left"])
    return {
        "afterLeft": after_left,
        "afterRight": applied(document, vector["right"]),
        "crossedLeft": left,
        "crossedRight": right,
        "afterBoth": applied(after_left, right) if after_left and right is not None else None,
    }


def test_vectors():
    wrong = []
    for number, vector in enumerate(VECTORS):
        found = results(vector)
        # JSON texts distinguish 1 and true
        if any(json.dumps(found[it], sort_keys=True) != json.dumps(vector[it], sort_keys=True) for it in found):
            wrong.append(number)
    assert not wrong and len(VECTORS) > 1_000


def test_long_operations():
    left = [{"p": ["t", 0], "sd": "x" * 600}]
    right = [{"p": ["t", 2 * it + 1], "si": "-"} for it in range(299)]
    mine, other = second.cross(left, right)
    assert len(mine) == 300
    document = {"t": "x" * 600}
    orders = [applied(applied({"data": document}, left), other), applied(applied({"data": document}, right), mine)]
    assert orders == [{"data": {"t": "-" * 299}}] * 2


def test_the_bucket_of_a_document_is_the_checksum_of_its_id():
    cluster = second.Cluster("ws://host", 16)
    documents = [cluster.document("board", it) for it in ("123456789", "é😀", "d5")]
    assert [it.client.url for it in documents] == [f"ws://host/b/{it}" for it in (6, 6, 15)]
    assert documents[0].client is documents[1].client and len({it.client.source for it in documents}) == 1


# Edits that are checked, and exceptions -------------------------------------------------------------------------------


class Outgoing(list):
    put_nowait = list.append

    def __bool__(self):
        return True


def loaded(data):
    """Returns a document that is loaded at version 2, and what its client drops. No connection is needed."""
    client, dropped = second.Client("ws://none", "me"), []
    client.outgoing = Outgoing()
    document = client.document("b", "1", on_dropped=lambda it, contents, code: dropped.append((contents, code)))
    document.receive({"a": "s", **document.place, "data": {"v": 2, "data": data}})
    document.receive({"a": "op", **document.place, "v": 1, "src": "other", "seq": 1, "op": []})
    document.receive({"a": "f", **document.place})
    assert document.is_ready
    del client.outgoing[:]
    return document, dropped


def acknowledge(document, version):
    document.receive({"a": "op", **document.place, "v": version, "src": "me", "seq": document.sent["seq"]})


def test_text_beyond_ascii_counts_its_bytes():
    document, dropped = loaded({"n": 1, "t": ""})
    document.submit([{"p": ["n"], "na": 1}])
    for inserted in ("é" * 180_000, "é" * 500_000, "x" * 1_000):
        document.submit([{"p": ["t", 0], "si": inserted}])
    document.submit([{"p": ["n"], "na": 5}])
    with pytest.raises(second.Refused):
        document.submit([{"p": ["t", 0], "si": "é" * 524_288}])
    version = 2
    while document.sent:
        assert len(document.client.outgoing[-1].encode()) <= second.LONGEST_MESSAGE
        acknowledge(document, version)
        version += 1
    assert not dropped and len(document.client.outgoing) == 4
    assert document.stored == document.shown == {"n": 7, "t": "x" * 1_000 + "é" * 680_000}


def test_short_edits_are_joined():
    document, _ = loaded({"t": ""})
    for _ in range(300):
        document.submit([{"p": ["t", 0], "si": "é"}])
    assert len(document.queue) == 1
    acknowledge(document, 2)
    assert len(json.loads(document.client.outgoing[-1])["op"]) == 256
    acknowledge(document, 3)
    acknowledge(document, 4)
    assert document.stored == {"t": "é" * 300} and not document.sent


@pytest.mark.parametrize(
    "operation",
    [
        [{"p": ["n", "k"], "oi": 1}],
        [{"p": ["t", "k"], "oi": 1}],
        [{"p": ["n", 0], "ld": 1}],
        [{"p": ["l", 1], "ld": None}],
        [{"p": ["o", "k"], "zz": 1}],
        [{"p": ["o", "k"], "oi": 1.5}],
        [{"p": ["o", "k"], "oi": {1: 2}}],
        [{"p": ["o", "k"], "oi": second.MAX + 1}],
        [{"p": ["o", "k"], "oi": ["\ud83d"]}],
        [{"p": ["o", 1], "oi": 1}],
        [{"p": ["o"] * 51, "oi": 1}],
        [{"p": [], "oi": 1}],
        [{"p": ["t", -1], "si": "x"}],
        [{"p": ["t", True], "si": "x"}],
        [{"p": ["t", 0], "si": 1}],
        [{"p": ["t", 0], "si": "x", "sd": ""}],
        [{"p": ["t", 1], "si": "x"}],
        [{"p": ["n"], "na": True}],
        [{"p": ["n"], "na": second.MAX}],
        [{"p": "n", "na": 1}],
        [{"oi": 1}],
        [None],
        [{"p": ["n"], "na": 1}] * 257,
        None,
    ],
)
def test_wrong_edit_is_refused_before_it_is_shown(operation):
    document, dropped = loaded({"n": 1, "t": "", "o": {}, "l": [1]})
    with pytest.raises(second.Refused):
        document.submit(operation)
    assert document.shown is document.stored and not document.queue and not dropped
    assert list(document.client.outgoing) == []


def test_refusal_that_is_expected_and_an_acknowledgement():
    """The client expects that a sum is refused, and the server has stored the submission as a duplicate."""
    document, dropped = loaded({"n": second.MAX - 1})
    document.submit([{"p": ["n"], "na": 1}])
    document.receive({"a": "op", **document.place, "v": 2, "src": "other", "seq": 2, "op": [{"p": ["n"], "na": 1}]})
    assert len(dropped) == 1 and document.sent and not document.now
    document.receive({"a": "op", **document.place, "v": 3, "src": "me", "seq": 1})
    assert json.loads(document.client.outgoing[-1]) == {"a": "f", **document.place, "v": 3}
    document.receive({"a": "op", **document.place, "v": 3, "src": "me", "seq": 1, "op": []})
    document.receive({"a": "f", **document.place})
    document.submit([{"p": ["n"], "na": -1}])
    assert json.loads(document.client.outgoing[-1])["v"] == 4
    acknowledge(document, 4)
    assert document.stored == {"n": second.MAX - 1} and not document.sent


@pytest.mark.parametrize("greeting", ['{"a":"init","id":"s1","protocol":1}', "[1]", '{"a":"init"}'])
def test_exception_of_a_connection_ends_the_run(greeting):
    async def serve(socket):
        await socket.send(greeting)
        await socket.wait_closed()

    async def play():
        async with second.websockets.serve(serve, "127.0.0.1", 0) as server:
            client = second.Client(f"ws://127.0.0.1:{server.sockets[0].getsockname()[1]}")
            task = asyncio.create_task(client.run())
            while not client.outgoing and not task.done():
                await asyncio.sleep(0.01)
            if client.outgoing:
                client.outgoing.put_nowait(0)  # no socket can send it
            await task

    with pytest.raises(TypeError if "protocol" in greeting else RuntimeError):
        asyncio.run(asyncio.wait_for(play(), 20))


# The server's transform -----------------------------------------------------------------------------------------------

PAIRS = 400


def random_operation(chance, document):
    """Returns up to four components, each made for the document after the ones before."""
    operation = []
    for _ in range(chance.randint(1, 4)):
        component = any_edit(chance, document)
        if component:
            operation.append(component)
            document = second.apply_component(document, component)
    return operation


def pair_lines(number, earlier, later):
    """Returns messages that store an operation and then a concurrent one, and list the second as it is stored."""
    place = {"c": "pairs", "d": str(number)}
    contents = {"create": {"type": "json0", "data": START}}, {"op": earlier}, {"op": later}
    yield from ({"a": "op", **place, "v": min(seq, 1), "seq": seq, **it} for seq, it in enumerate(contents))
    yield from ({"a": "f", **place, **it} for it in ({"v": 2}, {}))


def test_agreement_with_the_server(program, seed):
    """The operation that arrives later is the left one."""
    chance = random.Random(f"{seed} pairs")
    pairs = [(random_operation(chance, START), random_operation(chance, START)) for _ in range(PAIRS)]
    lines = [json.dumps(it) for number, pair in enumerate(pairs) for it in pair_lines(number, *pair)]
    ran = subprocess.run([program, "--lines"], input="\n".join(lines) + "\n", capture_output=True, text=True, timeout=PATIENCE)
    answers = [json.loads(it) for it in ran.stdout.splitlines()]
    assert not [it for it in answers if "error" in it]
    stored = {int(it["d"]): it["op"] for it in answers if it.get("v") == 2 and "op" in it}
    shown = {int(it["d"]): it["data"]["data"] for it in answers if it["a"] == "f" and "data" in it}
    for number, (earlier, later) in enumerate(pairs):
        left, right = second.cross(later, earlier)
        assert json.dumps(left, sort_keys=True) == json.dumps(stored[number], sort_keys=True), (earlier, later)
        assert second.apply_content(second.apply_content(START, {"op": later}), {"op": right}) == shown[number]


# Clients --------------------------------------------------------------------------------------------------------------


class Running:
    """Clients of one server, each with the document board/1."""

    def __init__(self, url, count, seed):
        self.chance = random.Random(seed)
        self.clients = [second.Client(url, first_pause=0.02) for _ in range(count)]
        self.dropped = []
        self.documents = [it.document("board", "1", on_dropped=self.drop) for it in self.clients]

    def drop(self, document, contents, code):
        self.dropped.append((code, contents))

    async def __aenter__(self):
        self.tasks = [asyncio.create_task(it.run()) for it in self.clients]
        await self.until(lambda: all(it.is_ready for it in self.documents))
        return self

    async def __aexit__(self, *_):
        for client in self.clients:
            client.close()
        await asyncio.wait_for(asyncio.gather(*self.tasks, return_exceptions=True), PATIENCE)

    async def until(self, condition):
        async def wait():
            while not condition():
                for task in self.tasks:
                    assert not task.done(), task.exception()
                await asyncio.sleep(0.01)

        await asyncio.wait_for(wait(), PATIENCE)

    async def settled(self):
        """Waits until nothing is pending and all have one version."""
        await self.until(lambda: not any(it.sent or it.queue or it.early for it in self.documents))
        await self.until(lambda: len({it.version for it in self.documents}) == 1)

    def edit(self, document):
        if document.shown is second.ABSENT:
            document.create(START)
        elif self.chance.random() < 0.01:
            document.delete()
        else:
            component = any_edit(self.chance, document.shown)
            if component:
                document.submit([component])


def stored(server):
    with server.enter() as connection:
        connection.send(text({"a": "f", "c": "board", "d": "1", "v": 0}))
        names = []
        while (message := connection.message())["a"] == "op":
            names.append((message["src"], message["seq"]))
        return connection.ask({"a": "f", "c": "board", "d": "1"})["data"], names


@pytest.mark.parametrize("run", range(3))
def test_clients_converge(server, seed, run):
    """Four clients make 200 edits each, some while they are disconnected."""

    async def play():
        async with Running(server.url, 4, f"{seed} {run}") as running:
            for _ in range(800):
                at = running.chance.randrange(4)
                running.edit(running.documents[at])
                if running.chance.random() < 0.05 and running.clients[at].outgoing:
                    running.clients[at].reconnect()
                if running.chance.random() < 0.3:
                    await asyncio.sleep(running.chance.random() / 100)
            await running.settled()
            return running.documents, running.dropped

    documents, dropped = asyncio.run(play())
    shown, names = stored(server)
    assert len(names) == len(set(names)) == shown["v"]
    for document in documents:
        assert (document.version, document.shown) == (shown["v"], shown.get("data", second.ABSENT))
        assert document.stored == document.shown
    assert all(code in (second.CREATED, second.DELETED, second.MISSING) for code, _ in dropped)


def test_offline_edits(server):
    """A client edits while it is disconnected. Its edits are shown at once and stored later."""

    async def play():
        async with Running(server.url, 2, "offline") as running:
            ours, theirs = running.documents
            ours.create({"t": "ab", "n": 0})
            await running.settled()
            running.clients[0].reconnect()
            ours.submit([{"p": ["t", 1], "si": "-"}])
            ours.submit([{"p": ["n"], "na": 2}])
            assert ours.shown == {"t": "a-b", "n": 2}
            theirs.submit([{"p": ["t", 0], "sd": "ab"}, {"p": ["n"], "na": 5}])
            await running.settled()
            return ours.shown, theirs.shown, running.dropped

    assert asyncio.run(play()) == ({"t": "-", "n": 7}, {"t": "-", "n": 7}, [])


def test_removed_values_are_completed(server):
    """An `oi` on an existing key becomes a replacement, and an `od` of an absent key is left out."""

    async def play():
        async with Running(server.url, 2, "rule") as running:
            ours, theirs = running.documents
            ours.create({"k": "ab"})
            await running.settled()
            ours.submit([{"p": ["k"], "oi": "x"}, {"p": ["none"], "od": 1}])
            theirs.submit([{"p": ["k", 0], "si": "z"}])
            await running.settled()
            return ours.shown == theirs.shown

    assert asyncio.run(play())
    assert not [it for it in stored(server)[1] if it[1] > 2]


def test_sum_that_gets_too_large(server):
    async def play():
        async with Running(server.url, 2, "sum") as running:
            ours, theirs = running.documents
            ours.create({"n": second.MAX - 1})
            await running.settled()
            ours.submit([{"p": ["n"], "na": 1}])
            theirs.submit([{"p": ["n"], "na": 1}])
            await running.settled()
            return ours.shown, theirs.shown, [code for code, _ in running.dropped]

    assert asyncio.run(play()) == ({"n": second.MAX}, {"n": second.MAX}, [second.NOT_APPLIED])


def test_restarted_server(program):
    """A restarted server has lost the document: the client drops pending edits and starts anew."""

    async def play(first):
        host, port = first.address
        async with Running(first.url, 1, "restart") as running:
            (document,) = running.documents
            document.create({"n": 1})
            await running.settled()
            first.release()
            await running.until(lambda: not running.clients[0].outgoing)
            document.submit([{"p": ["n"], "na": 1}])
            with Server(program, address=f"{host}:{port}") as again:
                with again.enter() as other:
                    for seq in range(3):
                        content = {"op": []} if seq else {"create": {"type": "json0", "data": {"m": 1}}}
                        other.ask({"a": "op", "c": "board", "d": "1", "src": "other", "seq": seq, **content})
                await running.until(lambda: document.is_ready and document.version == 3)
                return document.shown, running.dropped

    with Server(program) as first:
        shown, dropped = asyncio.run(play(first))
    assert shown == {"m": 1}
    assert dropped == [(second.RESTARTED, [{"op": [{"p": ["n"], "na": 1}]}])]


def test_closed_documents(server, monkeypatch):
    """A document is closed once its edits are stored, and the connection after its last document. Both can be opened again."""
    monkeypatch.setattr(second, "IDLE", 0.3)

    async def until(condition):
        while not condition():
            await asyncio.sleep(0.01)

    async def play():
        cluster = second.Cluster(server.url, 16, first_pause=0.02)
        task = asyncio.create_task(cluster.run())
        first, same, other = (cluster.document("board", it) for it in ("d5", "d15", "1"))
        assert first.client is same.client and first.client is not other.client
        await until(lambda: first.is_ready and same.is_ready and other.is_ready)
        first.create({"n": 0})
        first.submit([{"p": ["n"], "na": 1}])
        first.client.reconnect()
        first.close()
        assert cluster.document("board", "d5") is first
        first.close()
        await until(lambda: not first.is_ready and first.client.outgoing)
        assert list(first.client.documents.values()) == [same]
        with pytest.raises(second.Refused):
            first.submit([{"p": ["n"], "na": 1}])
        await asyncio.sleep(1)
        assert first.client.outgoing
        same.close()
        same.close()
        await until(lambda: not first.client.outgoing)
        assert not first.client.documents and other.client.outgoing
        again = cluster.document("board", "d5")
        await until(lambda: again.is_ready)
        again.submit([{"p": ["n"], "na": 1}])
        await until(lambda: not again.sent)
        cluster.close()
        await asyncio.gather(task)
        return again.client is first.client, again.version, again.stored

    assert asyncio.run(asyncio.wait_for(play(), PATIENCE)) == (True, 3, {"n": 2})


def test_length():
    source = pathlib.Path(second.__file__).read_text()
    assert len(source.splitlines()) <= 525  # of which 60 check edits, 38 are those of a cluster, and 18 close documents
