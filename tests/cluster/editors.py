#!/usr/bin/python3
"""Clients of examples/client.py that edit the documents of a cluster. Its input and output are those of editors.js.

    editors.py URL BUCKETS CLIENTS DOCUMENTS STRIDE SEED PAUSE

Document N is open in the client N / STRIDE modulo CLIENTS, and every hundredth in all. It writes `ready`, and the clients edit
until it reads a line, PAUSE seconds apart on average. It writes `settled` once nothing is pending, and reads the versions of the
documents. Once the clients have these, it writes what was acknowledged, the documents, and what the clients lost."""
import asyncio
import importlib.util
import json
import pathlib
import random
import sys
import time

ROOT = pathlib.Path(__file__).resolve().parent.parent.parent
SPEC = importlib.util.spec_from_file_location("second_client", ROOT / "examples" / "client.py")
second = importlib.util.module_from_spec(SPEC)
SPEC.loader.exec_module(second)

START = {"t": "", "n": 0}
SHARED = 100  # one document in this number is open in all clients
LONGEST = 40  # characters of a text
PATIENCE = 300  # seconds for each part
acknowledged, lost = [], []


class Document(second.Document):
    """A document that notes what is acknowledged and what is lost."""

    def receive(self, message):
        if message["a"] == "op" and "error" not in message and message["src"] == self.client.source:
            acknowledged.append((self.place["d"], message["src"], message["seq"], message["v"], time.time()))
        super().receive(message)

    def restarted(self):
        lost.append((self.place["d"], "restarted"))
        super().restarted()


second.Document = Document


def note_dropped(document, contents, code):
    if code != second.CREATED:
        lost.append((document.place["d"], code))


def edit(document, chance):
    if document.shown is second.ABSENT:
        document.create(START)
        return
    text = document.shown["t"]
    if chance.random() < 0.2:
        document.submit([{"p": ["n"], "na": 1}])
    elif len(text) > chance.randrange(1, LONGEST):
        at = chance.randrange(len(text))
        document.submit([{"p": ["t", at], "sd": text[at : at + 2]}])
    else:
        document.submit([{"p": ["t", chance.randint(0, len(text))], "si": chance.choice("abc")}])


async def edits(documents, chance, pause, ending):
    while not ending.is_set():
        await asyncio.sleep(chance.uniform(0, 2 * pause))
        edit(chance.choice(documents), chance)


async def until(condition):
    async def wait():
        while not condition():
            await asyncio.sleep(0.02)

    await asyncio.wait_for(wait(), PATIENCE)


async def line():
    return await asyncio.get_running_loop().run_in_executor(None, sys.stdin.readline)


def say(value):
    print(value if isinstance(value, str) else json.dumps(value), flush=True)


async def main(url, buckets, count, total, stride, seed, pause):
    clusters = [second.Cluster(url, buckets) for _ in range(count)]
    tasks = [asyncio.create_task(it.run()) for it in clusters]
    opened = [[], *([] for _ in clusters[1:])]
    for number in range(total):
        for at, cluster in enumerate(clusters):
            if number % SHARED == 0 or number // stride % count == at:
                opened[at].append(cluster.document("b", f"d{number}", lambda it: None, note_dropped))
    documents = [it for each in opened for it in each]
    await until(lambda: all(it.is_ready for it in documents))
    for document in documents:
        if document.shown is second.ABSENT:
            document.create(START)
    await until(lambda: not any(it.sent for it in documents))
    say("ready")
    ending = asyncio.Event()
    editing = [asyncio.create_task(edits(it, random.Random(f"{seed} {at}"), pause, ending)) for at, it in enumerate(opened)]
    await line()
    ending.set()
    await asyncio.gather(*editing)
    await until(lambda: not any(it.sent or it.queue for it in documents))
    say("settled")
    versions = json.loads(await line())
    await until(lambda: all(it.version == versions[it.place["d"]] for it in documents))
    shown = [(it.place["d"], it.version, it.stored) for it in documents if it.stored == it.shown]
    say({"acknowledged": acknowledged, "documents": shown, "opened": len(documents), "lost": lost})
    for cluster in clusters:
        cluster.close()
    await asyncio.gather(*tasks)


if __name__ == "__main__":
    asyncio.run(main(sys.argv[1], *map(int, sys.argv[2:7]), float(sys.argv[7])))
