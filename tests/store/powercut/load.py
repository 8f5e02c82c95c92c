"""Clients that edit, subscribe and fetch, while the server is recorded."""
import random
import threading
import time

from support.frames import Connection, Fault, text

TYPE = "http://sharejs.org/types/JSONv0"
PATIENCE = 20  # seconds for an answer
PAUSE = 0.2  # seconds at most between two turns of a client, so that a fast server's record has thousands of events and not more
BURSTS = [1, 1, 1, 4, 12]
SIZES = [1] * 12 + [300, 3_000, 40_000]


class Client(threading.Thread):
    """Edits a document: short and long inserts, several messages at once, duplicates, fetches. Every second one is subscribed."""

    def __init__(self, address, number, documents, seed):
        super().__init__(daemon=True)
        self.address, self.number, self.chance = address, number, random.Random(f"{seed}-{number}")
        self.key = {"c": "b", "d": f"d{number % documents}"}
        self.acknowledged, self.is_over = 0, threading.Event()

    def run(self):
        while not self.is_over.is_set():
            try:
                with Connection(self.address, PATIENCE) as connection:
                    connection.enter()
                    self.edit(connection)
            except (EOFError, OSError, Fault, ValueError):
                time.sleep(0.05)

    def edit(self, connection):
        """Edits under a new source, so that no number is used again."""
        source = f"c{self.number}-{self.chance.randrange(10**9)}"
        version, seq = connection.ask({"a": "f", **self.key})["data"]["v"], 0
        if self.number % 2:
            connection.ask({"a": "s", **self.key, "v": version})
        last = self.chance.randrange(5, 60)
        while not self.is_over.is_set() and seq < last:
            messages = list(self.messages(source, version, seq))
            seq = messages[-1]["seq"]
            if self.chance.random() < 0.1:
                messages.append(messages[-1])
            connection.send(b"".join(map(text, messages)))
            version = self.wait(connection, source, len(messages), version)
            if self.chance.random() < 0.05:
                connection.send(text({"a": "f", **self.key}))
                while connection.message()["a"] != "f":
                    pass
            time.sleep(self.chance.random() * PAUSE)

    def messages(self, source, version, seq):
        head = {"a": "op", **self.key, "v": version, "src": source}
        if version == 0:
            yield {**head, "seq": seq + 1, "create": {"type": TYPE, "data": {"t": ""}}}
            return
        for number in range(self.chance.choice(BURSTS)):
            yield {**head, "seq": seq + 1 + number, "op": [{"p": ["t", 0], "si": "x" * self.chance.choice(SIZES)}]}

    def wait(self, connection, source, count, version):
        """Waits for so many acknowledgements, and returns the version after the last operation that was received."""
        while count:
            answer = connection.message()
            if "error" in answer:
                raise Fault(answer)
            if answer["a"] == "op":
                version = max(version, answer["v"] + 1)
                if answer["src"] == source and "op" not in answer and "create" not in answer:
                    count -= 1
                    self.acknowledged += 1
        return version


def edit_for(server, seconds, clients, seed):
    """Lets clients edit for some seconds, and returns them. They end once the server has ended."""
    clients = [Client(server.address, number, max(1, clients // 2), seed) for number in range(clients)]
    for client in clients:
        client.start()
    time.sleep(seconds)
    return clients


def join(clients):
    for client in clients:
        client.is_over.set()
    for client in clients:
        client.join(PATIENCE)
    return sum(client.acknowledged for client in clients)
