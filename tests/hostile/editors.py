"""Honest clients: each edits its copy of a document, and compares it with the server's at the end."""
import json
import random
import subprocess
import threading

from support.edits import START, apply, random_edit
from support.frames import Fault, text

PAUSE = 0.25  # seconds between two edits of one client


class Editor:
    """An honest client: it edits its copy of the document, and fetches each edit as it is stored."""

    def __init__(self, server, number, seed, documents=1):
        self.chance = random.Random(f"{seed} editor {number}")
        self.source = f"editor-{number}"
        self.place = {"c": "board", "d": str(number % documents)}
        self.number, self.version, self.document = 0, None, None
        self.early, self.acknowledged = {}, {}
        self.connection = server.enter()
        self.send(a="s")
        shown = self.until("s")["data"]
        self.version, self.document = shown["v"], shown.get("data")
        if self.document is None:
            self.submit(create={"type": "json0", "data": START})
        self.catch_up()

    def send(self, **message):
        self.connection.send(text({**message, **self.place}))

    def until(self, wanted):
        while True:
            message = self.connection.message()
            if message["a"] == "op" and ("op" in message or "create" in message):
                self.early[message["v"]] = message
            elif message["a"] == wanted:
                return message

    def catch_up(self):
        """Fetches and applies the operations stored since."""
        self.send(a="f", v=self.version)
        self.until("f")
        while self.version in self.early:
            self.process(self.early.pop(self.version))

    def process(self, entry):
        if "create" in entry:
            self.document = entry["create"]["data"]
        for component in entry.get("op", ()):
            apply(self.document, component)
        self.version += 1

    def submit(self, **content):
        self.number += 1
        self.send(a="op", v=self.version, src=self.source, seq=self.number, **content)
        answer = self.until("op")
        if "error" not in answer:
            self.acknowledged[answer["v"]] = self.number
        elif "create" not in content:
            raise Fault(f"an honest edit is refused: {answer['error']['code']}")
        self.catch_up()

    def edit(self, count):
        for _ in range(count):
            self.submit(op=[random_edit(self.chance, self.document)])

    def leave(self):
        self.connection.tear()


class ReferenceEditor(Editor):
    """An honest client whose document and edits the reference client has. It may make more edits while one is sent."""

    def __init__(self, server, number, seed, documents, program):
        self.client = None
        super().__init__(server, number, seed, documents)
        self.client = subprocess.Popen([program], stdin=subprocess.PIPE, stdout=subprocess.PIPE, text=True)
        create = {"type": "json0", "data": self.document}
        self.command(a="start", src=self.source, v=self.version, seq=self.number + 1, create=create)

    def command(self, **line):
        """Executes a command of the program. Returns the client's state after it."""
        self.client.stdin.write(json.dumps(line) + "\n")
        self.client.stdin.flush()
        state = json.loads(self.client.stdout.readline())
        if "error" in state:
            raise Fault(f"the reference client refuses {line}: {state['error']}")
        self.version, self.document, self.shown = state["v"], state["data"], state["shown"]
        return state

    def process(self, entry):
        if self.client:
            self.command(**entry)
        else:
            super().process(entry)

    def edit(self, count):
        for _ in range(count):
            self.make_edits()
            while (sent := self.command(a="send")["sent"]) is not None:
                self.make_edits()
                self.submit(op=sent["op"])

    def make_edits(self):
        """Makes an edit or none, of one or two components."""
        for _ in range(self.chance.randrange(2)):
            self.command(a="edit", op=[random_edit(self.chance, self.shown)])

    def leave(self):
        super().leave()
        self.client.stdin.close()
        self.client.wait()


def enter_editors(server, count, seed, documents=1, program=None):
    """Returns editors. The last one of each document is a reference client, if there is a program of it."""
    editors = [Editor(server, it, seed, documents) for it in range(count - bool(program) * documents)]
    references = range(len(editors), count)
    return editors + [ReferenceEditor(server, it, seed, documents, program) for it in references]


class Editing:
    """Editors that edit until they are stopped, each in a thread."""

    def __init__(self, editors):
        self.editors, self.ending, self.faults = editors, threading.Event(), []
        self.threads = [threading.Thread(target=self._edit, args=(it,), daemon=True) for it in editors]

    def _edit(self, editor):
        try:
            while not self.ending.wait(PAUSE):
                editor.edit(1)
        except Exception as fault:
            self.faults.append(f"{editor.source}: {fault or type(fault).__name__}")

    def __enter__(self):
        for thread in self.threads:
            thread.start()
        return self

    def __exit__(self, *_):
        self.ending.set()
        for thread in self.threads:
            thread.join()


def log_of(server, place):
    """Returns the source and number of each stored operation."""
    with server.enter() as connection:
        connection.send(text({"a": "f", "v": 0, **place}))
        log = []
        while (message := connection.message())["a"] == "op":
            log.append((message["src"], message["seq"]))
        return log


def differences(server, editors):
    """Yields a line for each difference between the editors of one document and the server. Each editor catches up first."""
    for editor in editors:
        editor.catch_up()
    place = editors[0].place
    with server.enter() as connection:
        shown = connection.ask({"a": "f", **place})["data"]
    log = log_of(server, place)
    if len(log) != shown["v"] or len(set(log)) != len(log):
        yield f"document {place['d']}: version {shown['v']}, and {len(set(log))} operations in a log of {len(log)}"
    for editor in editors:
        if (editor.version, editor.document) != (shown["v"], shown["data"]):
            yield f"{editor.source} has another document at {editor.version} than the server at {shown['v']}"
        if any(log[version] != (editor.source, number) for version, number in editor.acknowledged.items()):
            yield f"{editor.source}: an acknowledged edit isn't at its version"
