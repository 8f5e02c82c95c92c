"""The page with two clients, in headless Chromium: edits concurrently with others, and compares.

    /usr/bin/python3 tests/clients/page.py ADDRESS DOCUMENT [EDITS] [CLIENTS] [SEED]

The script uses the page's fields and buttons (page_edits.js), in both views. After its edits it sets a key `finished-page`
in the document; once CLIENTS of these keys are set, no client edits. Then it compares the document and the screen of both
views with a fetch over a new connection, and their document at every fifth version with the server's. Before that, on other
documents, it tests that a caret stays while the other view writes, that the page can be used by the keyboard alone, that
nothing is outside a screen of 320 pixels, and that client/src can be imported as a module. On a difference it prints a
line, and the status is 1.

Needs python3-websockets and chromium.
"""
import asyncio
import contextlib
import functools
import http.server
import itertools
import json
import pathlib
import shutil
import signal
import subprocess
import sys
import tempfile
import threading
import urllib.parse
import urllib.request

import websockets

from client import difference, differences_before, digest, fetch, told

HERE = pathlib.Path(__file__).resolve().parent
PAGE = HERE.parent.parent / "examples" / "index.html"
NAME = "page"
PATIENCE = 300  # seconds for one answer of the page
CARET = ["zero one two three four", "two"]


def address_of_page(server, document):
    return f"{PAGE.as_uri()}?{urllib.parse.urlencode({'server': server, 'document': document})}"


# The browser ----------------------------------------------------------------------------------------------------------


@contextlib.asynccontextmanager
async def browser(*options):
    folder = tempfile.mkdtemp(prefix="page-")
    command = ["chromium", "--headless=new", "--no-sandbox", "--disable-gpu", "--disable-dev-shm-usage"]
    command += ["--remote-debugging-port=0", f"--user-data-dir={folder}", *options, "about:blank"]
    process = subprocess.Popen(command, stdout=subprocess.DEVNULL, stderr=subprocess.DEVNULL)
    try:
        yield await first_tab(pathlib.Path(folder) / "DevToolsActivePort")
    finally:
        process.terminate()
        process.wait()
        shutil.rmtree(folder, ignore_errors=True)


# Returns the debugging address of a browser's first tab, from the file to which it has written its port.
async def first_tab(port_file):
    for _ in range(600):
        await asyncio.sleep(0.05)
        if port_file.exists() and port_file.read_text().count("\n"):
            port = port_file.read_text().split("\n")[0]
            with urllib.request.urlopen(f"http://127.0.0.1:{port}/json") as tabs:
                return next(tab["webSocketDebuggerUrl"] for tab in json.load(tabs) if tab["type"] == "page")
    raise RuntimeError("chromium doesn't start")


class Tab:
    def __init__(self, socket):
        self.socket = socket
        self.numbers = itertools.count(1)

    async def call(self, method, **parameters):
        number = next(self.numbers)
        await self.socket.send(json.dumps({"id": number, "method": method, "params": parameters}))
        while True:
            message = json.loads(await asyncio.wait_for(self.socket.recv(), PATIENCE))
            if message.get("id") == number:
                assert "error" not in message, message
                return message["result"]

    async def evaluate(self, expression):
        answer = await self.call("Runtime.evaluate", expression=expression, awaitPromise=True, returnByValue=True)
        if "exceptionDetails" in answer:
            raise RuntimeError(answer["exceptionDetails"]["exception"].get("description", "the page has thrown"))
        return answer["result"].get("value")

    async def open(self, server, document):
        await self.call("Page.navigate", url=address_of_page(server, document))
        while not await self.evaluate("document.readyState === 'complete' && typeof views === 'object'"):
            await asyncio.sleep(0.05)
        await self.evaluate((HERE / "page_edits.js").read_text())

    async def press(self, key, code=0, alt=False):
        parameters = {"key": key, "code": key, "windowsVirtualKeyCode": code, "modifiers": 1 if alt else 0}
        text = {"text": "\r"} if key == "Enter" else {}
        await self.call("Input.dispatchKeyEvent", type="keyDown", **parameters, **text)
        await self.call("Input.dispatchKeyEvent", type="keyUp", **parameters)

    # Presses Tab until the focused element fits.
    async def tab_to(self, selector, most=60):
        for _ in range(most):
            await self.press("Tab", 9)
            if await self.evaluate(f"document.activeElement.matches({json.dumps(selector)})"):
                return
        raise RuntimeError(f"Tab never comes to {selector}")


# By keyboard ---------------------------------------------------------------------------------------------------------

# `idsOf` and `views` are global names of page.js
CARD = """(({ columns, cards }) => columns.map((_, column) =>
    idsOf({ cards }, column).findIndex((id) => cards[id].title === 'by keys')))(views[0].shared.data)"""
VOTES = "(({ cards }) => cards[idsOf({ cards }, 1)[0]].votes)(views[0].shared.data)"


# Adds a card, writes it, moves it to the next column and up, votes for it and removes it; disconnects and connects a view.
async def faults_by_keys(tab, address, document):
    await tab.open(address, document)
    await tab.evaluate("pageEdits.opened()")
    await tab.tab_to(".column .add")
    await tab.press("Enter", 13)
    await tab.call("Input.insertText", text="by keys")
    steps = [(await tab.evaluate(CARD), [2, -1, -1])]
    await tab.press("ArrowRight", 39, alt=True)
    steps.append((await tab.evaluate(CARD), [-1, 1, -1]))
    await tab.press("ArrowUp", 38, alt=True)
    steps.append((await tab.evaluate(CARD), [-1, 0, -1]))
    await tab.tab_to(".vote")
    await tab.press("Enter", 13)
    steps.append((await tab.evaluate(VOTES), 1))
    await tab.press("Delete", 46, alt=True)
    steps.append((await tab.evaluate(CARD), [-1, -1, -1]))
    steps.append((await tab.evaluate("document.activeElement.matches('.card .title')"), True))
    await tab.tab_to(".connection")
    await tab.press("Enter", 13)
    steps.append((await tab.evaluate("views[1].client.state"), "disconnected"))
    await tab.press("Enter", 13)
    await tab.evaluate("pageEdits.opened()")
    numbered = enumerate(steps, 1)
    return [f"by keys, step {at}: {found}, and not {wanted}" for at, (found, wanted) in numbered if found != wanted]


# On a narrow screen --------------------------------------------------------------------------------------------------

OUTSIDE = """[...document.querySelectorAll('body *')].filter((one) => {
    const { left, right, width } = one.getBoundingClientRect();
    return width > 0 && (left < 0 || right > innerWidth);
}).map((one) => one.className || one.tagName)"""


async def faults_on_narrow(tab, width=320):
    await tab.call("Emulation.setDeviceMetricsOverride", width=width, height=640, deviceScaleFactor=1, mobile=False)
    outside = await tab.evaluate(OUTSIDE)
    wide = await tab.evaluate("document.documentElement.scrollWidth")
    await tab.call("Emulation.clearDeviceMetricsOverride")
    return [f"on a screen of {width} pixels {outside} lie outside, the page has {wide}"] if outside or wide > width else []


# As a module ---------------------------------------------------------------------------------------------------------


class Quiet(http.server.SimpleHTTPRequestHandler):
    extensions_map = {".mjs": "text/javascript", ".js": "text/javascript", ".html": "text/html", "": "text/plain"}

    def log_message(self, *_):
        pass


MODULE = "import('/client/src/index.js').then((api) => new api.Client('ws://x', { connect: false }).state)"


# A browser imports modules only over HTTP.
async def faults_of_module(tab):
    files = http.server.ThreadingHTTPServer(("127.0.0.1", 0), functools.partial(Quiet, directory=PAGE.parent.parent))
    threading.Thread(target=files.serve_forever, daemon=True).start()
    try:
        await tab.call("Page.navigate", url=f"http://127.0.0.1:{files.server_port}/examples/style.css")
        while not await tab.evaluate("document.readyState === 'complete' && location.pathname.endsWith('/style.css')"):
            await asyncio.sleep(0.05)
        state = await tab.evaluate(MODULE)
        return [] if state == "disconnected" else [f"the module's client is {state}"]
    finally:
        files.shutdown()


# Returns what a view shows of a document: its text, and its columns with the title, tick and votes of each card.
def as_shown(data):
    members = ("title", "done", "votes")
    cards = [card for _, card in sorted(data["cards"].items(), key=lambda it: f"{it[1]['rank']} {it[0]}")]
    columns = [
        {"name": name, "cards": [{m: card[m] for m in members} for card in cards if card["column"] == column]}
        for column, name in enumerate(data["columns"])
    ]
    return {"text": data["text"], "columns": columns}


def faults_of(view, version, data, before):
    held = {int(at): text for at, text in view["held"].items()}
    yield from differences_before(held, {at: before[at] for at in held})
    yield from (f"healed at version {at}" for at in view["healed"])
    if found := difference([view["version"], view["data"]], [version, data]):
        yield f"holds another document: {found}"
    if found := difference(view["shown"], as_shown(data)):
        yield f"shows another document: {found}"


async def main(address, document, edits="300", clients="1", seed="1"):
    async with browser() as tab_address, websockets.connect(tab_address, max_size=None) as socket:
        tab = Tab(socket)
        await tab.open(address, f"{document}-caret")
        caret = await tab.evaluate("pageEdits.caret()")
        faults = await faults_on_narrow(tab)
        faults += await faults_by_keys(tab, address, f"{document}-keys")
        faults += await faults_of_module(tab)
        await tab.open(address, document)
        await tab.evaluate(f"pageEdits.run({int(edits)}, {int(seed)})")
        await tab.evaluate(f"pageEdits.follow({int(clients)})")
        views = await tab.evaluate("pageEdits.results()")
    versions = sorted({int(at) for view in views for at in view["held"]})
    version, data, before = await fetch(address, document, versions)
    for name, view in zip(("left", "right"), views):
        faults += [f"the {name} view {fault}" for fault in faults_of(view, version, data, before)]
    if caret != CARET:
        faults.append(f"the caret stands in {caret}, and not in {CARET}")
    return told(NAME, f"{edits} edits, version {views[0]['version']}, digest {digest(views[0]['data'])}", faults)


if __name__ == "__main__":
    signal.signal(signal.SIGTERM, signal.default_int_handler)  # so that the browser is stopped too
    sys.exit(asyncio.run(main(*sys.argv[1:])))
