#!/usr/bin/python3
"""Makes examples/picture.gif, of two people who edit one document: tests/examples/picture.py SERVER [FILE]

Two browsers open the page at one server. Ada uses the left view of one browser, and Ben the right view of the other. The other
two views are disconnected. A frame joins both views after each step, and each frame lasts equally long: no delay is measured.
Each view's document and screen must equal the server's document at the end, or the status is 1.

Needs the packages of `picture` in tests/packages.txt, among them Chromium and ImageMagick's convert."""
import asyncio
import base64
import itertools
import json
import pathlib
import subprocess
import sys
import tempfile

sys.path.insert(0, str(pathlib.Path(__file__).resolve().parent.parent))

from support.packages import missing_packages  # noqa: E402

if missing_packages("picture"):
    sys.exit(f"picture: not installed: {' '.join(missing_packages('picture'))}")

import websockets  # noqa: E402
from support.dialogue import ROOT  # noqa: E402
from support.frames import text  # noqa: E402
from support.server import Server  # noqa: E402
from test_page import Page, browser  # noqa: E402
from client import difference, fetch  # noqa: E402
from page import as_shown  # noqa: E402

WIDTH, HEIGHT = 900, 540  # pixels
DELAY = 24  # hundredths of a second a frame
LETTERS = 2  # that are typed in a step
PAUSE = 0.15  # seconds between a step and its frame
STYLE = "body { padding: 12px } .top, .life { display: none } main { grid-template-columns: 1fr 1fr } "
STYLE += ".board { min-height: 272px }"  # of three cards
DOCUMENT = "trip"
CARDS = [(0, "i", "Book the bus", False), (0, "r", "Buy tickets", False), (1, "i", "Choose a lake", True)]
START = {
    "text": "A day at the lake\n\nWhen: \nWhere: \n",
    "columns": ["To do", "Done"],
    "cards": {
        f"card-{rank}{column}": {"column": column, "rank": rank, "title": title, "done": done, "votes": 0}
        for column, rank, title, done in CARDS
    },
}


class Person:
    """A browser's page, of which one view is used."""

    def __init__(self, socket, view):
        self.page = Page(socket)
        self.number = view
        self.view = f"views[{view}]"

    async def start(self, server):
        size = {"width": WIDTH, "height": HEIGHT, "deviceScaleFactor": 1, "mobile": False}
        await self.page.call("Emulation.setDeviceMetricsOverride", **size)
        await self.page.call("Emulation.setScrollbarsHidden", hidden=True)
        await self.page.call("Emulation.setFocusEmulationEnabled", enabled=True)
        await self.page.start(server, DOCUMENT)
        await self.page.evaluate((ROOT / "tests" / "clients" / "page_edits.js").read_text())
        await self.page.evaluate(f"void document.head.appendChild(document.createElement('style')).append('{STYLE}')")
        await self.page.evaluate("document.querySelectorAll('textarea').forEach((it) => (it.rows = 5))")
        await self.page.evaluate(f"views[{1 - self.number}].find('.connection').click()")

    async def take(self, file):
        """Writes a screenshot of the view."""
        half = {"x": self.number * WIDTH // 2, "y": 0, "width": WIDTH // 2, "height": HEIGHT, "scale": 1}
        shot = await self.page.call("Page.captureScreenshot", format="png", clip=half)
        file.write_bytes(base64.b64decode(shot["data"]))

    async def result(self):
        return (await self.page.evaluate("pageEdits.results()"))[self.number]

    # Steps --------------------------------------------------------------------------------------------------

    async def wait(self):
        pass

    async def click(self, selector, title=""):
        """Clicks the view's first such element, or the one of the card with a title."""
        cards = f"[...{self.view}.element.querySelectorAll('.card')]"
        card = f"{cards}.find((it) => it.querySelector('.title').value === {json.dumps(title)})"
        element = f"{card if title else self.view + '.element'}.querySelector('{selector}')"
        await self.page.evaluate(f"{element}.focus(); {element}.click()")

    async def set_caret(self, word):
        """Sets the caret in the shared text, after a word."""
        end = f"it.value.indexOf({json.dumps(word)}) + {len(word)}"
        await self.page.evaluate(
            f"(() => {{ const it = {self.view}.find('textarea'); it.focus(); it.setSelectionRange({end}, {end}); }})()"
        )

    async def type(self, letters):
        await self.page.call("Input.insertText", text=letters)

    async def press(self, key, code):
        await self.page.press(key, code, alt=True)


def typed(letters):
    return [("type", letters[at : at + LETTERS]) for at in range(0, len(letters), LETTERS)]


def waits(frames):
    return [("wait",)] * frames


# The steps of Ada and of Ben, one a frame. Both make theirs at the same time, and the shorter list ends with waits.
STEPS = [
    (waits(3), []),
    ([("click", ".add"), *waits(1), *typed("Pack the tent"), *waits(3)], []),
    (
        [("set_caret", "When: "), *typed("Friday, at nine, by the first bus")],
        [
            ("click", ".title", "Book the bus"),
            *waits(1),
            ("press", "ArrowRight", 39),
            *waits(2),
            ("press", "ArrowUp", 38),
            *waits(1),
            ("click", ".done", "Book the bus"),
            *waits(1),
            ("set_caret", "Where: "),
            *typed("from the station"),
        ],
    ),
    (waits(6), []),
]


def create(server):
    """Creates the document, so the page doesn't create its own."""
    made = {"type": "json0", "data": START}
    edit = {"a": "op", "c": "examples", "d": DOCUMENT, "v": 0, "seq": 1, "create": made}
    with server.enter() as connection:
        for message in ({"a": "hs", "id": "picture"}, edit):
            connection.send(text(message))
            connection.frame()


async def record(people, folder):
    """Makes all steps. Returns the files of each frame, one a person."""
    frames = []
    for steps in itertools.chain(*(itertools.zip_longest(*lists, fillvalue=("wait",)) for lists in STEPS)):
        await asyncio.gather(*(getattr(one, name)(*words) for one, (name, *words) in zip(people, steps)))
        await asyncio.sleep(PAUSE)
        files = [folder / f"{len(frames)}-{one.number}.png" for one in people]
        await asyncio.gather(*(one.take(file) for one, file in zip(people, files)))
        frames.append(files)
    return frames


async def faults(people, server):
    """Returns how the views' documents and screens differ from the server's document."""
    version, data, _ = await fetch(server.url, DOCUMENT, [])
    found = []
    for one in people:
        result = await one.result()
        found.append(difference([result["version"], result["data"]], [version, data], f"document of {one.view}"))
        found.append(difference(result["shown"], as_shown(data), f"screen of {one.view}"))
    return [it for it in found if it]


def write_gif(frames, file):
    """Joins the frames. All have one palette (+remap), so unchanged pixels become transparent."""
    joined = [word for files in frames for word in ("(", *files, "+append", "+repage", ")")]
    reduced = ["+dither", "+remap", "-layers", "OptimizeTransparency"]
    command = ["convert", "-delay", DELAY, "-loop", "0", *joined, *reduced, file]
    subprocess.run([str(it) for it in command], check=True)


async def main(program, file=ROOT / "examples" / "picture.gif"):
    with Server(program) as server, tempfile.TemporaryDirectory() as folder:
        create(server)
        async with browser() as left, browser() as right, websockets.connect(left, max_size=None) as ada:
            async with websockets.connect(right, max_size=None) as ben:
                people = [Person(ada, 0), Person(ben, 1)]
                await asyncio.gather(*(one.start(server) for one in people))
                frames = await record(people, pathlib.Path(folder))
                found = await faults(people, server)
        write_gif(frames, file)
    seconds, size = len(frames) * DELAY / 100, pathlib.Path(file).stat().st_size
    print(f"picture: {len(frames)} frames, {seconds} seconds, {size} bytes, {len(found)} differences")
    return "\n".join(found) or None


if __name__ == "__main__":
    sys.exit(asyncio.run(main(*sys.argv[1:])))
