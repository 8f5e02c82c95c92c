"""The page with two clients, in Chromium: contrast, a refused paste, cards that are moved and edited, a server that ends.

tests/clients/page.py tests its edits, the keyboard and narrow screens; this file uses its browser.
"""
import asyncio
import json
import shutil
import sys

import pytest

from support.dialogue import ROOT
from support.tls import https

pytest.importorskip("websockets")
import websockets  # noqa: E402

sys.path.insert(0, str(ROOT / "tests" / "clients"))
from page import Tab, address_of_page, browser  # noqa: E402

pytestmark = pytest.mark.skipif(not shutil.which("chromium"), reason="needs chromium")

PATIENCE = 60  # seconds
LEAST_CONTRAST = 4.5

# Returns each visible text whose contrast to the nearest background is too low (WCAG 2.1, 1.4.3).
CONTRAST = """(() => {
    const parts = (color) => color.match(/[\\d.]+/g).map(Number);
    const linear = (it) => (it / 255 <= 0.03928 ? it / 255 / 12.92 : ((it / 255 + 0.055) / 1.055) ** 2.4);
    const luminance = ([r, g, b]) => 0.2126 * linear(r) + 0.7152 * linear(g) + 0.0722 * linear(b);
    const isClear = (color) => parts(color).length === 4 && parts(color)[3] === 0;
    const ground = (one) => {
        while (one && isClear(getComputedStyle(one).backgroundColor)) one = one.parentElement;
        return parts(getComputedStyle(one || document.body).backgroundColor);
    };
    const hasText = (one) => [...one.childNodes].some((it) => it.nodeType === 3 && it.textContent.trim());
    const shows = (one) => one.getBoundingClientRect().width > 0 && !one.closest('fieldset:disabled');
    const isText = (one) => hasText(one) || one.matches('input, textarea');
    const texts = [...document.querySelectorAll('body *')].filter((it) => isText(it) && shows(it));
    return texts.flatMap((one) => {
        const [low, high] = [parts(getComputedStyle(one).color), ground(one)].map(luminance).sort((a, b) => a - b);
        const contrast = (high + 0.05) / (low + 0.05);
        return contrast < LEAST ? [`${one.className || one.tagName}: ${contrast.toFixed(2)}`] : [];
    });
})()""".replace(
    "LEAST", str(LEAST_CONTRAST)
)


class Page(Tab):
    """A tab with the page, on a document of its own."""

    async def start(self, server, document):
        host, port = server.address
        await self.open_at(address_of_page(f"{host}:{port}", document))

    async def open_at(self, address):
        await self.call("Page.navigate", url=address)
        await self.until("document.readyState === 'complete' && typeof views === 'object'")
        # (until then a view may hold a document whose create is refused, as the other view created it)
        await self.until("views.every((it) => it.shared.data && it.shared.version > 0 && it.shared.pending === 0)")

    async def until(self, condition):
        async def poll():
            while not await self.evaluate(f"Boolean({condition})"):
                await asyncio.sleep(0.05)

        await asyncio.wait_for(poll(), PATIENCE)

    async def shown(self, selector, view=0):
        return await self.evaluate(f"views[{view}].find({json.dumps(selector)}).textContent")


def in_page(server, document, play):
    """Runs a coroutine with the page."""

    async def run():
        async with browser() as address, websockets.connect(address, max_size=None) as socket:
            page = Page(socket)
            await page.start(server, document)
            return await play(page)

    return asyncio.run(run())


def test_contrast(server):
    async def play(page):
        found = {}
        for scheme in ("light", "dark"):
            await page.call("Emulation.setEmulatedMedia", features=[{"name": "prefers-color-scheme", "value": scheme}])
            await page.evaluate("views[0].showWaiting(true); views[0].showNotice('a notice')")
            found[scheme] = await page.evaluate(CONTRAST)
        return found

    assert in_page(server, "contrast", play) == {"light": [], "dark": []}


def test_refused_paste(server):
    """The field shows the document again, with a notice, and later edits are stored."""

    async def play(page):
        before = await page.evaluate("views[0].shared.data.text")
        await page.evaluate(
            """(() => { const field = views[0].find('textarea'); field.value = 'x'.repeat(1200000) + field.value;
            field.dispatchEvent(new InputEvent('input', { bubbles: true })); })()"""
        )
        await page.until("views[0].find('.notice').textContent.startsWith('not stored')")
        assert await page.evaluate("views[0].find('textarea').value") == before
        await page.evaluate("views[0].shared.submit([{ p: ['text', 0], si: 'later ' }]).then(() => 1)")
        await page.until("views[1].find('textarea').value.startsWith('later ')")
        return (await page.shown(".notice")).split(":")[0]

    assert in_page(server, "paste", play) == "not stored"


def test_input_method(server):
    """A text is composed while another client edits it: the field isn't changed until the composition ends."""

    async def play(page):
        start = await page.evaluate("views[0].shared.data.text")
        await page.evaluate("(() => { const it = views[0].find('textarea'); it.focus(); it.setSelectionRange(3, 3); })()")
        await page.evaluate(
            """(() => { window.changes = 0; const it = views[0].find('textarea');
            const { set, get } = Object.getOwnPropertyDescriptor(HTMLTextAreaElement.prototype, 'value');
            Object.defineProperty(it, 'value', { get, set(text) { window.changes += 1; set.call(this, text); } }); })()"""
        )
        composed = []
        for text, edit in (("t", "[{ p: ['text', 0], si: 'left ' }]"), ("とう", "[{ p: ['text', 9], si: 'right ' }]")):
            await page.call("Input.imeSetComposition", text=text, selectionStart=len(text), selectionEnd=len(text))
            await page.evaluate(f"views[1].shared.submit({edit}).then(() => 1)")
            await page.until("views[0].shared.version === views[1].shared.version")
            composed.append([await page.evaluate("views[0].find('textarea').value"), await page.evaluate("window.changes")])
        await page.call("Input.imeSetComposition", text="東京", selectionStart=2, selectionEnd=2)
        await page.call("Input.insertText", text="東京")
        await page.evaluate("views[0].shared.whenNothingPending().then(() => 1)")
        await page.until("views[0].shared.version === views[1].shared.version")
        assert composed == [[f"{start[:3]}{it}{start[3:]}", 0] for it in ("t", "とう")]
        shown = [await page.evaluate(f"views[{it}].find('textarea').value") for it in (0, 1)]
        caret = await page.evaluate("views[0].find('textarea').selectionStart")
        return start, shown, shown[0][:caret]

    start, shown, before_caret = in_page(server, "composition", play)
    assert shown == [f"left {start[:3]}東京{start[3]}right {start[4:]}"] * 2
    assert before_caret == f"left {start[:3]}東京"


def test_card_that_is_moved_and_edited(server):
    """A client edits a card's title while it is disconnected, and another one moves the card. Both edits stay."""

    async def play(page):
        card = "shared.data.cards['first-2']"
        await page.evaluate("views[1].find('.connection').click()")
        await page.evaluate("void views[1].shared.submit([{ p: ['cards', 'first-2', 'title', 0], si: 'New ' }])")
        await page.evaluate("views[0].board.moveToColumn('first-2', 1)")
        await page.evaluate("views[1].board.moveToColumn('first-2', 1)")
        await page.evaluate("views[0].shared.whenNothingPending().then(() => 1)")
        assert await page.shown(".state", 1) == "disconnected"
        await page.evaluate("views[1].find('.connection').click()")
        await page.until(f"views.every((it) => it.{card}.title === 'New Write the minutes' && it.shared.pending === 0)")
        await page.until("views[0].shared.version === views[1].shared.version")
        shown = "[...views[{}].element.querySelectorAll('.card .title')].filter((it) => it.value.startsWith('New')).length"
        return [await page.evaluate(it) for it in (f"views[0].{card}.column", shown.format(0), shown.format(1))]

    assert in_page(server, "move", play) == [1, 1, 1]


def test_slider_counts_versions(server):
    async def play(page):
        for _ in range(4):
            await page.evaluate("views[0].shared.submit([{ p: ['text', 0], si: '-' }]).then(() => 1)")
        await page.until("document.querySelector('#version').max === '5'")
        await page.evaluate(
            "(() => { const it = document.querySelector('#version'); it.value = 2; it.dispatchEvent(new Event('input')); })()"
        )
        # (an earlier answer may show version 2 of 2)
        await page.until("document.querySelector('.life output').textContent === 'version 2 of 5'")
        return await page.evaluate("document.querySelector('.then').textContent")

    assert in_page(server, "slider", play).startswith("-Two")


@pytest.mark.skipif(not shutil.which("openssl"), reason="needs openssl")
def test_page_over_https(server):
    """The page connects by wss to /documents of its host."""

    async def run():
        options = ["--ignore-certificate-errors"]
        async with https(ROOT, server.address) as port, browser(*options) as address:
            async with websockets.connect(address, max_size=None) as socket:
                page = Page(socket)
                await page.open_at(f"https://127.0.0.1:{port}/examples/index.html?document=https")
                await page.evaluate("views[0].shared.submit([{ p: ['text', 0], si: 'by wss ' }]).then(() => 1)")
                await page.until("views[1].find('textarea').value.startsWith('by wss ')")
                return await page.evaluate("views[0].client.address") == f"wss://127.0.0.1:{port}/documents"

    assert asyncio.run(run())


def test_narrow_screen(server):
    """A link at the top leads to each view, from wherever the page is."""

    async def play(page):
        await page.call("Emulation.setDeviceMetricsOverride", width=375, height=640, deviceScaleFactor=1, mobile=True)
        tops = []
        for view in (1, 0):
            await page.evaluate(f"document.querySelectorAll('nav a')[{view}].click()")
            await page.evaluate("new Promise((then) => requestAnimationFrame(() => requestAnimationFrame(() => then(1))))")
            tops.append(await page.evaluate(f"views[{view}].element.getBoundingClientRect().top"))
            tops.append(await page.evaluate("document.querySelector('nav').getBoundingClientRect().top"))
        return tops

    assert all(0 <= top < 80 for top in in_page(server, "narrow", play))


def test_page_that_closes_with_edits(server):
    """The browser asks while an edit isn't stored, and not afterwards."""
    asks = "(() => { const it = new Event('beforeunload', { cancelable: true }); return !window.dispatchEvent(it); })()"

    async def play(page):
        seen = [await page.evaluate(asks)]
        await page.evaluate("views[1].find('.connection').click()")
        await page.evaluate("void views[1].shared.submit([{ p: ['text', 0], si: 'a' }])")
        seen.append(await page.evaluate(asks))
        await page.evaluate("views[1].find('.connection').click()")
        await page.until("views[1].shared.pending === 0")
        return [*seen, await page.evaluate(asks)]

    assert in_page(server, "closes", play) == [False, True, False]


def test_server_that_ends(server):
    async def play(page):
        server.process.kill()
        await page.until("views[0].find('.state').textContent === 'trying again'")
        await page.evaluate("void views[0].shared.submit([{ p: ['text', 0], si: 'a' }]).catch(() => {})")
        await page.until("views[0].find('.pending').textContent !== ''")
        return await page.shown(".pending"), await page.shown(".connection")

    assert in_page(server, "end", play) == ("changes wait to be sent", "Disconnect")
