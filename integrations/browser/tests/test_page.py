"""Tests the page in Chromium: the examples of the docs, errors and limits, keys, colors and widths. bin/integrations runs it.

PAGE is the page's file, integrations/browser/out/page/index.html if it isn't set. Pictures of the page go to the folder KEEP, if
that is set.
"""
from __future__ import annotations

import functools
import http.server
import json
import os
import re
import sys
import threading
import unittest

HERE = os.path.dirname(os.path.abspath(__file__))
TOP = os.path.realpath(os.path.join(HERE, "../../.."))
sys.dont_write_bytecode = True
sys.path[:0] = [HERE, os.path.join(TOP, "integrations/browser"), os.path.join(TOP, "tools")]
from chromium import Browser
from examples import PAGE as LANGUAGE, record_of
from markdown import blocks_of
from rows import Row, all_rows, expanded, of_page

PAGE = os.environ.get("PAGE") or f"{TOP}/integrations/browser/out/page/index.html"
ADDRESS = "file://" + os.path.realpath(PAGE)
KEEP = os.environ.get("KEEP")
# As people look at it: wide, in both schemes of colors, and on a phone.
LOOKS = {"light": (1280, 900, "light"), "dark": (1280, 900, "dark"), "phone": (390, 844, "light"), "phone-dark": (390, 844, "dark")}

ENTERED = """(fields) => {
    for (const [id, value] of Object.entries(fields)) {
        const field = document.getElementById(id.replace('_', '-'));
        field.value = value;
        field.dispatchEvent(new Event('input', { bubbles: true }));
    }
}"""
SETTLED = """() => new Promise((done) => {
    const look = () => result.getAttribute('aria-busy') === 'false' ? done() : setTimeout(look, 1);
    look();
})"""
CLICKED = f"""(async () => {{
    const said = [];
    const textOf = (part) => result.querySelector(part)?.innerText ?? '';
    for (const button of document.querySelectorAll('#examples button')) {{
        button.click();
        await ({SETTLED})();
        said.push([text.value, textOf('.verdict'), textOf('.answer')]);
    }}
    return said;
}})()"""

# The least contrast of a text with what is behind it, as the Web Content Accessibility Guidelines 2.1 have it at level AA.
LEAST_CONTRAST = 4.5
CONTRASTS = """(() => {
    const color = (text) => text.match(/[\\d.]+/g).map(Number);
    const light = ([r, g, b]) => {
        const [x, y, z] = [r, g, b].map((it) => it / 255).map((it) => it <= 0.03928 ? it / 12.92 : ((it + 0.055) / 1.055) ** 2.4);
        return 0.2126 * x + 0.7152 * y + 0.0722 * z;
    };
    const behind = (it) => {
        for (; it; it = it.parentElement) {
            const found = color(getComputedStyle(it).backgroundColor);
            if (found.length < 4 || found[3] > 0) return found;
        }
        return [255, 255, 255];
    };
    const found = [];
    for (const it of document.querySelectorAll('body *')) {
        const hasText = [...it.childNodes].some((child) => child.nodeType === 3 && child.data.trim()) || /TEXTAREA|INPUT/.test(it.tagName);
        if (!hasText || !it.getClientRects().length || it.tagName === 'SCRIPT') continue;
        const [a, b] = [light(color(getComputedStyle(it).color)), light(behind(it))].sort((x, y) => y - x);
        found.push([(a + 0.05) / (b + 0.05), it.tagName + ' ' + it.textContent.slice(0, 40)]);
    }
    return found;
})()"""


def is_wanted(row: Row, found: dict) -> bool:
    """Whether what the engine found is what a row says."""
    kind, _, word = expanded(row.answer).partition(": ")
    if kind in ("error", "stops") and word.isalpha():
        return found["word"] == (word if kind == "error" else f"{word} limit")
    return found["outcome"] == "answer" and found["shown"] == expanded(row.answer)


class Page(unittest.TestCase):
    """One browser for all tests, and for each test the page anew."""

    browser: Browser

    @classmethod
    def setUpClass(cls) -> None:
        cls.browser = Browser()
        cls.addClassCleanup(cls.browser.__exit__)

    def setUp(self) -> None:
        self.browser.look(*LOOKS["light"])
        self.browser.go(ADDRESS)
        self.settle()

    def settle(self) -> None:
        """Waits until the result is that of what is in the fields."""
        self.browser.run(f"({SETTLED})()")

    def enter(self, **fields: str) -> None:
        """Puts texts into fields as a user does."""
        self.browser.run(f"({ENTERED})({json.dumps(fields)})")

    def evaluated(self, text: str, **fields: str) -> str:
        """The result of an expression, and of other fields."""
        given = json.dumps({**fields, "text": text})
        return self.browser.run(f"(async () => {{ ({ENTERED})({given}); await ({SETTLED})(); return result.innerText; }})()")

    def result(self, part: str = "#result") -> str:
        return self.browser.run(f"document.querySelector({json.dumps(part)})?.innerText ?? ''")

    def test_says_which_engine_it_is(self) -> None:
        self.assertRegex(self.result("#version"), r"^[0-9.]+, kit \S+, sources [0-9a-f]{16}, (un)?proved: ")

    def test_every_example_of_the_language_by_a_click(self) -> None:
        rows = [row for _, row in of_page(TOP, LANGUAGE)]
        found = self.browser.run(CLICKED)
        self.assertEqual([text for text, _, _ in found], [expanded(row.text) for row in rows])
        wrong = []
        for row, (text, verdict, shown) in zip(rows, found):
            kind, _, word = expanded(row.answer).partition(": ")
            is_error = kind == "error" and word.isalpha()
            if verdict.split(",")[0] != f"Error: {word}" if is_error else shown != expanded(row.answer):
                wrong.append(f"{row.place()}: {text}: {verdict}, {shown}")
        print(f"{len(rows) - len(wrong)} of {len(rows)} examples of docs/LANGUAGE.md are right", file=sys.stderr)
        self.assertEqual(wrong, [])

    def test_rows_and_examples_in_the_engine(self) -> None:
        """All expressions of rows/ and of the pages whose names are JSON, without the page around the engine."""
        pages = [f"{TOP}/README.md", *(f"{TOP}/docs/{name}" for name in sorted(os.listdir(f"{TOP}/docs")) if name.endswith(".md"))]
        rows = [row for page in pages for _, row in of_page(TOP, page)] + all_rows(TOP, lambda kind: kind in ("", "hostile"))
        cases = [(row, record) for row in rows if (record := record_of(row)) is not None and is_text(expanded(row.text))]
        self.browser.run("(async () => { window.engine = await Exprlang.open(module); })()")
        wrong, stopped = [], 0
        for start in range(0, len(cases), 100):
            part = cases[start : start + 100]
            given = [{"text": expanded(row.text), "record": expanded(record)} for row, record in part]
            found = self.browser.run(f"{json.dumps(given)}.map((it) => engine.evaluate(it))")
            for (row, record), it in zip(part, found):
                stopped += it["outcome"] == "limit"
                # the rows are those of an engine without limits
                if it["outcome"] != "limit" and row.kind != "hostile" and not is_wanted(row, it):
                    wrong.append(f"{row.place()}: {row.text[:200]}: {json.dumps(it)[:300]}")
        print(f"{len(cases)} rows ran, {stopped} of them to a limit, {len(wrong)} are wrong", file=sys.stderr)
        self.assertEqual(wrong, [])

    def test_an_error_has_its_place(self) -> None:
        # as hosts/c/test.c has it
        self.evaluated("price\n  * 2 +")
        self.assertIn("Error: syntax, in the expression", self.result())
        self.evaluated("1 +\n  * 2")
        self.assertEqual(self.result("#result .place"), "  * 2\n  ^")
        self.assertEqual(self.result("#result button"), "Go to line 2, column 3")
        self.browser.run("document.querySelector('#result button').click()")
        self.assertEqual(self.browser.run("[text.selectionStart, document.activeElement.id]"), [6, "text"])
        self.evaluated("\"é😀\" +\n  * 2")
        self.browser.run("document.querySelector('#result button').click()")
        self.assertEqual(self.browser.run("text.value.slice(text.selectionStart)"), "* 2")

    def test_what_it_asks_for(self) -> None:
        self.evaluated("len(users) > least and $env != nil and all(users, # > 1)", record='{"users": [2], "least": 0}')
        self.assertEqual(self.result("#names").split(), "least users $env, the whole record".split())
        self.assertEqual(self.result("#functions").split(), ["all", "len"])
        self.evaluated("1")
        self.assertEqual(self.result("#asks").split(), ["Names", "none", "Functions", "none"])

    def test_the_record(self) -> None:
        self.assertIn("Error: evaluation, in the record", self.evaluated("1", record='{"a": 1.5}'))
        self.assertIn("in the record", self.evaluated("1", record="[1]"))
        self.assertIn("in the record", self.evaluated("1", record="{"))
        self.assertEqual(self.evaluated("9007199254740993 == a", record='{"a": 9007199254740993}'), "Bool\n\ntrue")
        self.assertIn("unknown name b", self.evaluated("b", record=""))
        self.browser.run("fills.click()")
        self.settle()
        self.assertIn("nil", self.result("#result .answer"))

    def test_the_time(self) -> None:
        self.assertIn("Error: evaluation", self.evaluated("now().Year() > 2023"))
        self.browser.run("document.getElementById('now').click()")
        self.settle()
        self.assertEqual(self.result("#result .answer"), "true")

    def test_an_answer_is_text(self) -> None:
        self.evaluated('"<b>&amp;</b>\\n  x"')
        self.assertEqual(self.browser.run("document.querySelector('.answer').textContent"), '"<b>&amp;</b>\\n  x"')
        self.assertEqual(self.browser.run("document.querySelectorAll('#result b').length"), 0)

    def test_limits(self) -> None:
        # as rows/limits.rows has them
        self.browser.run("settings.open = true")
        self.enter(limit_depth="100", limit_size="10000")
        for row in all_rows(TOP, lambda kind: kind == "limited"):
            word = expanded(row.answer).partition("stops: ")[2]
            if word and not row.words:
                with self.subTest(row.text):
                    self.assertIn(f"Stopped: {word} limit", self.evaluated(expanded(row.text)))
        self.browser.run("reset.click()")
        # a value of the depth that the limits still allow, printed in the worker
        found = self.evaluated("reduce(1..998, [#acc], 0)", limit_steps="100000000")
        self.assertEqual(found.split()[:2], ["Array", "[" * 998 + "0" + "]" * 998])
        self.enter(limit_steps="-1")
        self.settle()
        self.assertIn("A limit is a whole number", self.result())
        self.browser.run("reset.click()")
        self.assertEqual(self.evaluated("1 + 1"), "Integer\n\n2")

    def test_a_long_run_is_stopped_and_the_page_lives(self) -> None:
        self.browser.run("settings.open = true")
        self.enter(limit_steps=str(2**53 - 1), text="all(1..100000, {all(1..100000, {# > 0})})")
        self.browser.wait(lambda: self.browser.run("!running.hidden"), "the button")
        self.browser.run("document.getElementById('stop').click()")
        self.assertIn("You stopped the run", self.result())
        self.browser.run("reset.click()")
        self.assertEqual(self.evaluated("1 + 1"), "Integer\n\n2")

    def test_out_of_memory_and_stack(self) -> None:
        most = str(2**53 - 1)
        self.browser.run("settings.open = true")
        self.enter(limit_steps=most, limit_size=most, limit_depth=most, limit_nesting=most)
        self.assertIn("out of memory", self.evaluated("map(1..10000000, 1..10000000)"))
        self.evaluated("[" * 200000 + "]" * 200000)
        print(f"200,000 brackets without limits: {self.result('#result .verdict')}", file=sys.stderr)
        self.browser.run("reset.click()")
        self.assertEqual(self.evaluated("1 + 1"), "Integer\n\n2")

    def test_needs_nothing_but_its_files(self) -> None:
        addresses = [it["params"]["request"]["url"] for it in self.browser.events if it["method"] == "Network.requestWillBeSent"]
        folder = os.path.dirname(ADDRESS)
        self.assertEqual([it for it in addresses if not it.startswith((folder, "blob:", "data:"))], [])
        said = [it for it in self.browser.events if it["method"] in ("Log.entryAdded", "Runtime.exceptionThrown", "Runtime.consoleAPICalled")]
        self.assertEqual(said, [])

    def test_labels(self) -> None:
        self.browser.run("for (const it of document.querySelectorAll('details')) it.open = true")
        nodes = self.browser.ask("Accessibility.getFullAXTree")["nodes"]
        controls = [it for it in nodes if it.get("role", {}).get("value") in ("textbox", "spinbutton", "checkbox", "button")]
        self.assertGreater(len(controls), 100)
        self.assertEqual([it for it in controls if not it.get("name", {}).get("value", "").strip() and not it["ignored"]], [])

    def test_keys(self) -> None:
        """By Tab alone one comes from the expression to an example, and Enter chooses it."""
        self.browser.run("text.focus()")
        seen = []
        for _ in range(12):
            self.browser.key("Tab")
            seen.append(self.browser.run("document.activeElement.id || document.activeElement.tagName"))
            if seen[-1] == "BUTTON":
                break
        self.assertEqual(seen[:2], ["record", "SUMMARY"])
        self.assertEqual(seen[-1], "BUTTON")
        self.browser.key("Enter")
        self.settle()
        self.assertEqual(self.browser.run("text.value"), "price * count > 100 and count < 10")
        self.assertEqual(self.result("#result .answer"), "true")

    def test_colors_and_widths(self) -> None:
        for name, look in LOOKS.items():
            with self.subTest(name):
                self.browser.look(*look)
                for state, text in {"answer": "1 + 1", "error": "1 +", "limit": "1..999999999"}.items():
                    self.evaluated(text)
                    low = [it for it in self.browser.run(CONTRASTS) if it[0] < LEAST_CONTRAST]
                    self.assertEqual(low, [], state)
                self.browser.run("for (const it of document.querySelectorAll('details')) it.open = true")
                width = self.browser.run("document.scrollingElement.scrollWidth")
                self.assertLessEqual(width, look[0])

    @unittest.skipUnless(KEEP, "no folder KEEP")
    def test_pictures(self) -> None:
        for name, look in LOOKS.items():
            self.browser.look(*look)
            for state, text in {"answer": None, "error": "users |\n  filter(.age >= ) | map(.name)", "limit": "1..999999999"}.items():
                self.browser.go(ADDRESS)
                self.settle()
                if text:
                    self.evaluated(text)
                    self.browser.run("settings.open = true")
                self.browser.picture(f"{KEEP}/{name}-{state}.png")


class Old(unittest.TestCase):
    """What the page says where something is missing."""

    def test_no_memories_of_64_bits(self) -> None:
        with Browser() as browser:
            browser.ask("Page.addScriptToEvaluateOnNewDocument", source="WebAssembly.validate = () => false")
            browser.go(ADDRESS)
            said = browser.run("notice.hidden ? '' : notice.innerText")
            self.assertRegex(said, "64 bits.*Chrome 133.*Firefox 134")
            if KEEP:
                browser.look(*LOOKS["phone"])
                browser.picture(f"{KEEP}/phone-old.png")

    def test_no_workers(self) -> None:
        with Browser() as browser:
            browser.ask("Page.addScriptToEvaluateOnNewDocument", source="Worker = class { constructor() { throw new Error('none') } }")
            browser.go(ADDRESS)
            browser.wait(lambda: browser.run("!notice.hidden"), "a notice")
            self.assertIn("none", browser.run("notice.innerText"))


class Own(unittest.TestCase):
    """The module in another page, from a server."""

    def test_the_examples_of_the_docs(self) -> None:
        with open(f"{TOP}/docs/BROWSER.md", encoding="utf-8") as file:
            text = "".join(it.text for it in blocks_of(enumerate(file.read().split("\n"), 1)) if it.language == "js")
        script = re.sub(r"^(.*); // => (.*)$", r"said.push([JSON.stringify(\1), '\2']);", text, flags=re.M)
        folder = os.path.dirname(os.path.dirname(os.path.realpath(PAGE)))
        handler = functools.partial(Silent, directory=folder)
        with http.server.ThreadingHTTPServer(("127.0.0.1", 0), handler) as server, Browser() as browser:
            threading.Thread(target=server.serve_forever, daemon=True).start()
            browser.go(f"http://127.0.0.1:{server.server_port}/exprlang.js")
            with open(f"{folder}/exprlang.js", encoding="utf-8") as file:
                browser.run(file.read())
            pairs = browser.run(f"(async () => {{ const said = []; {script} return said; }})()")
            server.shutdown()
        self.assertGreater(len(pairs), 0)
        for found, wanted in pairs:
            self.assertEqual(found, wanted)


class Silent(http.server.SimpleHTTPRequestHandler):
    """Serves files, and says nothing."""

    def log_message(self, *_: object) -> None:
        pass


def is_text(text: str) -> bool:
    """Whether a string is one of Unicode; a row may have bytes that are no UTF-8."""
    try:
        text.encode()
    except UnicodeEncodeError:
        return False
    return True


if __name__ == "__main__":
    unittest.main()
