"""Drives Chromium without a window, over a pipe: pages, their scripts, keys and pictures."""
from __future__ import annotations

import base64
import json
import os
import select
import shutil
import subprocess
import tempfile
import time
from collections.abc import Callable
from typing import Any

PROGRAMS = ("chromium", "chromium-browser", "google-chrome")
SECONDS = 600.0


class Fault(Exception):
    """What the browser, or a script of a page, says is wrong."""


def program() -> str | None:
    """The browser's program, if there is one here."""
    return next(filter(None, map(shutil.which, PROGRAMS)), None)


class Browser:
    """A browser with one page, in a new profile. Use it in a `with`."""

    def __init__(self, flags: tuple[str, ...] = ()) -> None:
        self.folder = tempfile.mkdtemp()
        in_read, self.to = os.pipe()
        self.back, out_write = os.pipe()
        words = [program() or "chromium", "--headless=new", "--remote-debugging-pipe", "--disable-gpu", "--no-first-run"]
        words += ["--disable-background-networking", "--disable-component-update", "--disable-sync", "--disable-extensions"]
        words += [f"--user-data-dir={self.folder}", *flags, "about:blank"]
        # as root there is no sandbox; the page is our own
        words[1:1] = ["--no-sandbox"] if os.getuid() == 0 else []

        def hand_on() -> None:
            # the browser reads its commands from 3, and answers on 4
            read, write = os.dup(in_read), os.dup(out_write)
            os.dup2(read, 3)
            os.dup2(write, 4)

        with open(f"{self.folder}/log", "wb") as log:
            self.process = subprocess.Popen(words, stdin=subprocess.DEVNULL, stdout=log, stderr=log, close_fds=False, preexec_fn=hand_on)
        os.close(in_read)
        os.close(out_write)
        self.buffer = b""
        self.count = 0
        self.session: str | None = None
        self.events: list[dict[str, Any]] = []
        target = next(it for it in self.ask("Target.getTargets")["targetInfos"] if it["type"] == "page")
        self.session = self.ask("Target.attachToTarget", targetId=target["targetId"], flatten=True)["sessionId"]
        for domain in ("Page", "Runtime", "Network", "Log", "Accessibility"):
            self.ask(f"{domain}.enable")

    def __enter__(self) -> Browser:
        return self

    def __exit__(self, *_: object) -> None:
        self.session = None
        try:
            self.ask("Browser.close")
            self.process.wait(20)
        except (Fault, OSError, subprocess.TimeoutExpired):
            self.process.kill()
            self.process.wait()
        os.close(self.to)
        os.close(self.back)
        shutil.rmtree(self.folder, ignore_errors=True)

    def ask(self, method: str, **words: object) -> dict[str, Any]:
        """Asks the browser or its page, and returns what it answers."""
        self.count += 1
        message: dict[str, object] = {"id": self.count, "method": method, "params": words}
        if self.session:
            message["sessionId"] = self.session
        data = json.dumps(message).encode() + b"\0"
        while data:
            data = data[os.write(self.to, data) :]
        while True:
            said = self.read(SECONDS)
            if said.get("id") == self.count:
                if "error" in said:
                    raise Fault(f"{method}: {said['error']['message']}")
                return said["result"]

    def read(self, seconds: float) -> dict[str, Any]:
        """The next message. One that answers nothing is kept as an event."""
        while b"\0" not in self.buffer:
            if not select.select([self.back], [], [], seconds)[0]:
                raise Fault(f"the browser says nothing for {seconds:.0f} seconds")
            got = os.read(self.back, 1 << 20)
            if not got:
                with open(f"{self.folder}/log", errors="replace") as log:
                    raise Fault(f"the browser ended: {log.read()[-500:]}")
            self.buffer += got
        line, _, self.buffer = self.buffer.partition(b"\0")
        said = json.loads(line)
        if "method" in said:
            self.events.append(said)
        return said

    def run(self, script: str) -> Any:
        """What an expression in JavaScript comes to on the page, awaited."""
        said = self.ask("Runtime.evaluate", expression=script, awaitPromise=True, returnByValue=True)
        if "exceptionDetails" in said:
            raise Fault(json.dumps(said["exceptionDetails"])[:500])
        return said["result"].get("value")

    def go(self, address: str) -> None:
        """Opens an address, and waits until it is loaded."""
        self.events.clear()
        said = self.ask("Page.navigate", url=address)
        if said.get("errorText"):
            raise Fault(f"{address}: {said['errorText']}")
        self.wait(lambda: self.run("document.readyState") == "complete", "the page to load")

    def wait(self, is_met: Callable[[], Any], what: str, seconds: float = SECONDS) -> None:
        end = time.monotonic() + seconds
        while not is_met():
            if time.monotonic() > end:
                raise Fault(f"waited {seconds:.0f} seconds for {what}")
            time.sleep(0.02)

    def key(self, name: str, modifiers: int = 0) -> None:
        """Presses a key: `Tab`, `Enter` or a space."""
        code, text = {"Tab": (9, ""), "Enter": (13, "\r"), " ": (32, " ")}[name]
        words = {"key": name, "code": name if name != " " else "Space", "windowsVirtualKeyCode": code, "modifiers": modifiers}
        self.ask("Input.dispatchKeyEvent", type="keyDown" if text else "rawKeyDown", **({"text": text} if text else {}), **words)
        self.ask("Input.dispatchKeyEvent", type="keyUp", **words)

    def look(self, width: int, height: int, scheme: str) -> None:
        """Sets the size of the window and the scheme of colors, `light` or `dark`."""
        self.ask("Emulation.setDeviceMetricsOverride", width=width, height=height, deviceScaleFactor=1, mobile=width < 600)
        self.ask("Emulation.setEmulatedMedia", features=[{"name": "prefers-color-scheme", "value": scheme}])

    def picture(self, path: str) -> None:
        """Writes a picture of the whole page."""
        data = self.ask("Page.captureScreenshot", format="png", captureBeyondViewport=True)["data"]
        with open(path, "wb") as file:
            file.write(base64.b64decode(data))
