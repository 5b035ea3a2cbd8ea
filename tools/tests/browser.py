"""A browser for tests: Chromium without a window, driven over its pipe of messages (--remote-debugging-pipe)."""

from __future__ import annotations

import json
import os
import select
import shutil
import subprocess
import tempfile
import time
from pathlib import Path
from typing import Dict, List, Optional, cast

CHROMIUM = "chromium"
SECONDS = 60.0
WORDS = "--headless --no-sandbox --disable-gpu --disable-dev-shm-usage --no-first-run --disable-extensions --hide-scrollbars --remote-debugging-pipe"

Json = Dict[str, object]


class Browser:
    """A browser with one tab. What a page's script threw, and what it wrote as an error, is in `errors`; what it asked of a network, in `asked`."""

    def __init__(self) -> None:
        self.folder = tempfile.mkdtemp()
        reads, writes = os.pipe(), os.pipe()  # it reads from its descriptor 3, and writes to its descriptor 4
        line = f'exec "$0" "$@" 3</dev/fd/{reads[0]} 4>/dev/fd/{writes[1]}'  # by their paths: dash takes no 3<&10
        words = [*WORDS.split(" "), f"--user-data-dir={self.folder}", "about:blank"]
        command = ["/bin/sh", "-c", line, str(shutil.which(CHROMIUM)), *words]
        quiet = subprocess.DEVNULL
        self.process = subprocess.Popen(command, pass_fds=[reads[0], writes[1]], stdin=quiet, stdout=quiet, stderr=quiet)
        os.close(reads[0])
        os.close(writes[1])
        self.to, self.back = reads[1], writes[0]
        self.rest, self.number, self.session = b"", 0, ""
        self.errors: List[str] = []
        self.asked: List[str] = []
        self._attach()

    def _attach(self) -> None:
        targets = cast(List[Json], self.call("Target.getTargets")["targetInfos"])
        target = next(it["targetId"] for it in targets if it["type"] == "page")
        self.session = str(self.call("Target.attachToTarget", targetId=target, flatten=True)["sessionId"])
        for domain in ("Page", "Runtime", "Log", "Network"):
            self.call(f"{domain}.enable")

    def close(self) -> None:
        os.close(self.to)
        try:
            self.process.wait(10)
        except subprocess.TimeoutExpired:
            self.process.kill()
            self.process.wait()
        os.close(self.back)
        shutil.rmtree(self.folder, ignore_errors=True)

    def call(self, method: str, **params: object) -> Json:
        """What the browser answers to a call."""
        self.number += 1
        message: Json = {"id": self.number, "method": method, "params": params}
        if self.session:
            message["sessionId"] = self.session
        octets = json.dumps(message).encode() + b"\0"
        while octets:
            octets = octets[os.write(self.to, octets) :]
        while True:
            told = self._next()
            if told.get("id") == self.number:
                if "error" in told:
                    raise AssertionError(f"{method}: {told['error']}")
                return cast(Json, told["result"])
            self._hear(told)

    def _next(self) -> Json:
        until = time.monotonic() + SECONDS
        while b"\0" not in self.rest:
            if not select.select([self.back], [], [], max(0.0, until - time.monotonic()))[0]:
                raise AssertionError("the browser says nothing")
            octets = os.read(self.back, 1 << 16)
            if not octets:
                raise AssertionError("the browser ended")
            self.rest += octets
        message, _, self.rest = self.rest.partition(b"\0")
        return cast(Json, json.loads(message))

    def _hear(self, told: Json) -> None:
        params = cast(Json, told.get("params", {}))
        if told.get("method") == "Runtime.exceptionThrown":
            self.errors.append(json.dumps(params["exceptionDetails"]))
        elif told.get("method") == "Log.entryAdded" and cast(Json, params["entry"])["level"] == "error":
            self.errors.append(json.dumps(params["entry"]))
        elif told.get("method") == "Network.requestWillBeSent":
            self.asked.append(str(cast(Json, params["request"])["url"]))

    def value(self, expression: str) -> object:
        """What an expression of the page comes to; a promise is waited for."""
        answer = self.call("Runtime.evaluate", expression=expression, returnByValue=True, awaitPromise=True)
        if "exceptionDetails" in answer:
            raise AssertionError(f"{expression}: {json.dumps(answer['exceptionDetails'])}")
        return cast(Json, answer["result"]).get("value")

    def open(self, page: Path, address: str = "") -> float:
        """Opens a page from disk, and waits until its rows are drawn: how many seconds that took."""
        self.call("Page.navigate", url="about:blank")
        self.errors, self.asked = [], []
        began = time.monotonic()
        self.call("Page.navigate", url=page.as_uri() + address)
        self.until("document.documentElement && document.documentElement.dataset.openedIn !== undefined")
        return time.monotonic() - began

    def until(self, expression: str) -> None:
        until = time.monotonic() + SECONDS
        while not self.value(expression):
            if time.monotonic() > until:
                raise AssertionError(f"never: {expression}; errors: {self.errors}")
            time.sleep(0.02)

    def frame(self) -> None:
        """Waits until the page has drawn once more."""
        self.value("new Promise((done) => requestAnimationFrame(() => requestAnimationFrame(() => done(true))))")

    def busy(self) -> float:
        """The processor time that the page's own thread has taken, in seconds."""
        self.call("Performance.enable", timeDomain="threadTicks")
        metrics = cast(List[Json], self.call("Performance.getMetrics")["metrics"])
        return next(cast(float, it["value"]) for it in metrics if it["name"] == "TaskDuration")

    def press(self, key: str, text: Optional[str] = None) -> None:
        """A key, pressed and let go; with a text for a key that writes one."""
        codes = {"Enter": 13, "Escape": 27, "PageDown": 34, "End": 35, "Home": 36, "ArrowLeft": 37, "ArrowUp": 38, "ArrowRight": 39, "ArrowDown": 40, "Tab": 9}
        written: Json = {"text": text} if text else {}
        self.call("Input.dispatchKeyEvent", type="keyDown", key=key, code=key, windowsVirtualKeyCode=codes.get(key, ord(key[0].upper())), **written)
        self.call("Input.dispatchKeyEvent", type="keyUp", key=key, code=key, windowsVirtualKeyCode=codes.get(key, ord(key[0].upper())))
        self.frame()

    def write(self, text: str) -> None:
        """A text, written where the focus is."""
        self.call("Input.insertText", text=text)
        self.frame()
