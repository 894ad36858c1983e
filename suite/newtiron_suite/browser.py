"""Headless Chromium, driven by its debugging pipe: for the suites of the web front."""
import base64
import contextlib
import json
import os
import select
import shutil
import subprocess
import tempfile
import time
from collections.abc import Sequence
from typing import Any

PROGRAMS = ("chromium", "chromium-browser", "google-chrome", "chrome", "headless_shell")
OPTIONS = ["--headless=new", "--no-sandbox", "--disable-gpu", "--no-first-run",
           "--disable-extensions", "--remote-debugging-pipe"]
PATIENCE = 30


def program() -> str | None:
    """The browser that is installed; None where none is."""
    return next(filter(shutil.which, PROGRAMS), None)


class Browser:
    """A browser with one page. `noted` has what it says of that page: faults of the script, and
    what the policy refuses."""

    def __init__(self, *words: str) -> None:
        self.folder = tempfile.TemporaryDirectory(prefix="browser-", ignore_cleanup_errors=True)
        their_in, self.to = os.pipe()
        self.come, their_out = os.pipe()

        def as_3_and_4() -> None:
            # (numbers above, so that neither is closed by the other's copy)
            high = [os.dup(one) for one in (their_in, their_out)]
            os.dup2(high[0], 3)
            os.dup2(high[1], 4)

        name = program() or PROGRAMS[0]
        command = [name, *OPTIONS, f"--user-data-dir={self.folder.name}", *words, "about:blank"]
        self.child = subprocess.Popen(command, preexec_fn=as_3_and_4, close_fds=False,
                                      stdout=subprocess.DEVNULL, stderr=subprocess.DEVNULL)
        os.close(their_in)
        os.close(their_out)
        self.octets, self.number = b"", 0
        self.session: str | None = None
        self.noted: list[str] = []
        target = self.call("Target.createTarget", url="about:blank")["targetId"]
        attached = self.call("Target.attachToTarget", targetId=target, flatten=True)
        self.session = attached["sessionId"]
        for domain in ("Page", "Runtime", "Log"):
            self.call(f"{domain}.enable")

    def __enter__(self) -> "Browser":
        return self

    def __exit__(self, *_: object) -> None:
        with contextlib.suppress(OSError, TimeoutError):
            self.call("Browser.close")
        with contextlib.suppress(subprocess.TimeoutExpired):
            self.child.wait(5)
        self.child.kill()
        self.child.wait()
        os.close(self.to)
        os.close(self.come)
        self.folder.cleanup()

    def message(self) -> Any:
        """The next message."""
        while b"\0" not in self.octets:
            if not select.select([self.come], [], [], PATIENCE)[0]:
                raise TimeoutError("the browser says nothing")
            more = os.read(self.come, 1 << 16)
            if not more:
                raise ConnectionError("the browser has ended")
            self.octets += more
        one, _, self.octets = self.octets.partition(b"\0")
        return json.loads(one)

    def call(self, method: str, **words: object) -> Any:
        self.number += 1
        asked: dict[str, object] = {"id": self.number, "method": method, "params": words}
        if self.session:
            asked["sessionId"] = self.session
        os.write(self.to, json.dumps(asked).encode() + b"\0")
        while (told := self.message()).get("id") != self.number:
            self.note(told)
        if "error" in told:
            raise ConnectionError(f"{method}: {told['error']}")
        return told["result"]

    def note(self, told: Any) -> None:
        words = told.get("params", {})
        if told.get("method") == "Runtime.exceptionThrown":
            thrown = words["exceptionDetails"].get("exception", {})
            self.noted.append(thrown.get("description", "an exception"))
        if told.get("method") == "Log.entryAdded":
            if words["entry"]["source"] in ("security", "violation"):
                self.noted.append(words["entry"]["text"])

    def open(self, url: str) -> bool:
        self.call("Page.navigate", url=url)
        return self.until("document.readyState === 'complete'")

    def run(self, script: str) -> Any:
        """The value of an expression."""
        told = self.call("Runtime.evaluate", expression=script, awaitPromise=True,
                         returnByValue=True, userGesture=True)
        if "exceptionDetails" in told:
            raise ConnectionError(told["exceptionDetails"]["exception"].get("description"))
        return told["result"].get("value")

    def until(self, script: str, patience: float = 10) -> bool:
        """Whether an expression comes to be true."""
        end = time.monotonic() + patience
        while not self.run(f"Boolean({script})"):
            if time.monotonic() > end:
                return False
            time.sleep(0.02)
        return True

    def press(self, key: str, code: int = 0, text: str = "") -> None:
        """Presses a key, as Tab, Enter or a letter."""
        words: dict[str, object] = {"key": key, "code": key, "windowsVirtualKeyCode": code}
        if text:
            words["text"] = text
        self.call("Input.dispatchKeyEvent", type="keyDown", **words)
        self.call("Input.dispatchKeyEvent", type="keyUp", **words)

    def write(self, text: str) -> None:
        self.call("Input.insertText", text=text)

    def resize(self, width: int, height: int, features: Sequence[tuple[str, str]] = ()) -> None:
        """Sets the size of the window, and what a reader prefers, as ("prefers-color-scheme",
        "dark")."""
        self.call("Emulation.setDeviceMetricsOverride", width=width, height=height,
                  deviceScaleFactor=1, mobile=False)
        preferences = [{"name": name, "value": value} for name, value in features]
        self.call("Emulation.setEmulatedMedia", features=preferences)

    def picture(self) -> bytes:
        """The octets of a PNG of what is shown."""
        return base64.b64decode(self.call("Page.captureScreenshot", format="png")["data"])

    def set_clock(self, moment: str) -> None:
        """Makes the clock of pages that are opened begin at a moment, as 2024-07-05T08:00:00."""
        self.call("Page.addScriptToEvaluateOnNewDocument", source=(
            "{ const Real = Date; let ahead = Real.parse('%s') - Real.now(); "
            "window.advance = ms => { ahead += ms; }; window.Date = class extends Real { "
            "constructor(...words) { super(...words.length ? words : [Date.now()]); } "
            "static now() { return Real.now() + ahead; } }; }" % moment))

    def advance(self, seconds: float) -> None:
        """Sets the clock of the page forward."""
        self.run(f"advance({seconds * 1000})")

    def accessible(self, selector: str) -> list[Any]:
        """What a screen reader is given of an element and of what it holds: nodes with their roles
        and names."""
        root = self.call("DOM.getDocument")["root"]["nodeId"]
        node = self.call("DOM.querySelector", nodeId=root, selector=selector)["nodeId"]
        top = self.call("DOM.describeNode", nodeId=node)["node"]["backendNodeId"]
        tree = self.call("Accessibility.getFullAXTree")["nodes"]
        nodes = {one["nodeId"]: one for one in tree}
        found = [one for one in nodes.values() if one.get("backendDOMNodeId") == top]
        for one in found:
            found += [nodes[name] for name in one.get("childIds", ()) if name in nodes]
        return [one for one in found if not one["ignored"]]
