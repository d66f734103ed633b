"""Chromium without a window, driven over its own protocol by two pipes."""

import base64
import json
import os
import shutil
import subprocess
import tempfile
import time
from pathlib import Path
from types import TracebackType
from typing import Any, Optional

from common import Bad

PROGRAMS = ("chromium", "chromium-browser", "google-chrome")
READ_END, WRITE_END = 3, 4  # where Chromium has the pipes
TOLD = ("Runtime.exceptionThrown", "Log.entryAdded", "Runtime.consoleAPICalled", "Network.requestWillBeSent")
PATIENCE = 60.0  # seconds


def chromium() -> Optional[str]:
    """Where Chromium is, or nothing."""
    found = [shutil.which(name) for name in PROGRAMS]
    return next((it for it in found if it), None)


class Browser:
    """One page of Chromium; what it says of errors and of requests is kept in `events`."""

    def __init__(self, program: str) -> None:
        self.folder = tempfile.TemporaryDirectory(ignore_cleanup_errors=True)
        ours, theirs = os.pipe(), os.pipe()
        # Above the ends that Chromium wants, so that neither is closed on the way there.
        heard, said = os.dup2(ours[0], 103), os.dup2(theirs[1], 104)

        def place() -> None:
            os.dup2(heard, READ_END)
            os.dup2(said, WRITE_END)

        words = [program, "--headless=new", "--no-sandbox", "--disable-gpu", "--hide-scrollbars=false"]
        words += ["--disable-background-networking", "--no-first-run", "--force-color-profile=srgb"]
        words += [f"--user-data-dir={self.folder.name}", "--remote-debugging-pipe", "about:blank"]
        self.ran = subprocess.Popen(
            words, preexec_fn=place, close_fds=False, stdout=subprocess.DEVNULL, stderr=subprocess.DEVNULL
        )
        for end in (ours[0], theirs[1], heard, said):
            os.close(end)
        self.to, self.back = os.fdopen(ours[1], "wb"), os.fdopen(theirs[0], "rb")
        self.number, self.rest = 0, b""
        self.events: list[dict[str, Any]] = []
        self.traced: list[dict[str, Any]] = []  # what Tracing.start asked for
        self.is_traced = False  # whether all of it is there
        self.session: Optional[str] = None
        pages = self.call("Target.getTargets")["targetInfos"]
        target = next(it["targetId"] for it in pages if it["type"] == "page")
        self.session = self.call("Target.attachToTarget", targetId=target, flatten=True)["sessionId"]
        for domain in ("Page", "Runtime", "Log", "Network", "DOM"):
            self.call(f"{domain}.enable")

    def __enter__(self) -> "Browser":
        return self

    def __exit__(
        self,
        kind: Optional[type[BaseException]],
        error: Optional[BaseException],
        trace: Optional[TracebackType],
    ) -> None:
        self.session = None
        try:
            self.call("Browser.close")
            self.ran.wait(20)
        except (Bad, OSError, subprocess.TimeoutExpired):
            self.ran.kill()
            self.ran.wait()
        self.to.close()
        self.back.close()
        self.folder.cleanup()

    def call(self, method: str, **given: Any) -> dict[str, Any]:
        """Calls a method of the protocol, and gives what it answers."""
        self.number += 1
        said: dict[str, Any] = {"id": self.number, "method": method, "params": given}
        if self.session:
            said["sessionId"] = self.session
        self.to.write(json.dumps(said).encode() + b"\0")
        self.to.flush()
        while True:
            told = self.message()
            if told.get("id") == self.number:
                if "error" in told:
                    raise Bad(f"{method}: {told['error']}")
                result: dict[str, Any] = told["result"]
                return result
            self.hear(told)

    def hear(self, told: dict[str, Any]) -> None:
        """Keeps what is told without being asked for."""
        method = told.get("method")
        if method in TOLD:
            self.events.append(told)
        elif method == "Tracing.dataCollected":
            self.traced += told["params"]["value"]
        elif method == "Tracing.tracingComplete":
            self.is_traced = True

    def message(self) -> dict[str, Any]:
        """The next message."""
        while b"\0" not in self.rest:
            more = os.read(self.back.fileno(), 1 << 20)
            if not more:
                raise Bad("chromium ended")
            self.rest += more
        one, _, self.rest = self.rest.partition(b"\0")
        told: dict[str, Any] = json.loads(one)
        return told

    def value(self, script: str) -> Any:
        """What an expression of JavaScript gives."""
        told = self.call("Runtime.evaluate", expression=script, returnByValue=True, awaitPromise=True)
        if "exceptionDetails" in told:
            raise Bad(f"{script[:200]}: {str(told['exceptionDetails'])[:1_500]}")
        return told["result"].get("value")

    def wait(self, script: str, patience: float = PATIENCE) -> None:
        """Waits until an expression holds."""
        until = time.monotonic() + patience
        while not self.value(script):
            if time.monotonic() > until:
                raise Bad(f"never came: {script[:200]}")
            time.sleep(0.02)

    def size(self, width: int, height: int) -> None:
        """The size of the window."""
        given = {"width": width, "height": height, "deviceScaleFactor": 1, "mobile": width < 500}
        self.call("Emulation.setDeviceMetricsOverride", **given)

    def scheme(self, name: str) -> None:
        """Light or dark, as the user prefers."""
        features = [{"name": "prefers-color-scheme", "value": name}]
        self.call("Emulation.setEmulatedMedia", features=features)

    def open(self, address: str) -> None:
        """Opens an address anew."""
        self.call("Page.navigate", url="about:blank")
        self.call("Page.navigate", url=address)

    def key(self, name: str, code: int, modifiers: int = 0) -> None:
        """Presses a key; 2 is Control."""
        for kind in ("rawKeyDown", "keyUp"):
            given = {"key": name, "code": name, "windowsVirtualKeyCode": code, "modifiers": modifiers}
            self.call("Input.dispatchKeyEvent", type=kind, **given)

    def click(self, script: str) -> None:
        """Clicks with the mouse on the middle of the element that an expression gives."""
        self.value(f"({script}).scrollIntoView({{block: 'center'}})")
        # What is scrolled is drawn in the next frame.
        self.value("new Promise((done) => requestAnimationFrame(() => requestAnimationFrame(done)))")
        box = self.value(f"({script}).getBoundingClientRect().toJSON()")
        x, y = box["x"] + box["width"] / 2, box["y"] + box["height"] / 2
        for kind in ("mousePressed", "mouseReleased"):
            self.call("Input.dispatchMouseEvent", type=kind, x=x, y=y, button="left", clickCount=1)

    def drop(self, file: Path, script: str) -> None:
        """Drops a file on the middle of the element that an expression gives."""
        box = self.value(f"({script}).getBoundingClientRect().toJSON()")
        data = {"items": [], "files": [str(file.resolve())], "dragOperationsMask": 1}
        for kind in ("dragEnter", "dragOver", "drop"):
            x, y = box["x"] + box["width"] / 2, box["y"] + box["height"] / 2
            self.call("Input.dispatchDragEvent", type=kind, x=x, y=y, data=data)

    def picture(self, file: Path, whole: bool = False) -> None:
        """Takes a picture of the window, or of the whole page."""
        told = self.call("Page.captureScreenshot", format="png", captureBeyondViewport=whole)
        file.write_bytes(base64.b64decode(told["data"]))
