"""A real browser for tests: chromium without a screen, driven by its debugging protocol through a pipe."""
import base64
import fcntl
import json
import os
import select
import shutil
import signal
import subprocess
import tempfile
import time
from types import TracebackType
from typing import Any, Optional

START, ANSWER = 90, 30                  # seconds in which it has to start, and to answer
OPTIONS = ("--headless --no-sandbox --disable-gpu --no-first-run --disable-extensions --mute-audio "
           "--disable-background-networking --disable-dev-shm-usage --remote-debugging-pipe").split()
CODES = {"Tab": 9, "Enter": 13, "Escape": 27, "ArrowUp": 38, "ArrowRight": 39, "ArrowDown": 40}
QUIET: Any = {"stdin": subprocess.DEVNULL, "stdout": subprocess.DEVNULL, "stderr": subprocess.DEVNULL}
MIDDLE = """(() => {
  const found = document.querySelector(%s);
  found.scrollIntoView({block: "nearest"});
  const box = found.getBoundingClientRect();
  return [box.x + box.width / 2, box.y + box.height / 2];
})()"""


class BrowserFailed(Exception):
    """It does not start, or does not answer."""


class PageFailed(Exception):
    """The page threw."""


def program() -> Optional[str]:
    """The path of a browser, if there is one."""
    return shutil.which("chromium") or shutil.which("chromium-browser")


def high(end: int) -> int:
    """The same end of a pipe, with a number that is not one of those that the browser takes."""
    other = fcntl.fcntl(end, fcntl.F_DUPFD_CLOEXEC, 20)
    os.close(end)
    return other


class Browser:
    """One browser with one page. At the end of the block it is ended, with all its processes."""

    def __init__(self, path: str) -> None:
        self.home = tempfile.mkdtemp()
        their_ear, self.mouth = (high(end) for end in os.pipe())
        self.ear, their_mouth = (high(end) for end in os.pipe())

        def ends() -> None:
            os.dup2(their_ear, 3)
            os.dup2(their_mouth, 4)

        self.process = subprocess.Popen(
            [path, *OPTIONS, "--user-data-dir=" + self.home, "about:blank"], preexec_fn=ends, pass_fds=(3, 4),
            start_new_session=True, env={**os.environ, "HOME": self.home, "TMPDIR": self.home}, **QUIET)
        os.close(their_ear)
        os.close(their_mouth)
        self.heard, self.last, self.session = b"", 0, ""
        self.errors: list[str] = []     # what pages threw, or were not allowed to do

    def __enter__(self) -> "Browser":
        try:
            pages = self.ask("Target.getTargets", limit=START)["targetInfos"]
            page = [one["targetId"] for one in pages if one["type"] == "page"]
            target = page[0] if page else self.ask("Target.createTarget", url="about:blank")["targetId"]
            self.session = self.ask("Target.attachToTarget", targetId=target, flatten=True)["sessionId"]
            for part in ("Page", "Runtime", "Log"):
                self.ask(part + ".enable")
        except BaseException:
            self.close()
            raise
        return self

    def __exit__(self, kind: Optional[type[BaseException]], failed: Optional[BaseException],
                 trace: Optional[TracebackType]) -> None:
        self.close()

    def close(self) -> None:
        """Ends the browser that was started here, by its own group of processes."""
        try:
            os.killpg(self.process.pid, signal.SIGKILL)
        except ProcessLookupError:
            pass
        self.process.wait()
        os.close(self.mouth)
        os.close(self.ear)
        shutil.rmtree(self.home, ignore_errors=True)

    def message(self, end: float) -> dict[str, Any]:
        """The next message, before the time ends."""
        while b"\0" not in self.heard:
            ready, _, _ = select.select([self.ear], [], [], max(0.0, end - time.monotonic()))
            more = os.read(self.ear, 1 << 20) if ready else b""
            if not more:
                raise BrowserFailed("the browser does not answer")
            self.heard += more
        first, self.heard = self.heard.split(b"\0", 1)
        found: dict[str, Any] = json.loads(first)
        return found

    def ask(self, method: str, limit: float = ANSWER, **words: Any) -> dict[str, Any]:
        """The answer to a line of the protocol."""
        self.last += 1
        sent: dict[str, Any] = {"id": self.last, "method": method, "params": words}
        if self.session:
            sent["sessionId"] = self.session
        try:
            os.write(self.mouth, json.dumps(sent).encode() + b"\0")
        except BrokenPipeError as broken:
            raise BrowserFailed("the browser ended") from broken
        end = time.monotonic() + limit
        while True:
            got = self.message(end)
            if got.get("method") in ("Runtime.exceptionThrown", "Log.entryAdded"):
                self.errors.append(json.dumps(got["params"])[:300])
            if got.get("id") == self.last:
                if "error" in got:
                    raise BrowserFailed("%s: %s" % (method, got["error"]))
                found: dict[str, Any] = got["result"]
                return found

    def run(self, code: str) -> Any:
        """What an expression is on the page."""
        got = self.ask("Runtime.evaluate", expression=code, returnByValue=True, awaitPromise=True)
        if "exceptionDetails" in got:
            raise PageFailed(str(got["exceptionDetails"])[:500])
        return got["result"].get("value")

    def settle(self) -> None:
        """Waits until what was asked for is drawn."""
        self.run("new Promise((done) => requestAnimationFrame(() => requestAnimationFrame(done)))")

    def size(self, width: int, height: int) -> None:
        """The size of the window."""
        self.ask("Emulation.setDeviceMetricsOverride", width=width, height=height, deviceScaleFactor=1,
                 mobile=False)

    def open(self, address: str) -> None:
        """Opens a page, and waits until all of it is there."""
        self.ask("Page.navigate", url=address)
        end = time.monotonic() + ANSWER
        wanted = "complete" + address.split("#")[0]
        while self.run("document.readyState + location.href.split('#')[0]") != wanted:
            if time.monotonic() > end:
                raise PageFailed("it is not loaded")
            time.sleep(0.05)
        self.settle()

    def press(self, key: str, text: str = "") -> None:
        """A key, pressed and let go."""
        code = CODES.get(key, ord(key[0]))
        self.ask("Input.dispatchKeyEvent", type="keyDown", key=key, text=text, windowsVirtualKeyCode=code)
        self.ask("Input.dispatchKeyEvent", type="keyUp", key=key, windowsVirtualKeyCode=code)
        self.settle()

    def mouse(self, kind: str, x: float, y: float, **words: Any) -> None:
        """What a mouse does: mousePressed, mouseMoved, mouseReleased, mouseWheel."""
        self.ask("Input.dispatchMouseEvent", type=kind, x=x, y=y, **words)

    def click(self, selector: str) -> None:
        """A click on the middle of an element."""
        x, y = self.run(MIDDLE % json.dumps(selector))
        for kind in ("mousePressed", "mouseReleased"):
            self.mouse(kind, x, y, button="left", clickCount=1)
        self.settle()

    def picture(self, path: str) -> bytes:
        """A screenshot, written to a file."""
        found = base64.b64decode(self.ask("Page.captureScreenshot", format="png")["data"])
        with open(path, "wb") as out:
            out.write(found)
        return found

    def paper(self) -> bytes:
        """The page as it is printed (PDF)."""
        return base64.b64decode(self.ask("Page.printToPDF", limit=START, printBackground=True)["data"])
