"""Headless Chromium over two pipes, by its DevTools protocol: JSON, each message ended by NUL."""
import base64
import json
import os
import select
import shutil
import subprocess
import tempfile
import time
from typing import Any, Dict, List, Optional

from bbeq_tools.cli import Fault

NAMES = ("chromium", "chromium-browser", "google-chrome", "chrome")
LIMIT = 60.0  # Seconds for one answer.
MOST_HEIGHT = 12_000  # Of a picture.


def find_browser() -> Optional[str]:
    return next(filter(None, map(shutil.which, NAMES)), None)


class Browser:
    """A browser with one page that is so many pixels wide. It is ended where the block ends."""

    def __init__(self, width: int) -> None:
        program = find_browser()
        if not program:
            raise Fault("chromium is not installed, which a picture needs (Debian: apt-get install "
                        "chromium)")
        self.width, self.sent, self.buffer = width, 0, b""
        self.events: List[Dict[str, Any]] = []
        self.folder = tempfile.TemporaryDirectory(prefix="browser")
        read_by_it, self.write_end = os.pipe()
        self.read_end, written_by_it = os.pipe()

        def connect() -> None:
            """Puts the pipes where the browser looks for them."""
            low, high = os.dup(read_by_it), os.dup(written_by_it)
            os.dup2(low, 3)
            os.dup2(high, 4)

        words = [program, "--headless", "--remote-debugging-pipe", "--disable-gpu",
                 "--hide-scrollbars", "--no-first-run", f"--user-data-dir={self.folder.name}",
                 "--disable-lcd-text", "--force-color-profile=srgb"]
        if os.geteuid() == 0:
            words.append("--no-sandbox")
        self.process = subprocess.Popen([*words, "about:blank"], stdin=subprocess.DEVNULL,
                                        stdout=subprocess.DEVNULL, stderr=subprocess.DEVNULL,
                                        preexec_fn=connect, close_fds=False)
        os.close(read_by_it)
        os.close(written_by_it)
        self.session: Optional[str] = None

    def __enter__(self) -> "Browser":
        try:
            pages = self.call("Target.getTargets")["targetInfos"]
            aim = next(page["targetId"] for page in pages if page["type"] == "page")
            self.session = self.call("Target.attachToTarget", targetId=aim,
                                     flatten=True)["sessionId"]
            self.call("Page.enable")
            self.call("Network.enable")
            self.size(800)
        except BaseException:
            self.__exit__()
            raise
        return self

    def __exit__(self, *_: object) -> None:
        self.process.terminate()
        try:
            self.process.wait(10)
        except subprocess.TimeoutExpired:
            self.process.kill()
            self.process.wait()
        os.close(self.write_end)
        os.close(self.read_end)
        shutil.rmtree(self.folder.name, ignore_errors=True)
        self.folder.cleanup()

    def call(self, method: str, **words: Any) -> Dict[str, Any]:
        """What the browser answers."""
        self.sent += 1
        message: Dict[str, Any] = {"id": self.sent, "method": method, "params": words}
        if self.session:
            message["sessionId"] = self.session
        os.write(self.write_end, json.dumps(message).encode() + b"\0")
        while True:
            answer = self.message()
            if answer.get("id") == self.sent:
                if "error" in answer:
                    raise Fault(f"chromium: {answer['error'].get('message')}")
                return answer.get("result", {})
            self.events.append(answer)

    def message(self) -> Dict[str, Any]:
        end = time.monotonic() + LIMIT
        while b"\0" not in self.buffer:
            ready, _, _ = select.select([self.read_end], [], [], max(0.0, end - time.monotonic()))
            more = os.read(self.read_end, 1 << 20) if ready else b""
            if not more:
                raise Fault("chromium gives no answer")
            self.buffer += more
        text, _, self.buffer = self.buffer.partition(b"\0")
        return json.loads(text)

    def size(self, height: int) -> None:
        self.call("Emulation.setDeviceMetricsOverride", width=self.width, height=height,
                  deviceScaleFactor=1, mobile=False)

    def open(self, path: str) -> None:
        """Opens a file, and waits until it is loaded."""
        self.events.clear()
        self.call("Page.navigate", url="file://" + os.path.abspath(path))
        while not any(event.get("method") == "Page.loadEventFired" for event in self.events):
            self.events.append(self.message())

    def value(self, script: str) -> Any:
        """What a line of JavaScript gives in the page."""
        return self.call("Runtime.evaluate", expression=script,
                         returnByValue=True)["result"].get("value")

    def picture(self) -> bytes:
        """The whole page as PNG."""
        height = min(MOST_HEIGHT, int(self.value("document.documentElement.scrollHeight")))
        self.size(height)
        shot = self.call("Page.captureScreenshot", format="png")
        return base64.b64decode(shot["data"])
