"""Headless Chromium, which is told what to do by the Chrome DevTools Protocol over two pipes: texts of JSON, each with a NUL after it."""
import base64
import fcntl
import json
import os
import select
import shutil
import subprocess
import time
from collections.abc import Sequence
from typing import Any

SECONDS = 60
NAMES = ("chromium", "chromium-browser", "google-chrome", "google-chrome-stable")
Event = tuple[str, dict[str, Any]]  # the name of an event, and its parameters

# The keys that are pressed: the code of each, and the text that it types.
KEYS = {"Tab": (9, ""), "Enter": (13, "\r"), " ": (32, " ")}
SHIFT = 8


def installed() -> str | None:
    """The path of the browser, or None where there is none."""
    return next((path for path in map(shutil.which, NAMES) if path), None)


class Fault(Exception):
    """What the browser refused, or didn't do in time."""


class Browser:
    """A browser with a profile of its own in a folder."""

    def __init__(self, folder: str, languages: str, zone: str) -> None:
        reads, self.target = os.pipe()
        self.source, writes = os.pipe()

        def take_pipes() -> None:
            """Gives the browser the pipes as its files 3 and 4, from which it reads and to which it writes."""
            copies = [fcntl.fcntl(number, fcntl.F_DUPFD_CLOEXEC, 16) for number in (reads, writes)]
            os.dup2(copies[0], 3)
            os.dup2(copies[1], 4)

        words = [installed() or "", "--headless=new", "--no-sandbox", "--ignore-certificate-errors", "--remote-debugging-pipe", "--no-first-run",
                 "--disable-gpu", "--disable-dev-shm-usage", "--disable-background-networking", "--disable-component-update",
                 f"--user-data-dir={folder}", f"--accept-lang={languages}", f"--lang={languages.split(',')[0]}", "about:blank"]
        environment = {**os.environ, "TZ": zone, "LANGUAGE": languages.split(",")[0],
                       **{name: folder for name in ("HOME", "XDG_CONFIG_HOME", "XDG_CACHE_HOME")}}
        # All files of this process but the standard ones are closed in the browser, as they are not inheritable.
        self.process = subprocess.Popen(words, stdin=subprocess.DEVNULL, stdout=subprocess.DEVNULL, stderr=subprocess.DEVNULL, env=environment,
                                        close_fds=False, preexec_fn=take_pipes)
        os.close(reads)
        os.close(writes)
        self.read = b""
        self.number = 0
        self.replies: dict[int, dict[str, Any]] = {}
        self.events: dict[str, list[Event]] = {}

    def __enter__(self) -> "Browser":
        return self

    def __exit__(self, *_: object) -> None:
        """Asks the browser to end, so that its own processes end too, and waits for it."""
        try:
            self.call("Browser.close")
            self.process.wait(SECONDS)
        except (Fault, OSError, subprocess.TimeoutExpired):
            self.process.kill()
            self.process.wait()
        os.close(self.target)
        os.close(self.source)

    def take(self, seconds: float) -> bool:
        """Takes what the browser has sent, and waits for it if there is nothing yet. Returns whether something came."""
        if not select.select([self.source], [], [], seconds)[0]:
            return False
        piece = os.read(self.source, 1 << 20)
        if not piece:
            raise Fault("the browser has ended")
        *messages, self.read = (self.read + piece).split(b"\0")
        for message in map(json.loads, messages):
            if "id" in message:
                self.replies[message["id"]] = message
            else:
                self.events.setdefault(message.get("sessionId", ""), []).append((message["method"], message["params"]))
        return True

    def call(self, method: str, session: str = "", **parameters: object) -> dict[str, Any]:
        """Calls a method, and returns its result."""
        self.number += 1
        message = {"id": self.number, "method": method, "params": parameters, **({"sessionId": session} if session else {})}
        os.write(self.target, json.dumps(message).encode() + b"\0")
        last = time.monotonic() + SECONDS
        while self.number not in self.replies:
            if not self.take(max(0, last - time.monotonic())):
                raise Fault(f"{method} gave no reply")
        reply = self.replies.pop(self.number)
        if "error" in reply:
            raise Fault(f"{method}: {reply['error']}")
        return dict(reply["result"])

    def page(self) -> "Page":
        """A new page."""
        target = self.call("Target.createTarget", url="about:blank")["targetId"]
        return Page(self, self.call("Target.attachToTarget", targetId=target, flatten=True)["sessionId"])


class Page:
    """A page of the browser: a tab of its own."""

    def __init__(self, browser: Browser, session: str) -> None:
        self.browser = browser
        self.session = session
        for domain in ("Page", "Runtime", "Log", "Network", "DOM", "Accessibility"):
            self.call(f"{domain}.enable")

    def call(self, method: str, **parameters: object) -> dict[str, Any]:
        """Calls a method for this page, and returns its result."""
        return self.browser.call(method, self.session, **parameters)

    def events(self, *names: str) -> list[dict[str, Any]]:
        """The parameters of the page's events that have one of these names."""
        while self.browser.take(0):
            pass
        return [parameters for name, parameters in self.browser.events.get(self.session, []) if name in names]

    def run(self, expression: str) -> Any:
        """The value of an expression of JavaScript in the page."""
        made = self.call("Runtime.evaluate", expression=expression, awaitPromise=True, returnByValue=True)
        if "exceptionDetails" in made:
            raise Fault(f"{expression}: {made['exceptionDetails']}")
        return made["result"].get("value")

    def until(self, expression: str) -> bool:
        """Waits until an expression is true. Returns whether it became so."""
        last = time.monotonic() + SECONDS
        while time.monotonic() < last:
            try:
                if self.run(expression):
                    return True
            except Fault:  # as while another page is loaded
                pass
            time.sleep(0.02)
        return False

    def before_each(self, source: str) -> None:
        """Runs a script in each document that the page loads from now on, before its own ones."""
        self.call("Page.addScriptToEvaluateOnNewDocument", source=source)

    def open(self, address: str) -> None:
        """Loads an address, and waits until it is loaded."""
        self.call("Page.navigate", url=address)
        self.until(f"document.readyState === 'complete' && location.href.startsWith({json.dumps(address)})")

    def press(self, key: str, modifiers: int = 0) -> None:
        """Presses a key."""
        code, text = KEYS[key]
        common = {"key": key, "code": "Space" if key == " " else key, "windowsVirtualKeyCode": code, "modifiers": modifiers}
        self.call("Input.dispatchKeyEvent", type="keyDown", text=text, **common)
        self.call("Input.dispatchKeyEvent", type="keyUp", **common)

    def type(self, text: str) -> None:
        """Types a text where the focus is."""
        self.call("Input.insertText", text=text)

    def press_at(self, x: float, y: float) -> None:
        """Presses the mouse at a place of what is seen."""
        for kind in ("mousePressed", "mouseReleased"):
            self.call("Input.dispatchMouseEvent", type=kind, x=x, y=y, button="left", clickCount=1)

    def choose_files(self, selector: str, paths: Sequence[str]) -> None:
        """Chooses files in a file field."""
        root = self.call("DOM.getDocument")["root"]["nodeId"]
        node = self.call("DOM.querySelector", nodeId=root, selector=selector)["nodeId"]
        self.call("DOM.setFileInputFiles", nodeId=node, files=list(paths))

    def drop_files(self, selector: str, paths: Sequence[str]) -> None:
        """Drags files from outside to an element, and drops them there."""
        x, y = self.run(f"""(() => {{
            const element = document.querySelector({json.dumps(selector)});
            element.scrollIntoView({{ block: "center" }});
            const box = element.getBoundingClientRect();
            return [box.x + box.width / 2, box.y + box.height / 2];
        }})()""")
        for kind in ("dragEnter", "dragOver", "drop"):
            self.call("Input.dispatchDragEvent", type=kind, x=x, y=y, data={"items": [], "files": list(paths), "dragOperationsMask": 1})

    def printed(self) -> bytes:
        """The page as it is printed, as PDF."""
        return base64.b64decode(self.call("Page.printToPDF", printBackground=True, preferCSSPageSize=True)["data"])

    def resize(self, width: int, height: int = 800) -> None:
        """Gives the page the size of a screen."""
        self.call("Emulation.setScrollbarsHidden", hidden=True)
        self.call("Emulation.setDeviceMetricsOverride", width=width, height=height, deviceScaleFactor=1, mobile=width < 600)

    def picture(self, path: str) -> None:
        """Writes a picture of the whole page, as PNG."""
        size = self.call("Page.getLayoutMetrics")["cssContentSize"]
        made = self.call("Page.captureScreenshot", format="png", captureBeyondViewport=True,
                         clip={"x": 0, "y": 0, "width": size["width"], "height": size["height"], "scale": 1})
        with open(path, "wb") as file:
            file.write(base64.b64decode(made["data"]))
