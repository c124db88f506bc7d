"""Headless Firefox, which is told what to do by WebDriver BiDi: texts of JSON over a web socket on loopback. A page has the same functions
as one of Chromium (browser.py), as far as a check of both needs them."""
import base64
import contextlib
import json
import os
import select
import shutil
import socket
import subprocess
import time
from typing import Any

from lib.browser import Event, Fault

HOST = "127.0.0.1"
SECONDS = 180  # a busy machine starts Firefox slowly

# The keys that are pressed, by their signs in WebDriver.
KEYS = {"Tab": "\ue004", "Enter": "\ue007"}

# How a web socket writes a length: its first byte, if that isn't the length, the greatest length, and how many bytes follow.
LENGTHS = [(0, 125, 0), (126, 0xffff, 2), (127, 1 << 62, 8)]
MASK = b"\x55"

# What Firefox would do by itself: it asks servers of its own, and shows pages to a new user. Those of BiDi are set by Firefox.
CHOICES: dict[str, bool | int | str] = {
    "app.normandy.enabled": False, "app.update.enabled": False, "browser.shell.checkDefaultBrowser": False,
    "browser.startup.page": 0, "datareporting.policy.dataSubmissionEnabled": False, "network.captive-portal-service.enabled": False,
    "network.connectivity-service.enabled": False, "signon.rememberSignons": False, "toolkit.telemetry.server": "data:,",
}

EVENTS = ["log.entryAdded", "network.beforeRequestSent", "network.responseCompleted", "network.fetchError"]


def installed() -> str | None:
    """The path of the browser, or None where there is none."""
    return shutil.which("firefox-esr") or shutil.which("firefox")


class Socket:
    """A web socket (RFC 6455) that sends and receives texts."""

    def __init__(self, port: int, path: str) -> None:
        self.connection = socket.create_connection((HOST, port), SECONDS)
        self.connection.setsockopt(socket.IPPROTO_TCP, socket.TCP_NODELAY, 1)
        self.read = b""
        key = base64.b64encode(os.urandom(16)).decode()
        fields = [f"GET {path} HTTP/1.1", f"Host: {HOST}:{port}", "Upgrade: websocket", "Connection: Upgrade", f"Sec-WebSocket-Key: {key}",
                  "Sec-WebSocket-Version: 13", "", ""]
        self.connection.sendall("\r\n".join(fields).encode())
        while b"\r\n\r\n" not in self.read:
            self.more()
        head, _, self.read = self.read.partition(b"\r\n\r\n")
        if not head.startswith(b"HTTP/1.1 101 "):
            raise Fault(f"the browser opens no web socket: {head.decode()}")

    def more(self) -> None:
        """Takes more bytes."""
        piece = self.connection.recv(1 << 16)
        if not piece:
            raise Fault("the browser has ended")
        self.read += piece

    def take(self, count: int) -> bytes:
        """The next bytes."""
        while len(self.read) < count:
            self.more()
        piece, self.read = self.read[:count], self.read[count:]
        return piece

    def send(self, text: str) -> None:
        """Sends a text, as one frame. Firefox takes none whose mask is zero."""
        data = text.encode()
        short, more = next((short, more) for short, most, more in LENGTHS if len(data) <= most)
        length = bytes([0x80 + (short or len(data))]) + (len(data).to_bytes(more) if more else b"")
        self.connection.sendall(b"\x81" + length + MASK * 4 + bytes(byte ^ MASK[0] for byte in data))

    def receive(self, seconds: float) -> str | None:
        """The next text; None if none begins within some seconds."""
        if not self.read and not select.select([self.connection], [], [], seconds)[0]:
            return None
        text, is_last = b"", False
        while not is_last:
            first, length = self.take(2)
            if length > 125:
                length = int.from_bytes(self.take(2 if length == 126 else 8))
            text += self.take(length)
            is_last = first > 127
        return text.decode()


class Browser:
    """A browser with a profile of its own in a folder."""

    def __init__(self, folder: str, languages: str, zone: str) -> None:
        os.makedirs(folder)
        choices: dict[str, bool | int | str] = {**CHOICES, "intl.accept_languages": languages}
        with open(os.path.join(folder, "user.js"), "w", encoding="utf-8") as file:
            file.writelines(f"user_pref({json.dumps(name)}, {json.dumps(value)});\n" for name, value in choices.items())
        environment = {**os.environ, "TZ": zone, "HOME": folder, "MOZ_CRASHREPORTER_DISABLE": "1"}
        words = [installed() or "", "--headless", "--no-remote", "--profile", folder, "--remote-debugging-port", "0", "about:blank"]
        self.process = subprocess.Popen(words, stdin=subprocess.DEVNULL, stdout=subprocess.DEVNULL, stderr=subprocess.DEVNULL,
                                        env=environment)
        self.number = 0
        self.replies: dict[int, dict[str, Any]] = {}
        self.events: list[Event] = []
        try:
            self.socket = Socket(self.port(folder), "/session")
            self.call("session.new", capabilities={})
            self.call("session.subscribe", events=EVENTS)
        except BaseException:
            self.process.kill()
            self.process.wait()
            raise

    def port(self, folder: str) -> int:
        """The port at which the browser listens, once it does."""
        last = time.monotonic() + SECONDS
        while time.monotonic() < last and self.process.poll() is None:
            with contextlib.suppress(FileNotFoundError, ValueError):
                with open(os.path.join(folder, "WebDriverBiDiServer.json"), encoding="utf-8") as file:
                    return int(json.load(file)["ws_port"])
            time.sleep(0.02)
        raise Fault("the browser doesn't listen")

    def __enter__(self) -> "Browser":
        return self

    def __exit__(self, *_: object) -> None:
        """Asks the browser to end, so that its own processes end too, and waits for it."""
        try:
            self.call("browser.close")
            self.process.wait(SECONDS)
        except (Fault, OSError, subprocess.TimeoutExpired):
            self.process.kill()
            self.process.wait()
        self.socket.connection.close()

    def take(self, seconds: float) -> bool:
        """Takes a message of the browser, and waits for it if there is none yet. Returns whether one came."""
        text = self.socket.receive(seconds)
        if text is None:
            return False
        message = json.loads(text)
        if message.get("id") is None:
            self.events.append((message["method"], message["params"]))
        else:
            self.replies[message["id"]] = message
        return True

    def call(self, method: str, **parameters: object) -> dict[str, Any]:
        """Calls a method, and returns its result."""
        self.number += 1
        self.socket.send(json.dumps({"id": self.number, "method": method, "params": parameters}))
        last = time.monotonic() + SECONDS
        while self.number not in self.replies:
            if not self.take(max(0, last - time.monotonic())):
                raise Fault(f"{method} gave no reply")
        reply = self.replies.pop(self.number)
        if reply["type"] == "error":
            raise Fault(f"{method}: {reply['error']}: {reply['message']}")
        return dict(reply["result"])

    def settle(self) -> None:
        """Takes all that the browser has sent."""
        while self.take(0):
            pass

    def page(self) -> "Page":
        """A new page."""
        return Page(self, self.call("browsingContext.create", type="tab")["context"])


class Page:
    """A page of the browser: a tab of its own."""

    def __init__(self, browser: Browser, context: str) -> None:
        self.browser = browser
        self.context = context

    def call(self, method: str, **parameters: object) -> dict[str, Any]:
        """Calls a method for this page, and returns its result."""
        return self.browser.call(method, context=self.context, **parameters)

    def events(self, *names: str) -> list[dict[str, Any]]:
        """The parameters of the page's events that have one of these names."""
        self.browser.settle()
        return [parameters for name, parameters in self.browser.events if name in names
                and self.context in (parameters.get("context"), parameters.get("source", {}).get("context"))]

    def run(self, expression: str) -> Any:
        """The value of an expression of JavaScript in the page."""
        made = self.browser.call("script.evaluate", expression=f"(async () => JSON.stringify([await ({expression})]))()",
                                 target={"context": self.context}, awaitPromise=True)
        if made["type"] != "success":
            raise Fault(f"{expression}: {made['exceptionDetails']['text']}")
        return json.loads(made["result"]["value"])[0]

    def until(self, expression: str) -> bool:
        """Waits until an expression is true. Returns whether it became so."""
        last = time.monotonic() + SECONDS
        while time.monotonic() < last:
            with contextlib.suppress(Fault):  # as while another page is loaded
                if self.run(expression):
                    return True
            time.sleep(0.02)
        return False

    def before_each(self, source: str) -> None:
        """Runs a script in each document that the page loads from now on, before its own ones."""
        self.browser.call("script.addPreloadScript", functionDeclaration=f"() => {{ {source} }}", contexts=[self.context])

    def open(self, address: str) -> None:
        """Loads an address, and waits until it is loaded."""
        self.call("browsingContext.navigate", url=address, wait="complete")

    def reload(self) -> None:
        """Begins to load the page again."""
        self.call("browsingContext.reload", wait="none")

    def act(self, kind: str, actions: list[dict[str, Any]]) -> None:
        """Does what keys or a mouse do."""
        self.call("input.performActions", actions=[{"type": kind, "id": kind, "actions": actions}])

    def press(self, key: str) -> None:
        """Presses a key."""
        self.type(KEYS[key])

    def type(self, text: str) -> None:
        """Types a text where the focus is."""
        self.act("key", [{"type": kind, "value": sign} for sign in text for kind in ("keyDown", "keyUp")])

    def press_at(self, x: float, y: float) -> None:
        """Presses the mouse at a place of what is seen."""
        self.act("pointer", [{"type": "pointerMove", "x": round(x), "y": round(y)}, {"type": "pointerDown", "button": 0},
                             {"type": "pointerUp", "button": 0}])

    def printed(self) -> bytes:
        """The page as it is printed, as PDF."""
        return base64.b64decode(self.call("browsingContext.print", background=True)["data"])
