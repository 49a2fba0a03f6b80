"""A browser driven through WebDriver by plain HTTP: as much of the protocol as the browser's test needs."""

from __future__ import annotations

import base64
import json
import os
import socket
import subprocess
import time
import urllib.error
import urllib.request
from collections.abc import Callable
from pathlib import Path
from typing import Any

ELEMENT = "element-6066-11e4-a52e-4f735466cecf"
SECONDS = 20.0


class DriverError(Exception):
    """What the driver answers in place of a value."""


class Element:
    """An element of the page."""

    def __init__(self, browser: Browser, number: str) -> None:
        self.browser = browser
        self.number = number

    def click(self) -> None:
        self.browser.call("POST", f"/element/{self.number}/click", {})

    def type(self, text: str) -> None:
        self.browser.call("POST", f"/element/{self.number}/value", {"text": text})

    def clear(self) -> None:
        self.browser.call("POST", f"/element/{self.number}/clear", {})

    @property
    def text(self) -> str:
        return self.browser.call("GET", f"/element/{self.number}/text")

    def attribute(self, name: str) -> str | None:
        return self.browser.call("GET", f"/element/{self.number}/attribute/{name}")

    def hover(self) -> None:
        """Moves the mouse to the middle of the element."""
        origin = {ELEMENT: self.number}
        self.browser.move(origin, 0, 0)


class Browser:
    """Chromium without a screen, driven by chromedriver. It ends with the `with` block."""

    def __init__(self) -> None:
        with socket.socket() as free:
            free.bind(("127.0.0.1", 0))
            port = free.getsockname()[1]
        self.address = f"http://127.0.0.1:{port}"
        self.driver = subprocess.Popen(
            ["chromedriver", f"--port={port}"], stdout=subprocess.DEVNULL, stderr=subprocess.DEVNULL
        )
        arguments = ["--headless=new", "--disable-gpu", "--force-color-profile=srgb"]
        if os.geteuid() == 0:
            arguments.append("--no-sandbox")
        wanted = {
            "browserName": "chrome",
            "goog:chromeOptions": {"args": arguments},
            "goog:loggingPrefs": {"browser": "ALL"},
        }
        self.session = ""
        until(lambda: self._ready())
        value = self._http("POST", "/session", {"capabilities": {"alwaysMatch": wanted}})
        self.session = value["sessionId"]

    def __enter__(self) -> Browser:
        return self

    def __exit__(self, *_: object) -> None:
        try:
            self.call("DELETE", "", None)
        finally:
            self.driver.terminate()
            self.driver.wait(10)

    def _ready(self) -> bool:
        try:
            return bool(self._http("GET", "/status", None)["ready"])
        except OSError:
            return False

    def _http(self, method: str, path: str, body: Any) -> Any:
        data = None if body is None else json.dumps(body).encode()
        request = urllib.request.Request(self.address + path, data, {"Content-Type": "application/json"}, method=method)
        try:
            with urllib.request.urlopen(request, timeout=60) as answer:
                return json.load(answer)["value"]
        except urllib.error.HTTPError as error:
            value = json.load(error)["value"]
            raise DriverError(f"{method} {path}: {value['error']}: {value['message'].splitlines()[0]}") from None

    def call(self, method: str, path: str, body: Any = None) -> Any:
        return self._http(method, f"/session/{self.session}{path}", body)

    def open(self, address: str) -> None:
        self.call("POST", "/url", {"url": address})

    def find(self, selector: str) -> Element:
        value = self.call("POST", "/element", {"using": "css selector", "value": selector})
        return Element(self, value[ELEMENT])

    def run(self, script: str, *arguments: Any) -> Any:
        return self.call("POST", "/execute/sync", {"script": script, "args": list(arguments)})

    def keys(self, *keys: str) -> None:
        """Presses keys, each down and up; one of the form "Shift 1" with Shift held."""
        actions = []
        for key in keys:
            held = key.startswith("Shift ")
            plain = key.removeprefix("Shift ")
            press = [{"type": "keyDown", "value": plain}, {"type": "keyUp", "value": plain}]
            if held:
                press = [{"type": "keyDown", "value": "\ue008"}, *press, {"type": "keyUp", "value": "\ue008"}]
            actions += press
        self.call("POST", "/actions", {"actions": [{"type": "key", "id": "keys", "actions": actions}]})

    def move(self, origin: Any, x: int, y: int, click: bool = False) -> None:
        """Moves the mouse, and clicks there if wanted."""
        actions: list[dict[str, Any]] = [{"type": "pointerMove", "duration": 0, "x": x, "y": y, "origin": origin}]
        if click:
            actions += [{"type": "pointerDown", "button": 0}, {"type": "pointerUp", "button": 0}]
        mouse = {"type": "pointer", "id": "mouse", "parameters": {"pointerType": "mouse"}, "actions": actions}
        self.call("POST", "/actions", {"actions": [mouse]})

    def devtools(self, command: str, **fields: Any) -> Any:
        return self.call("POST", "/goog/cdp/execute", {"cmd": command, "params": fields})

    def size(self, width: int, height: int, phone: bool = False) -> None:
        """The page's width and height; a phone's has two points to the pixel."""
        scale = 2 if phone else 1
        fields = {"width": width, "height": height, "deviceScaleFactor": scale, "mobile": phone}
        self.devtools("Emulation.setDeviceMetricsOverride", **fields)

    def dark(self, dark: bool) -> None:
        scheme = {"name": "prefers-color-scheme", "value": "dark" if dark else "light"}
        self.devtools("Emulation.setEmulatedMedia", features=[scheme])

    def screenshot(self, path: Path, whole: bool = False) -> None:
        """A picture of what is seen, or of the whole page."""
        shot = self.devtools("Page.captureScreenshot", format="png", captureBeyondViewport=whole)
        path.write_bytes(base64.b64decode(shot["data"]))

    def print(self, path: Path) -> None:
        """The page as it is printed, on the paper that it asks for."""
        made = self.devtools("Page.printToPDF", preferCSSPageSize=True, printBackground=True)
        path.write_bytes(base64.b64decode(made["data"]))

    def complaints(self) -> list[str]:
        """What the browser's console complained of."""
        entries = self.call("POST", "/se/log", {"type": "browser"})
        return [entry["message"] for entry in entries if entry["level"] != "INFO"]


def until(met: Callable[[], Any], seconds: float = SECONDS) -> Any:
    """Waits until a condition is met, and answers what it gave."""
    end = time.monotonic() + seconds
    while True:
        try:
            value = met()
        except DriverError:
            value = None
        if value:
            return value
        if time.monotonic() > end:
            raise TimeoutError("the page did not come to what was waited for")
        time.sleep(0.05)
