"""The server of a desk: on the loopback interface alone, and for those alone who know the token in its address.

A page of another site may make the browser send requests here. It does not know the token; and a request is refused
whose Host is not this server, or whose Origin is not this page. Nothing of a request names a file to be read.
"""

from __future__ import annotations

import json
import secrets
import sys
from collections.abc import Callable
from hmac import compare_digest
from http.server import BaseHTTPRequestHandler, ThreadingHTTPServer
from importlib.resources import files
from threading import Lock
from typing import Any
from urllib.parse import parse_qs, urlsplit

from ..picture.style import stylesheet
from ..refusal import Refusal
from ..streets.errors import ListError
from .saving import Exists, save
from .state import Desk, Wrong
from .view import picture, view

LOOPBACK = "127.0.0.1"

# The most bytes of a request. A pasted drive has up to 65,535 places.
MOST_BYTES = 4096
MOST_JUDGED = 1_048_576

PAGES = {
    "": ("desk.html", "text/html; charset=utf-8"),
    "desk.js": ("desk.js", "text/javascript; charset=utf-8"),
    "desk.css": ("desk.css", "text/css; charset=utf-8"),
}

HEADERS = {
    "Content-Security-Policy": "default-src 'none'; script-src 'self'; style-src 'self'; connect-src 'self'; "
    "img-src data:; base-uri 'none'; form-action 'none'; frame-ancestors 'none'",
    "X-Content-Type-Options": "nosniff",
    "X-Frame-Options": "DENY",
    "Referrer-Policy": "no-referrer",
    "Cross-Origin-Opener-Policy": "same-origin",
    "Cross-Origin-Resource-Policy": "same-origin",
    "Cache-Control": "no-store",
}


class Refused(Exception):
    """A request that is not taken: its status and a sentence."""

    def __init__(self, status: int, sentence: str) -> None:
        self.status = status
        super().__init__(sentence)


class DeskServer(ThreadingHTTPServer):
    """Serves one desk. `address` is what a browser opens."""

    daemon_threads = True

    def __init__(self, desk: Desk, port: int = 0) -> None:
        super().__init__((LOOPBACK, port), _Handler)
        self.desk = desk
        self.lock = Lock()
        self.token = secrets.token_urlsafe(24)
        self.hosts = {f"{LOOPBACK}:{self.server_port}", f"localhost:{self.server_port}"}

    @property
    def address(self) -> str:
        """The page's address, with the token."""
        return f"http://{LOOPBACK}:{self.server_port}/{self.token}/"

    def handle_error(self, request: Any, client_address: Any) -> None:
        """A browser that goes away in the middle is no error."""
        if not isinstance(sys.exception(), (ConnectionError, TimeoutError)):
            super().handle_error(request, client_address)


class _Handler(BaseHTTPRequestHandler):
    server: DeskServer
    protocol_version = "HTTP/1.1"
    server_version = "postman"
    sys_version = ""
    timeout = 60

    def do_GET(self) -> None:
        self._answer(self._got)

    def do_POST(self) -> None:
        self._answer(self._posted)

    def _answer(self, how: Callable[[str, dict[str, list[str]]], tuple[bytes, str]]) -> None:
        try:
            name, query = self._admitted()
            body, kind = how(name, query)
            status = 200
        except Refused as refused:
            # What is left of the request is not read.
            self.close_connection = True
            body, kind, status = _json({"error": str(refused)}), _JSON, refused.status
        except Exists as exists:
            body, kind, status = _json({"error": str(exists), "exists": exists.names}), _JSON, 409
        except Refusal as refusal:
            told = f"refusal {refusal.number}, {refusal.word}: {refusal.sentence}"
            body, kind, status = _json({"error": told, "refusal": refusal.number}), _JSON, 422
        except (Wrong, ListError) as wrong:
            body, kind, status = _json({"error": str(wrong)}), _JSON, 422
        self.send_response(status)
        for header, value in HEADERS.items():
            self.send_header(header, value)
        self.send_header("Content-Type", kind)
        self.send_header("Content-Length", str(len(body)))
        if self.close_connection:
            self.send_header("Connection", "close")
        self.end_headers()
        self.wfile.write(body)

    def _admitted(self) -> tuple[str, dict[str, list[str]]]:
        """The name that is asked for below the token, and its query; or a refusal."""
        hosts = self.headers.get_all("Host") or []
        if len(hosts) != 1 or hosts[0] not in self.server.hosts:
            raise Refused(421, "this is not the server that is asked for")
        for origin in self.headers.get_all("Origin") or []:
            if origin != f"http://{hosts[0]}":
                raise Refused(403, "another page asks")
        try:
            parts = urlsplit(self.path)
        except ValueError:
            raise Refused(400, "this is no address") from None
        _, token, *rest = parts.path.split("/", 2) + [""]
        if not compare_digest(token.encode(), self.server.token.encode()) or parts.path.count("/") < 2:
            raise Refused(404, "there is nothing here")
        return rest[0], parse_qs(parts.query)

    def _got(self, name: str, query: dict[str, list[str]]) -> tuple[bytes, str]:
        if name in PAGES:
            resource, kind = PAGES[name]
            text = files(__package__).joinpath(resource).read_text("utf-8")
            return (text + stylesheet() if name == "desk.css" else text).encode(), kind
        with self.server.lock:
            if name == "state":
                return _json(view(self.server.desk)), _JSON
            if name == "picture":
                which = query.get("view", ["drive"])[0]
                serial = self.server.desk.serial
                return _json({"serial": serial, "svg": picture(self.server.desk, which)}), _JSON
        raise Refused(404, "there is nothing here")

    def _posted(self, name: str, query: dict[str, list[str]]) -> tuple[bytes, str]:
        if not self.headers.get("Origin"):
            raise Refused(403, "a change has to come from the desk's page")
        if name not in ACTIONS:
            raise Refused(404, "there is nothing here")
        asked = self._body(MOST_JUDGED if name == "judge" else MOST_BYTES)
        with self.server.lock:
            said = ACTIONS[name](self.server.desk, Fields(asked))
            return _json({**view(self.server.desk), "said": said}), _JSON

    def _body(self, most: int) -> dict[str, Any]:
        """The object that was sent, of at most so many bytes."""
        if self.headers.get_content_type() != "application/json":
            raise Refused(415, "send JSON")
        length = self.headers.get("Content-Length", "")
        if self.headers.get("Transfer-Encoding") or not (length.isascii() and length.isdigit()):
            raise Refused(411, "say how long it is")
        if len(length) > 9 or int(length) > most:
            raise Refused(413, f"this is longer than {most} bytes")
        data = self.rfile.read(int(length))
        try:
            value = json.loads(data)
        except (ValueError, RecursionError):
            raise Refused(400, "this is no JSON") from None
        if not isinstance(value, dict):
            raise Refused(400, "send an object")
        return value

    def log_message(self, format: str, *args: Any) -> None:
        """Nothing is logged: the address holds the token."""


_JSON = "application/json; charset=utf-8"


def _json(value: Any) -> bytes:
    return json.dumps(value, ensure_ascii=False).encode()


class Fields:
    """The fields of a request, each of the kind that it has to be."""

    def __init__(self, fields: dict[str, Any]) -> None:
        self._fields = fields

    def number(self, name: str) -> int:
        value = self.number_if(name)
        if value is None:
            raise Refused(400, f"{name} is missing")
        return value

    def number_if(self, name: str) -> int | None:
        value = self._fields.get(name)
        if value is not None and type(value) is not int:
            raise Refused(400, f"{name} is no whole number")
        return value

    def text(self, name: str) -> str:
        value = self.text_if(name)
        if value is None:
            raise Refused(400, f"{name} is missing")
        return value

    def text_if(self, name: str) -> str | None:
        value = self._fields.get(name)
        if value is not None and not (isinstance(value, str) and _is_text(value)):
            raise Refused(400, f"{name} is no text")
        return value

    def yes(self, name: str) -> bool:
        value = self._fields.get(name, False)
        if not isinstance(value, bool):
            raise Refused(400, f"{name} is neither true nor false")
        return value


def _is_text(value: str) -> bool:
    """Whether all of it can be written: JSON's escapes can make half a letter, which no file holds."""
    return not any("\ud800" <= letter <= "\udfff" for letter in value)


def _arcs(desk: Desk, asked: Fields) -> list[int]:
    """The arc that is meant, and its way back if that is meant too."""
    arc = asked.number("arc")
    if not 0 <= arc < len(desk.opened.streets):
        raise Refusal(Refusal.FOREIGN)
    return [arc, *(desk.way_back(arc) if asked.yes("back") else [])]


def _change(desk: Desk, asked: Fields) -> None:
    checking = asked.number_if("checking")
    desk.change(_arcs(desk, asked), asked.text_if("standing"), asked.number_if("cost"), checking)


def _judge(desk: Desk, asked: Fields) -> str:
    cost, fault = desk.judge(asked.text("text"))
    return fault if cost is None else f"It is a drive, and costs {cost:,}."


def _save(desk: Desk, asked: Fields) -> str:
    return save(desk, asked.text("name"), asked.yes("over"))


ACTIONS: dict[str, Callable[[Desk, Fields], str | None]] = {
    "change": _change,
    "mark": lambda desk, asked: desk.mark(asked.number("mark")),
    "return": lambda desk, asked: desk.return_to(asked.number("mark")),
    "depart": lambda desk, asked: desk.depart(asked.number_if("weekday"), asked.number_if("minute")),
    "budget": lambda desk, asked: desk.spend(asked.number("budget")),
    "paint": lambda desk, asked: desk.paint(asked.number("car"), _arcs(desk, asked)),
    "share": lambda desk, asked: desk.share(),
    "clear": lambda desk, asked: desk.clear(),
    "judge": _judge,
    "save": _save,
}
