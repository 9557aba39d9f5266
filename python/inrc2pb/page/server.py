"""A server for the local page of one ward: one address with a secret, and no other origin."""

import contextlib
import hmac
import ipaddress
import sys
import threading
from http.server import BaseHTTPRequestHandler, ThreadingHTTPServer
from typing import Any, Callable
from urllib.parse import parse_qsl

from ..programs.interrupts import Interrupts
from ..programs.secrets_file import new_secret
from ..shown.markup import element
from .jobs import Jobs
from .site import HTML, Site

# The most bytes of a form and of its address, its most fields, and the seconds that a browser has
# for a request.
_MOST_BYTES = 10_000
_MOST_FIELDS = 20
_SECONDS = 20
_PAUSE = 0.2
# What a browser says of a form that another page sends.
_FOREIGN = ("cross-site", "same-site")
# The host that only programs of this machine reach.
LOCAL = "127.0.0.1"
_HEADERS = {
    "Content-Security-Policy": (
        "default-src 'none'; style-src 'unsafe-inline'; form-action 'self'; frame-ancestors 'none';"
        " base-uri 'none'"
    ),
    "Referrer-Policy": "same-origin",
    "X-Content-Type-Options": "nosniff",
    "Cache-Control": "no-store",
}


class _Handler(BaseHTTPRequestHandler):
    """A request of the browser. `site` is set in a subclass."""

    site: Site
    timeout = _SECONDS
    server_version = "inrc2pb-plan"
    sys_version = ""

    def do_GET(self) -> None:
        """Shows a page."""
        self._from_folder(self._get)

    def do_POST(self) -> None:
        """Takes a form, and leads to the page."""
        self._from_folder(self._post)

    def _from_folder(self, answer: Callable[[], None]) -> None:
        """Answers from the ward's folder, or says that it cannot be read, as one on a network share
        that is gone."""
        try:
            answer()
        except (ConnectionError, TimeoutError):
            raise
        except OSError as fault:
            what = f"{fault.filename or self.site.jobs.folder.top}: {fault.strerror}"
            self._refuse(
                503,
                (
                    f"{what}: nothing is lost: see that the ward's folder is there again, and load"
                    " this page again"
                ),
            )

    def _get(self) -> None:
        path, query = self._path()
        if path is None:
            return
        site, path = self.site.view(path)
        page = site.page(path, query)
        if page:
            self._answer(page.text, kind=page.kind)
        else:
            self._refuse(404, "there is no such page")

    def _post(self) -> None:
        path, _ = self._path()
        if path is None:
            return
        site, path = self.site.view(path)
        lengths: list[str] = self.headers.get_all("Content-Length", [])
        length = (
            _length(lengths[0])
            if len(lengths) == 1 and "Transfer-Encoding" not in self.headers
            else None
        )
        is_foreign = any(
            origin not in self.site.origins for origin in self.headers.get_all("Origin", [])
        )
        if is_foreign or self.headers.get("Sec-Fetch-Site") in _FOREIGN:
            return self._refuse(403, "this form is of another page")
        if path or length is None:
            return self._refuse(400, "this is no form of the page")
        try:
            fields = dict(parse_qsl(self.rfile.read(length).decode(), max_num_fields=_MOST_FIELDS))
        except ValueError:
            return self._refuse(400, "this is no form of the page")
        query = site.post(fields, self._sender())
        self.send_response(303)
        self.send_header("Location", f"{site.base}{query}")
        self.send_header("Content-Length", "0")
        self.end_headers()

    def _sender(self) -> str:
        """The address of the browser, if that is another machine. A proxy of this machine says it
        in a header, if there is one; others are not believed."""
        peer = ipaddress.ip_address(self.client_address[0])
        said = self.headers.get("X-Real-IP", "") if peer.is_loopback else ""
        with contextlib.suppress(ValueError):
            peer = ipaddress.ip_address(said)
        return "" if peer.is_loopback else str(peer)

    def _path(self) -> tuple[str | None, dict[str, str]]:
        """The part of the path after the secret, and the query; None if the request is refused."""
        place, _, query = self.path.partition("?")
        known = hmac.compare_digest(place[: len(self.site.base)].encode(), self.site.base.encode())
        hosts: list[str] = self.headers.get_all("Host", [])
        if (
            not known
            or len(hosts) != 1
            or hosts[0] not in self.site.hosts
            or len(self.path) > _MOST_BYTES
        ):
            self._refuse(403, "open the address that inrc2pb-plan has printed")
            return None, {}
        try:
            return place[len(self.site.base) :], dict(
                parse_qsl(query, keep_blank_values=True, max_num_fields=_MOST_FIELDS)
            )
        except ValueError:
            self._refuse(400, "this is no address of the page")
            return None, {}

    def _answer(self, text: str, status: int = 200, kind: str = HTML) -> None:
        data = text.encode("utf-8", errors="replace")
        self.send_response(status)
        for name, value in {"Content-Type": kind, **_HEADERS}.items():
            self.send_header(name, value)
        self.send_header("Content-Length", str(len(data)))
        self.end_headers()
        self.wfile.write(data)

    def _refuse(self, status: int, text: str) -> None:
        self.close_connection = True
        self._answer(f"<!DOCTYPE html><title>inrc2pb-plan</title>{element('p', text)}\n", status)

    def log_message(self, *_: object) -> None:
        """Nothing is logged: addresses have the secret."""


def _length(text: str) -> int | None:
    """The number of bytes of a form; None if it is none, or too large."""
    is_number = text.isascii() and text.isdecimal() and len(text) <= len(str(_MOST_BYTES))
    return int(text) if is_number and int(text) <= _MOST_BYTES else None


class _Server(ThreadingHTTPServer):
    """A server that says nothing of browsers that go away before they have their answer."""

    daemon_threads = True
    # The connections that wait to be taken: a whole ward may look at once.
    request_queue_size = 64

    def handle_error(self, request: Any, client_address: Any) -> None:
        """Tells a fault of the program."""
        if not isinstance(sys.exc_info()[1], (ConnectionError, TimeoutError)):
            super().handle_error(request, client_address)


class LocalServer:
    """A server that runs until a signal comes, at a port. `address` is that of its page. It begins
    with `origin`, if a proxy stands before the server, so that browsers know the page by another
    name, and ends with the secret, or else a new one.
    """

    def __init__(
        self, jobs: Jobs, host: str, port: int, origin: str = "", secret: str = ""
    ) -> None:
        self._jobs = jobs
        self._server = _Server((host, port), _Handler)
        self.port = self._server.server_port
        names = [host, "localhost"] if host == LOCAL else [host]
        site = Site(
            jobs,
            [origin] if origin else [f"http://{name}:{self.port}" for name in names],
            secret or new_secret(),
        )
        self._server.RequestHandlerClass = type("Handler", (_Handler,), {"site": site})
        self.address = f"{site.origins[0]}{site.base}"

    def run(self, signals: Interrupts) -> None:
        """Serves until a signal comes; a verb that runs is stopped, and keeps its best plan."""
        thread = threading.Thread(target=self._server.serve_forever, args=(_PAUSE,), daemon=True)
        thread.start()
        waiting = threading.Event()
        while not signals.caught:
            waiting.wait(_PAUSE)
        self._server.shutdown()
        self._jobs.wait()
        self._server.server_close()
