"""The server of a page: files that are known beforehand, and answers to a page that has the secret."""

import http.server
import json
import re
import select
import socket
import socketserver
import threading
import time
from http import HTTPStatus
from io import BytesIO
from pathlib import Path
from typing import Any, Callable, Dict, Mapping, NamedTuple, Optional

from ..errors import ArgumentError, ChangedError, GractError
from .charts import Gone, TooLong
from .guard import HEADERS, HOST, Guard

MOST_CONNECTIONS, MOST_SILENT = 8, 64
MOST_HEAD, MOST_BODY = 16 << 10, 64 << 10

# How long a request may take to come, and an answer to go, in seconds.
COMES, GOES = 5.0, 30.0

LENGTH = re.compile(rb"\r\ncontent-length:[ \t]*([0-9]{1,9})[ \t]*\r\n", re.IGNORECASE)

KINDS = {".html": "text/html", ".js": "text/javascript", ".css": "text/css", ".svg": "image/svg+xml"}
BYTES, JSON = "application/octet-stream", "application/json"
PAGE = Path(__file__).with_name("page")


class Answer(NamedTuple):
    """What a request is answered: the kind of the bytes, and the bytes."""

    kind: str
    body: bytes


# Answers what a page asks, a JSON object; the other argument tells whether the page has gone.
Route = Callable[[Dict[str, Any], Callable[[], bool]], Answer]


def told(value: Any) -> Answer:
    """A value as JSON."""
    return Answer(JSON, json.dumps(value, ensure_ascii=False, separators=(",", ":")).encode("utf-8", "replace"))


def page_files() -> Dict[str, Answer]:
    """The files of the page by their paths. A request names one of these, or nothing."""
    files = {f"/{file.name}": file for file in PAGE.iterdir() if file.suffix in KINDS}
    found = {path: Answer(f"{KINDS[file.suffix]}; charset=utf-8", file.read_bytes()) for path, file in files.items()}
    found["/"] = found.pop("/index.html")
    return found


class Refused(Exception):
    """A request that is no question: the status, and a sentence."""

    def __init__(self, status: HTTPStatus, sentence: str):
        super().__init__(sentence)
        self.status = status


def read_request(connection: socket.socket) -> bytes:
    """The bytes of a request, all of which come in time and within bounds. Empty where nothing comes."""
    deadline, data = time.monotonic() + COMES, b""
    while b"\r\n\r\n" not in data:
        if len(data) > MOST_HEAD:
            raise Refused(HTTPStatus.REQUEST_HEADER_FIELDS_TOO_LARGE, f"a request has at most {MOST_HEAD} bytes before its body")
        piece = read_piece(connection, deadline)
        if not piece:
            return b""
        data += piece
    head, _, body = data.partition(b"\r\n\r\n")
    found = LENGTH.search(head + b"\r\n")
    size = int(found.group(1)) if found else 0
    if size > MOST_BODY:
        raise Refused(HTTPStatus.REQUEST_ENTITY_TOO_LARGE, f"a body has at most {MOST_BODY} bytes")
    if len(body) > size:
        raise Refused(HTTPStatus.BAD_REQUEST, "one request at a time")
    while len(body) < size:
        piece = read_piece(connection, deadline)
        if not piece:
            return b""
        body += piece
    return head + b"\r\n\r\n" + body


def read_piece(connection: socket.socket, deadline: float) -> bytes:
    """The next bytes of a connection; none at its end. Refuses where the time is over."""
    left = deadline - time.monotonic()
    if left > 0:
        connection.settimeout(left)
        try:
            return connection.recv(1 << 16)
        except socket.timeout:
            pass
    raise Refused(HTTPStatus.REQUEST_TIMEOUT, f"a request comes within {COMES:g} seconds")


class Handler(http.server.BaseHTTPRequestHandler):
    """One request on one connection."""

    server: "Server"
    protocol_version, default_request_version = "HTTP/1.1", "HTTP/1.0"
    # An answer goes at once: else the system would wait 40 ms for the page to acknowledge its head.
    disable_nagle_algorithm, wbufsize = True, -1
    server_version, sys_version = "gract", ""
    requestline = ""
    request_version = "HTTP/1.1"
    command = ""

    def handle(self) -> None:
        """Reads the request, and answers it. After whatever is refused the connection is closed."""
        self.close_connection = True
        try:
            try:
                data = read_request(self.connection)
                self.connection.settimeout(GOES)
                if data:
                    self.rfile = BytesIO(data)
                    self.handle_one_request()
            except Refused as refusal:
                self.close_connection = True
                self.connection.settimeout(GOES)
                self.tell(refusal.status, told({"refused": str(refusal), "kind": "Refused"}))
        except (OSError, Gone):
            # The page has gone.
            self.close_connection = True

    def do_GET(self) -> None:
        """A file of the page."""
        self.check(asks=False)
        found = self.server.files.get(self.path)
        if found is None:
            raise Refused(HTTPStatus.NOT_FOUND, "there is no such file")
        self.tell(HTTPStatus.OK, found)

    def do_POST(self) -> None:
        """A question of the page."""
        self.check(asks=True)
        route = self.server.routes.get(self.path)
        if route is None:
            raise Refused(HTTPStatus.NOT_FOUND, "there is no such question")
        asked = self.asked()
        try:
            answer = route(asked, self.is_gone)
        except GractError as refusal:
            self.tell(status_of(refusal), told({"refused": str(refusal), "kind": type(refusal).__name__}))
            return
        except (KeyError, TypeError, ValueError, IndexError, AttributeError) as fault:
            raise Refused(HTTPStatus.BAD_REQUEST, f"the question is not as it should be: {type(fault).__name__} {fault}") from None
        self.tell(HTTPStatus.OK, answer)

    def check(self, asks: bool) -> None:
        """Refuses a request of another page, and one without the secret."""
        sentence = self.server.guard.refusal(self.headers, asks)
        if sentence is not None:
            raise Refused(HTTPStatus.FORBIDDEN, sentence)

    def asked(self) -> Dict[str, Any]:
        """The object in the body. Refuses a body whose length is not told once, and one that is none."""
        if len(self.headers.get_all("Content-Length", [])) != 1 or "Transfer-Encoding" in self.headers:
            raise Refused(HTTPStatus.LENGTH_REQUIRED, "the length of the body is told once")
        if self.headers.get_all("Content-Type") != [JSON]:
            raise Refused(HTTPStatus.UNSUPPORTED_MEDIA_TYPE, f"a question is {JSON}")
        try:
            found = json.loads(self.rfile.read())
        except (ValueError, RecursionError):
            found = None
        if not isinstance(found, dict):
            raise Refused(HTTPStatus.BAD_REQUEST, "the body is no object in JSON")
        return found

    def is_gone(self) -> bool:
        """Whether the page has closed the connection."""
        try:
            if not select.select([self.connection], [], [], 0)[0]:
                return False
            return not self.connection.recv(1, socket.MSG_PEEK)
        except OSError:
            return True

    def tell(self, status: HTTPStatus, answer: Answer) -> None:
        """Sends an answer."""
        head = {**HEADERS, **self.server.marks(), "Content-Type": answer.kind, "Content-Length": str(len(answer.body))}
        self.send_response(status)
        for name, value in {**head, "Connection": "close" if self.close_connection else "keep-alive"}.items():
            self.send_header(name, value)
        self.end_headers()
        self.wfile.write(answer.body)

    def send_error(self, code: int, message: Optional[str] = None, explain: Optional[str] = None) -> None:
        """What http.server itself refuses, in the same form."""
        self.close_connection = True
        self.tell(HTTPStatus(code), told({"refused": message or HTTPStatus(code).phrase, "kind": "Refused"}))

    def log_message(self, format: str, *args: Any) -> None:
        """Says nothing: questions are nobody else's."""


def status_of(refusal: GractError) -> HTTPStatus:
    """The status of a refusal."""
    if isinstance(refusal, TooLong):
        return HTTPStatus.GATEWAY_TIMEOUT
    if isinstance(refusal, ChangedError):
        return HTTPStatus.CONFLICT
    return HTTPStatus.BAD_REQUEST if isinstance(refusal, ArgumentError) else HTTPStatus.INTERNAL_SERVER_ERROR


class Server(socketserver.ThreadingMixIn, socketserver.TCPServer):
    """Serves a page and answers it, on this machine alone: at most eight connections at once, while others wait. Browsers also keep
    connections that say nothing for a while; they take none of the eight."""

    daemon_threads = True
    allow_reuse_address = True
    request_queue_size = 64

    def __init__(self, routes: Mapping[str, Route], marks: Callable[[], Dict[str, str]] = dict, port: int = 0):
        self.routes, self.marks, self.files = dict(routes), marks, page_files()
        self.room = threading.BoundedSemaphore(MOST_CONNECTIONS)
        self._silent = threading.BoundedSemaphore(MOST_SILENT)
        super().__init__((HOST, port), Handler)
        self.guard = Guard(self.server_address[1])

    def process_request(self, request: Any, client_address: Any) -> None:
        """Answers a connection in a thread of its own."""
        self._silent.acquire()
        try:
            super().process_request(request, client_address)
        except BaseException:
            self._silent.release()
            raise

    def process_request_thread(self, request: Any, client_address: Any) -> None:
        """Answers the requests of a connection, each once it comes and there is room, until it is silent for too long."""
        try:
            is_open = True
            while is_open and select.select([request], [], [], COMES)[0]:
                with self.room:
                    is_open = not Handler(request, client_address, self).close_connection
        finally:
            self.shutdown_request(request)
            self._silent.release()
