"""Who may ask: whoever has the secret, in a page of this server.

Other users of the machine reach the port, and so does any page that the browser shows. The secret keeps both out: it is drawn anew for
each run, stands in a file that only this user can read, and comes back as a header, which no other page can send without leave. The
address that a request names is compared too, so that a name that is turned to this machine (DNS rebinding) is refused.
"""

import hmac
import html
import os
import secrets
import shutil
import tempfile
from email.message import Message
from pathlib import Path
from types import TracebackType
from typing import List, Optional, Type

HOST = "127.0.0.1"
SECRET_BYTES = 16
SECRET_HEADER = "X-Gract-Secret"

# A page of this server loads what stands on it, and nothing else may show it or be run in it.
HEADERS = {
    "Content-Security-Policy": "default-src 'none'; script-src 'self'; style-src 'self'; connect-src 'self'; img-src 'self'; "
                               "frame-ancestors 'none'; base-uri 'none'; form-action 'none'; require-trusted-types-for 'script'",
    "X-Content-Type-Options": "nosniff",
    "Referrer-Policy": "no-referrer",
    "Cache-Control": "no-store",
    "Cross-Origin-Opener-Policy": "same-origin",
    "Cross-Origin-Resource-Policy": "same-origin",
}

START = """<!DOCTYPE html>
<html lang="en"><head><meta charset="utf-8"><meta http-equiv="Content-Security-Policy" content="default-src 'none'">
<meta name="referrer" content="no-referrer"><meta http-equiv="refresh" content="0; url={address}"><title>gract</title></head>
<body><a href="{address}">Open the map</a></body></html>
"""


class Guard:
    """The secret of a run, and its port."""

    def __init__(self, port: int):
        self.port = port
        self.secret = secrets.token_hex(SECRET_BYTES)
        self.host = f"{HOST}:{port}"
        self.origin = f"http://{self.host}"

    def refusal(self, headers: Message, asks: bool) -> Optional[str]:
        """Why a request is refused, if it is; `asks` where it is more than a file of the page. Each header that is compared stands there
        once."""
        if headers.get_all("Host") != [self.host]:
            return f"the address is {self.origin}, and no other"
        origin: List[str] = headers.get_all("Origin", [])
        if origin != [self.origin] and (asks or origin):
            return "the request comes from another page"
        given: List[str] = headers.get_all(SECRET_HEADER, [])
        if asks and not (len(given) == 1 and hmac.compare_digest(given[0].encode(), self.secret.encode())):
            return "the secret is missing, or is that of another run"
        return None

    def address(self, state: str = "") -> str:
        """The address that opens the page, with what it is to show."""
        return f"{self.origin}/#secret={self.secret}{'&' + state if state else ''}"


class StartFile:
    """The file that opens the page, in a folder of its own, for this user alone. It is a context manager; its end takes the file away.
    The browser is given its name, since what a program is given is shown by `ps`."""

    def __init__(self, address: str):
        self._folder = Path(tempfile.mkdtemp(prefix="gract-explore-"))
        self.file = self._folder / "start.html"
        handle = os.open(self.file, os.O_WRONLY | os.O_CREAT | os.O_EXCL, 0o600)
        with open(handle, "w", encoding="utf-8") as file:
            file.write(START.format(address=html.escape(address)))

    def __enter__(self) -> "StartFile":
        return self

    def __exit__(self, kind: Optional[Type[BaseException]], fault: Optional[BaseException], trace: Optional[TracebackType]) -> None:
        shutil.rmtree(self._folder, ignore_errors=True)
