"""A page in the browser that shows what octets hold: `python3 -m krb.web [--port N] [FILE]`.

It serves one page on 127.0.0.1 alone, with what `krb.show` says of octets that are pasted or dropped: their fields beside the octets; of a capture of a network
the messages in it, as `krb.capture` tells them. It prints the address,
in which a random token stands: who does not know it gets nothing. There is no TLS, since nothing leaves the machine; nothing is written to disk, and nothing is
asked of any other server. docs/WEB.md has what is promised and what is not.

The library decodes; what the page is given is limited: MOST_BODY octets in a request, MOST_OCTETS of them shown, SECONDS for a request to come, CONNECTIONS at
once, of which DECODING are decoded. A capture has up to MOST_CAPTURE octets, which are kept while it is read; its messages go out as they are read."""

import argparse
import base64
import binascii
import contextlib
import hmac
import http.server
import io
import json
import pathlib
import re
import secrets
import select
import socket
import socketserver
import sys
import threading
import time
import urllib.parse
from http import HTTPStatus
from typing import Any, Dict, List, Optional, Tuple

from krb._card import card_of, table_of
from krb._forms import NotBase64, given_octets
from krb._library import TEXTS, Refused
from krb._listed import SECONDS as LISTED_SECONDS, is_capture, listed
from krb._look import verdicts_of
from krb._packets import Capture
from krb._pages import BadInput, KINDS, MOST_KEYS, as_answer, etypes_of, keys_of, page_of, with_password

__all__ = ["Server", "main"]

HOST = "127.0.0.1"
MOST_BODY = 4 << 20  # octets of what is posted
MOST_OCTETS = 512 << 10  # octets that are shown
MOST_CAPTURE = 64 << 20  # octets of a capture
MOST_KEYTABS = 16
MOST_TEXT = 64 << 10  # letters of keys
MOST_PASSWORD = 1024
SECONDS = 10.0  # in which a request has to have come
CAPTURE_SECONDS = 60.0  # in which that of a capture has to have come
CONNECTIONS = 64
DECODING = 4
CAPTURES = 2  # that are read at once
FILES = {
    "": ("page.html", "text/html; charset=utf-8"),
    "page.js": ("page.js", "text/javascript; charset=utf-8"),
    **{name: (name, "text/javascript; charset=utf-8") for name in ("card.js", "tree.js", "capture.js", "examples.js")},
    "page.css": ("page.css", "text/css; charset=utf-8"),
}
ALIVE, GIVEN = "alive", "given"
MOST_FILE = 3 << 20  # octets of a file that is no capture, as the page takes it
POLICY = (
    "default-src 'none'; script-src 'self'; style-src 'self'; img-src data:; connect-src 'self'; form-action 'none'; base-uri 'none'; frame-ancestors 'none'; "
    "require-trusted-types-for 'script'; trusted-types 'none'"
)
HEADERS = {
    "Content-Security-Policy": POLICY,
    "X-Content-Type-Options": "nosniff",
    "X-Frame-Options": "DENY",
    "Referrer-Policy": "no-referrer",
    "Cache-Control": "no-store",
    "Cross-Origin-Opener-Policy": "same-origin",
    "Cross-Origin-Resource-Policy": "same-origin",
    "Cross-Origin-Embedder-Policy": "require-corp",
    "Permissions-Policy": "camera=(), microphone=(), geolocation=(), usb=(), clipboard-write=(self)",
}


class _Timed(io.RawIOBase):
    """What a connection sends, up to a time."""

    def __init__(self, connection: socket.socket, end: float) -> None:
        self._connection, self.end = connection, end

    def readable(self) -> bool:
        return True

    def readinto(self, buffer: Any) -> int:
        left = self.end - time.monotonic()
        if left <= 0:
            raise socket.timeout("the request takes too long")
        self._connection.settimeout(left)
        return self._connection.recv_into(buffer)


class Rejected(Exception):
    """A request is refused, with a status of HTTP."""

    def __init__(self, status: HTTPStatus, text: str) -> None:
        self.status, self.text = status, text
        super().__init__(text)


def _no_number(digits: str) -> None:
    """In place of a number of JSON: none is asked for, and those of many digits take long."""


def _octets_of(value: Any, what: str) -> bytes:
    if not isinstance(value, str):
        raise Rejected(HTTPStatus.BAD_REQUEST, "%s is no base64" % what)
    try:
        return base64.b64decode(value, validate=True)
    except (binascii.Error, ValueError):
        raise Rejected(HTTPStatus.BAD_REQUEST, "%s is no base64" % what) from None


def _text_of(asked: Dict[str, Any], name: str, most: int) -> str:
    value = asked.get(name, "")
    if not isinstance(value, str):
        raise Rejected(HTTPStatus.BAD_REQUEST, "%s is no text" % name)
    if len(value) > most:
        raise Rejected(HTTPStatus.REQUEST_ENTITY_TOO_LARGE, "%s has more than %d letters" % (name, most))
    return value


def _keys_asked(asked: Dict[str, Any]) -> Tuple[List[bytes], str]:
    """The keytabs and the keys of a question."""
    keytabs = asked.get("keytabs", [])
    if not isinstance(keytabs, list) or len(keytabs) > MOST_KEYTABS:
        raise Rejected(HTTPStatus.BAD_REQUEST, "no list of at most %d keytabs" % MOST_KEYTABS)
    return [_octets_of(each, "a keytab") for each in keytabs], _text_of(asked, "keys", MOST_TEXT)


def answer(asked: Any) -> Dict[str, Any]:
    """What the page shows of what is asked: `input` and `keytabs` in base64, `kind`, `keys`, `password`, `salt`, `show`."""
    if not isinstance(asked, dict):
        raise Rejected(HTTPStatus.BAD_REQUEST, "no object")
    given, (keytabs, keys) = _octets_of(asked.get("input", ""), "input"), _keys_asked(asked)
    kind = _text_of(asked, "kind", 64)
    password, salt = _text_of(asked, "password", MOST_PASSWORD), _text_of(asked, "salt", MOST_PASSWORD)
    show_keys = asked.get("show", False) is True
    try:
        octets, form = given_octets(given)
        if is_capture(octets):
            return {"capture": base64.b64encode(octets).decode("ascii"), "form": form}
        if len(octets) > MOST_OCTETS:
            raise BadInput("these are %d octets; at most %d are shown" % (len(octets), MOST_OCTETS))
        if not octets:
            raise BadInput("there are no octets")
        keytab = keys_of(keytabs, keys)
        page, salts = page_of(octets, kind or None, keytab, show_keys)
        notes: List[str] = []
        if password and page.error is None:
            page, notes = _with_password(octets, kind or None, keytab, show_keys, password, salt, page, salts)
        told = as_answer(page, show_keys, form)
        told["notes"] += notes
        told["card"], told["table"] = card_of(page), table_of(page)
        files = keys_of(keytabs, "")
        is_token = octets[:1] == b"\x60"  # of the GSS-API (RFC 2743, 3.1)
        verdicts = verdicts_of(files, octets) if files and is_token else []
        told["verdicts"] = [[each.is_let_in, each.why, "" if each.rule is None else each.rule.name] for each in verdicts]
        return told
    except (BadInput, NotBase64) as bad:
        return {"bad": str(bad)}
    except Refused as refused:
        return {"bad": TEXTS[refused.status]}


def _with_password(
    octets: bytes, kind: Optional[str], keytab: bytes, show_keys: bool, password: str, salt: str, page: Any, salts: List[bytes]
) -> Tuple[Any, List[str]]:
    """The page with what the keys of a password open too: under the salt that is given, else under those that the octets tell. What is opened may tell more
    of them, so it is asked a second time."""
    notes: List[str] = []
    given = [salt.encode("utf-8", "surrogatepass")] if salt else []
    for _ in range(1 if given else 2):
        etypes, wanted = etypes_of(page), given or salts
        if not etypes:
            return page, ["Nothing here is encrypted with a type of which keys can be made of a password."]
        if not wanted:
            return page, ["The octets tell no salt and no principal: name the salt of the password."]
        whole, count = with_password(keytab, password, wanted, etypes)
        page, more = page_of(octets, kind, whole, show_keys)
        notes = ["Of %d keys of the password the first %d were tried." % (count, MOST_KEYS)] if count > MOST_KEYS else []
        if set(more) <= set(salts):
            break
        salts = list(dict.fromkeys(salts + more))
    return page, notes


class Handler(http.server.BaseHTTPRequestHandler):
    """One request, after which the connection is closed."""

    server: "Server"

    def setup(self) -> None:
        super().setup()
        self._timed = _Timed(self.connection, time.monotonic() + SECONDS)
        self.rfile = io.BufferedReader(self._timed, 65536)

    def version_string(self) -> str:
        return "krb"

    def log_message(self, format: str, *words: Any) -> None:
        """Nothing is logged: the address has the token."""

    def send_error(self, code: int, message: Optional[str] = None, explain: Optional[str] = None) -> None:
        """What http.server refuses, in the same words as the rest."""
        self._answer(HTTPStatus(code), b"refused\n", "text/plain; charset=utf-8")

    def _answer(self, status: HTTPStatus, body: bytes, content_type: str, more: Optional[Dict[str, str]] = None) -> None:
        self.close_connection = True
        self.connection.settimeout(SECONDS)
        self.send_response(status)
        for name, value in {**HEADERS, "Content-Type": content_type, "Content-Length": str(len(body)), "Connection": "close", **(more or {})}.items():
            self.send_header(name, value)
        self.end_headers()
        if self.command != "HEAD":
            self.wfile.write(body)

    def _one(self, name: str) -> Optional[str]:
        """The value of a header that comes once at most."""
        values = self.headers.get_all(name, [])
        if len(values) > 1:
            raise Rejected(HTTPStatus.BAD_REQUEST, "%s comes twice" % name)
        return values[0].strip() if values else None

    def _path(self) -> str:
        """What stands behind the token. Host and Origin are this server's, so no page of another name reaches it (DNS rebinding)."""
        if self._one("Host") not in self.server.hosts:
            raise Rejected(HTTPStatus.MISDIRECTED_REQUEST, "another host")
        origin, site = self._one("Origin"), self._one("Sec-Fetch-Site")
        if origin is not None and origin not in self.server.origins:
            raise Rejected(HTTPStatus.FORBIDDEN, "another origin")
        found = re.fullmatch(r"/([A-Za-z0-9_-]{1,128})/([a-z.]{0,16})", self.path)
        if found is None or not hmac.compare_digest(found.group(1), self.server.token):
            raise Rejected(HTTPStatus.NOT_FOUND, "no such page")
        if site not in (None, "same-origin", "none"):
            raise Rejected(HTTPStatus.FORBIDDEN, "another site")
        return found.group(2)

    def do_GET(self) -> None:
        try:
            name = self._path()
            if name == ALIVE:
                self._stay()
                return
            if name == GIVEN:
                file_name, octets = self.server.given or ("", b"")
                self._answer(HTTPStatus.OK if octets else HTTPStatus.NO_CONTENT, octets, "application/octet-stream", {"X-File-Name": urllib.parse.quote(file_name)})
                return
            if name not in FILES:
                raise Rejected(HTTPStatus.METHOD_NOT_ALLOWED if name in ("show", "capture") else HTTPStatus.NOT_FOUND, "no such page")
            body, content_type = self.server.files[name]
            self._answer(HTTPStatus.OK, body, content_type)
        except Rejected as rejected:
            self._refuse(rejected)

    do_HEAD = do_GET

    def _stay(self) -> None:
        """An answer that lasts as long as this server and the page do: by its end the page knows that whoever has the port then is another."""
        self.close_connection = True
        self.send_response(HTTPStatus.OK)
        for name, value in {**HEADERS, "Content-Type": "text/plain; charset=utf-8", "Connection": "close"}.items():
            self.send_header(name, value)
        self.end_headers()
        if self.command != "HEAD":
            self.connection.settimeout(None)
            self.wfile.write(b"\n")  # Firefox hands out an answer when its first octet has come
            while self.connection.recv(4096):
                pass

    def do_POST(self) -> None:
        try:
            name = self._path()
            if name not in ("show", "capture"):
                raise Rejected(HTTPStatus.METHOD_NOT_ALLOWED, "nothing is posted here")
            if self._one("Origin") is None:
                raise Rejected(HTTPStatus.FORBIDDEN, "no origin")
            content_type = (self._one("Content-Type") or "").lower()
            if name == "capture":
                if content_type != "application/octet-stream":
                    raise Rejected(HTTPStatus.UNSUPPORTED_MEDIA_TYPE, "no octets")
                self._capture()
                return
            if not re.fullmatch(r"application/json(; ?charset=utf-8)?", content_type):
                raise Rejected(HTTPStatus.UNSUPPORTED_MEDIA_TYPE, "no JSON")
            body = json.dumps(self._asked(), ensure_ascii=True).encode("ascii")
            self._answer(HTTPStatus.OK, body, "application/json")
        except Rejected as rejected:
            self._refuse(rejected)

    def _length(self, most: int) -> int:
        """How many octets a body has."""
        length = self._one("Content-Length")
        if self._one("Transfer-Encoding") is not None or length is None:
            raise Rejected(HTTPStatus.LENGTH_REQUIRED, "no length")
        if not re.fullmatch(r"[0-9]{1,18}", length):
            raise Rejected(HTTPStatus.BAD_REQUEST, "no length")
        if int(length) > most:
            raise Rejected(HTTPStatus.REQUEST_ENTITY_TOO_LARGE, "more than %d octets" % most)
        return int(length)

    def _read(self, size: int) -> bytes:
        """So many octets of a body."""
        try:
            octets = self.rfile.read(size)
        except (socket.timeout, TimeoutError):
            raise Rejected(HTTPStatus.REQUEST_TIMEOUT, "the request takes too long") from None
        if len(octets) != size:
            raise Rejected(HTTPStatus.BAD_REQUEST, "the request ends too early")
        return octets

    @staticmethod
    def _parsed(body: bytes) -> Any:
        try:
            return json.loads(body.decode("utf-8"), parse_int=_no_number, parse_float=_no_number, parse_constant=_no_number)
        except (ValueError, RecursionError):
            raise Rejected(HTTPStatus.BAD_REQUEST, "no JSON") from None

    def _capture(self) -> None:
        """The messages of a capture, in lines of JSON as they are read. Its octets follow the keys, an object of JSON behind its length of 32 bits."""
        length = self._length(4 + MOST_BODY + MOST_CAPTURE)
        if not self.server.capturing.acquire(timeout=SECONDS):
            raise Rejected(HTTPStatus.SERVICE_UNAVAILABLE, "busy with other captures")
        try:
            self._timed.end = time.monotonic() + CAPTURE_SECONDS
            size = int.from_bytes(self._read(4), "big") if length >= 4 else -1
            if not 0 <= size <= min(MOST_BODY, length - 4):
                raise Rejected(HTTPStatus.BAD_REQUEST, "no length of the keys")
            if length - 4 - size > MOST_CAPTURE:
                raise Rejected(HTTPStatus.REQUEST_ENTITY_TOO_LARGE, "more than %d octets" % MOST_CAPTURE)
            asked = self._parsed(self._read(size))
            if not isinstance(asked, dict):
                raise Rejected(HTTPStatus.BAD_REQUEST, "no object")
            (keytabs, keys), has_password = _keys_asked(asked), bool(_text_of(asked, "password", MOST_PASSWORD))
            octets = self._read(length - 4 - size)
            if not is_capture(octets):
                raise Rejected(HTTPStatus.BAD_REQUEST, "no capture")
            self._tell(octets, keytabs, keys, has_password)
        except MemoryError:
            raise Rejected(HTTPStatus.SERVICE_UNAVAILABLE, "out of memory") from None
        finally:
            self.server.capturing.release()

    def _tell(self, octets: bytes, keytabs: List[bytes], keys: str, has_password: bool) -> None:
        """Sends the messages of a capture. Where the page goes away, or stops, tshark is stopped too."""
        self.close_connection = True
        self.connection.settimeout(SECONDS)
        capture = Capture(octets=octets, seconds=LISTED_SECONDS)
        watched = threading.Thread(target=self._watch, args=(capture,), daemon=True)
        self.send_response(HTTPStatus.OK)
        for name, value in {**HEADERS, "Content-Type": "application/x-ndjson", "Connection": "close"}.items():
            self.send_header(name, value)
        self.end_headers()
        watched.start()
        try:
            with contextlib.closing(listed(capture, keys_of(keytabs, keys), has_password)) as pieces:
                for each in pieces:
                    self.wfile.write(json.dumps(each, ensure_ascii=True).encode("ascii") + b"\n")
        except BadInput as bad:
            self.wfile.write(json.dumps({"bad": str(bad)}).encode("ascii") + b"\n")
        finally:
            self._is_told = True

    _is_told = False

    def _watch(self, capture: Capture) -> None:
        """Stops tshark when the page has closed the connection, which sends nothing more."""
        while not self._is_told:
            try:
                if select.select([self.connection], [], [], 0.2)[0] and not self.connection.recv(4096):
                    capture.stop()
                    return
            except (OSError, ValueError):  # it is closed
                capture.stop()
                return

    def _asked(self) -> Dict[str, Any]:
        body = self._read(self._length(MOST_BODY))
        if not self.server.decoding.acquire(timeout=SECONDS):
            raise Rejected(HTTPStatus.SERVICE_UNAVAILABLE, "busy")
        try:
            return answer(self._parsed(body))
        except MemoryError:
            raise Rejected(HTTPStatus.SERVICE_UNAVAILABLE, "out of memory") from None
        finally:
            self.server.decoding.release()

    def _refuse(self, rejected: Rejected) -> None:
        more = {"Allow": "GET, HEAD, POST"} if rejected.status == HTTPStatus.METHOD_NOT_ALLOWED else None
        self._answer(rejected.status, (rejected.text + "\n").encode("ascii", "replace"), "text/plain; charset=utf-8", more)
        self._discard()

    def _discard(self) -> None:
        """Reads on for a moment, so that a client which still sends gets to read why it was refused."""
        try:
            self.connection.shutdown(socket.SHUT_WR)
            end = min(self._timed.end, time.monotonic() + 1)
            while time.monotonic() < end:
                self.connection.settimeout(max(0.01, end - time.monotonic()))
                if not self.connection.recv(65536):
                    break
        except OSError:
            pass

    def handle(self) -> None:
        try:
            self.handle_one_request()
        except OSError:  # the peer is gone, or takes too long
            pass


class Server(socketserver.ThreadingMixIn, http.server.HTTPServer):
    """The page on 127.0.0.1, at `address`. Port 0 is one that is free. `given`: the name and the octets of a file that the page shows at first."""

    daemon_threads = True
    block_on_close = False
    allow_reuse_address = True
    request_queue_size = 128

    def __init__(self, port: int = 0, given: Optional[Tuple[str, bytes]] = None) -> None:
        self.given = given
        folder = pathlib.Path(__file__).with_name("_web")
        kinds = "".join('<option value="%s"></option>' % kind for kind in KINDS).encode("ascii")
        self.files = {name: ((folder / file).read_bytes().replace(b"<!-- kinds -->", kinds), kind) for name, (file, kind) in FILES.items()}
        self.token = secrets.token_urlsafe(32)
        self.decoding, self.capturing = threading.BoundedSemaphore(DECODING), threading.BoundedSemaphore(CAPTURES)
        self._room = threading.BoundedSemaphore(CONNECTIONS)
        super().__init__((HOST, port), Handler)
        name = "%s:%d" % (HOST, self.server_address[1])
        self.hosts = {name} | ({HOST} if self.server_address[1] == 80 else set())
        self.origins = {"http://" + each for each in self.hosts}
        self.address = "http://%s/%s/" % (name, self.token)

    def server_bind(self) -> None:
        """As of a server of TCP: no name of the machine is asked for."""
        socketserver.TCPServer.server_bind(self)
        self.server_name, self.server_port = HOST, self.server_address[1]

    def process_request(self, request: Any, client_address: Any) -> None:
        if not self._room.acquire(blocking=False):
            try:
                request.settimeout(0.1)
                request.sendall(b"HTTP/1.0 503 Service Unavailable\r\nContent-Length: 5\r\nCache-Control: no-store\r\nRetry-After: 1\r\n\r\nbusy\n")
            except OSError:
                pass
            self.shutdown_request(request)
            return
        try:
            super().process_request(request, client_address)
        except RuntimeError:  # no thread
            self._room.release()
            self.shutdown_request(request)

    def process_request_thread(self, request: Any, client_address: Any) -> None:
        try:
            super().process_request_thread(request, client_address)
        finally:
            self._room.release()

    def handle_error(self, request: Any, client_address: Any) -> None:
        """Says that a request failed, and not what was in it."""
        kind = sys.exc_info()[0]
        print("krb.web: a request failed: %s" % (kind.__name__ if kind else "?"), file=sys.stderr, flush=True)


def main(words: Optional[List[str]] = None) -> int:
    parser = argparse.ArgumentParser(
        prog="python3 -m krb.web",
        description="Serves a page on 127.0.0.1 that shows what Kerberos octets hold, and prints its address. Whoever knows the address may use it, until it ends: Ctrl+C.",
    )
    parser.add_argument("--port", type=int, default=0, metavar="N", help="the port, 1 to 65535; without it one that is free")
    parser.add_argument("file", nargs="?", metavar="FILE", help="what the page shows at first")
    options = parser.parse_args(words)
    if not 0 <= options.port <= 65535:
        parser.error("the port is none from 1 to 65535")
    given = None
    try:
        if options.file is not None:
            with open(options.file, "rb") as file:
                octets = file.read(MOST_CAPTURE + 1)
            most = MOST_CAPTURE if is_capture(octets) else MOST_FILE
            if not 0 < len(octets) <= most:
                print("krb.web: %s: %s" % (options.file, "more than %d octets" % most if octets else "is empty"), file=sys.stderr)
                return 1
            given = pathlib.Path(options.file).name, octets
        server = Server(options.port, given)
    except OSError as error:
        print("krb.web: %s" % error, file=sys.stderr)
        return 1
    with server:
        print(server.address, flush=True)
        try:
            server.serve_forever(poll_interval=0.2)
        except KeyboardInterrupt:
            pass
    return 0


if __name__ == "__main__":
    sys.exit(main())
