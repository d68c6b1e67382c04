"""A small HTTP/1.1 server for pages of a tool, which hostile peers, slow ones and other pages of a browser can't harm.

One request a connection. A head has at most 8,192 bytes and 64 lines, and five seconds to come; a body has a stated length; an answer that is not taken is
given up after thirty seconds. Beyond the connections that there may be, the one that sends or takes for the longest gives way.
"""
import asyncio
import ipaddress
import re
import time
import urllib.parse
from typing import NamedTuple

MOST_OPEN, MOST_HEAD, MOST_LINES, MOST_BODY, HEAD_SECONDS, BODY_SECONDS, ANSWER_SECONDS = 128, 8192, 64, 400000, 5, 10, 30
REQUEST = re.compile(r"([A-Z]{1,16}) (/[!-~]{0,2047}) HTTP/1\.[01]")
NAME, VALUE = re.compile(r"[!#$%&'*+.^_`|~0-9A-Za-z-]{1,64}"), re.compile(r"[\t -~\x80-\xff]*")
ONCE = ("host", "origin", "content-length", "content-type", "x-token", "cookie", "authorization")
HOST = re.compile(r"(\[[0-9A-Fa-f:.]{2,45}\]|[0-9A-Za-z._-]{1,255})(?::[0-9]{1,5})?")
REASONS = {200: "OK", 400: "Bad Request", 401: "Unauthorized", 403: "Forbidden", 404: "Not Found", 405: "Method Not Allowed", 408: "Request Timeout", 409: "Conflict",
           411: "Length Required", 413: "Content Too Large", 415: "Unsupported Media Type", 421: "Misdirected Request", 429: "Too Many Requests",
           431: "Request Header Fields Too Large", 500: "Internal Server Error", 501: "Not Implemented", 503: "Service Unavailable", 504: "Gateway Timeout"}
# Nothing but the files of this server runs in a page or is asked by it; no other page holds it in a frame or reads its answers.
GUARDS = ("Content-Security-Policy: default-src 'none'; script-src 'self'; style-src 'self'; connect-src 'self'; img-src 'self'; base-uri 'none'; "
          "form-action 'none'; frame-ancestors 'none'; require-trusted-types-for 'script'; trusted-types 'none'\r\nX-Content-Type-Options: nosniff\r\n"
          "X-Frame-Options: DENY\r\nReferrer-Policy: no-referrer\r\nCross-Origin-Resource-Policy: same-origin\r\nCross-Origin-Opener-Policy: same-origin\r\n"
          "Cache-Control: no-store\r\n")


class Request(NamedTuple):
    method: str
    path: str
    query: dict
    headers: dict
    body: bytes


class Bad(Exception):
    """A request that is refused: its status and a sentence."""

    def __init__(self, status, why):
        super().__init__(why)
        self.status, self.why = status, why


class Answer(NamedTuple):
    status: int
    kind: str
    body: bytes
    extra: str = ""
    is_head: bool = False


def plain(status, text, extra=""):
    return Answer(status, "text/plain; charset=utf-8", text.encode() + b"\n", extra)


def head_of(given):
    """The method, the target and the headers of a head; those that decide something stand at most once."""
    lines = given.decode("latin-1").split("\r\n")[:-2]
    it = REQUEST.fullmatch(lines[0])
    if not it:
        raise Bad(400, "this is no request of HTTP/1.1 with a path of at most 2,048 letters")
    if len(lines) > MOST_LINES:
        raise Bad(431, f"a request has at most {MOST_LINES} lines")
    headers = {}
    for line in lines[1:]:
        name, colon, value = line.partition(":")
        if not colon or not NAME.fullmatch(name) or not VALUE.fullmatch(value):
            raise Bad(400, "a line of the head is no header")
        name = name.lower()
        if name in headers and name in ONCE:
            raise Bad(400, f"the header {name} stands twice")
        headers[name] = value.strip(" \t")
    return it[1], it[2], headers


class Web:
    """`handle(request, reader, writer)` gives an Answer, or None where it has answered by itself; `names` are hosts that the server may be called."""

    def __init__(self, handle, names):
        self.handle, self.names, self.slow, self.open, self.answers = handle, {"localhost", *(name.lower() for name in names)}, {}, set(), {}

    async def start(self, host, port):
        return await asyncio.start_server(self.serve, host, port, limit=MOST_HEAD, backlog=128)

    async def serve(self, reader, writer):
        if len(self.open) >= MOST_OPEN:
            self.give_way()
        self.open.add(writer.transport)
        try:
            answer = await self.answer(reader, writer)
            if answer:
                self.answers[answer.status] = self.answers.get(answer.status, 0) + 1
                self.slow[writer.transport] = time.monotonic()
                writer.write(bytes_of(answer))
                await asyncio.wait_for(self.end(reader, writer), ANSWER_SECONDS)
        except (OSError, asyncio.TimeoutError, asyncio.IncompleteReadError):
            pass
        finally:
            self.slow.pop(writer.transport, None)
            self.open.discard(writer.transport)
            writer.transport.abort()

    @staticmethod
    async def end(reader, writer):
        """Sends all, and reads what the peer still sends for a moment: a connection that ends with bytes unread loses its answer."""
        await writer.drain()
        writer.write_eof()
        try:
            await asyncio.wait_for(passed_over(reader), 1)
        except asyncio.TimeoutError:
            pass
        writer.close()
        await writer.wait_closed()

    def give_way(self):
        """Ends the connection that sends its request, or takes its answer, for the longest."""
        oldest = min(self.slow, key=self.slow.get, default=None)
        if oldest is not None:
            self.slow.pop(oldest)
            self.open.discard(oldest)
            oldest.abort()

    async def answer(self, reader, writer):
        self.slow[writer.transport] = time.monotonic()
        try:
            request = await self.request(reader)
        except Bad as bad:
            return plain(bad.status, bad.why)
        finally:
            self.slow.pop(writer.transport, None)
        try:
            answer = await self.handle(request, reader, writer)
        except Bad as bad:
            answer = plain(bad.status, bad.why)
        except (OSError, asyncio.TimeoutError):
            raise
        except Exception as fault:
            answer = plain(500, f"{type(fault).__name__}: {fault}")
        return answer._replace(is_head=request.method == "HEAD") if answer else None

    async def request(self, reader):
        try:
            given = await asyncio.wait_for(reader.readuntil(b"\r\n\r\n"), HEAD_SECONDS)
        except asyncio.LimitOverrunError:
            raise Bad(431, f"the head of a request has at most {MOST_HEAD} bytes") from None
        except asyncio.TimeoutError:
            raise Bad(408, f"the head of the request did not come in {HEAD_SECONDS} seconds") from None
        method, target, headers = head_of(given)
        self.check_host(headers)
        path, _, query = target.partition("?")
        body = await self.body(reader, headers) if method == "POST" else b""
        try:
            asked = dict(urllib.parse.parse_qsl(query, max_num_fields=16))
        except ValueError:
            raise Bad(400, "the query has more than 16 fields") from None
        return Request(method, urllib.parse.unquote(path), asked, headers, body)

    def check_host(self, headers):
        """A page of another name that was bound to this address (DNS rebinding) is not answered, nor one of another origin."""
        it = HOST.fullmatch(headers.get("host", ""))
        if not it or not (it[1].lower() in self.names or is_address(it[1].strip("[]"))):
            raise Bad(421, "this host is not one of the names of this page: call it by its address, or start it with --host NAME")
        origin = headers.get("origin")
        if origin is not None and origin not in (f"http://{it[0]}", f"https://{it[0]}"):
            raise Bad(403, "a page of another origin asks")
        if headers.get("sec-fetch-site", "none") not in ("same-origin", "none") and headers.get("sec-fetch-mode") != "navigate":
            raise Bad(403, "a page of another site asks")

    @staticmethod
    async def body(reader, headers):
        length = headers.get("content-length")
        if "transfer-encoding" in headers:
            raise Bad(501, "a body is sent with its length")
        if length is None or not re.fullmatch("[0-9]{1,9}", length):
            raise Bad(411, "a body is sent with its length")
        if int(length) > MOST_BODY:
            raise Bad(413, f"a body has at most {MOST_BODY} bytes")
        try:
            return await asyncio.wait_for(reader.readexactly(int(length)), BODY_SECONDS)
        except asyncio.TimeoutError:
            raise Bad(408, f"the body of the request did not come in {BODY_SECONDS} seconds") from None


def is_address(text):
    try:
        ipaddress.ip_address(text)
    except ValueError:
        return False
    return True


def bytes_of(answer):
    head = (f"HTTP/1.1 {answer.status} {REASONS[answer.status]}\r\nContent-Type: {answer.kind}\r\nContent-Length: {len(answer.body)}\r\n"
            f"Connection: close\r\n{GUARDS}{answer.extra}\r\n")
    return head.encode("latin-1") + (b"" if answer.is_head else answer.body)


async def passed_over(reader):
    while await reader.read(65536):
        pass
