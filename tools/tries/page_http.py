"""Hostile peers of page.py: requests that are none, that are too long or too slow, from other pages, and too many of them."""
import asyncio
import socket
import time

from lib.streams import Streams
from lib.web import Web
from tries.paged import Stream
from tries.running import see


def raw(page, given, seconds=60):
    """What the page answers to bytes, until it closes."""
    with socket.create_connection(("127.0.0.1", page.port), timeout=seconds) as it:
        try:
            it.sendall(given)
        except OSError:
            pass
        came = b""
        try:
            while True:
                piece = it.recv(65536)
                if not piece:
                    break
                came += piece
                if len(came) > 4000000:
                    break
        except OSError:
            pass
    return came


def status_of(came):
    return int(came[9:12]) if came.startswith(b"HTTP/1.1 ") else None


def requests(host):
    """What a peer sends, and the status that must come; None for an end without an answer."""
    head = f"Host: {host}\r\n".encode()
    return of_hosts(head) + of_heads(head) + of_bodies(head)


def of_hosts(head):
    return [
        ("a request", b"GET /healthz HTTP/1.1\r\n" + head + b"\r\n", 200),
        ("HTTP/1.0", b"GET /healthz HTTP/1.0\r\n" + head + b"\r\n", 200),
        ("no host", b"GET /healthz HTTP/1.1\r\n\r\n", 421),
        ("two hosts", b"GET /healthz HTTP/1.1\r\n" + head + head + b"\r\n", 400),
        ("a name that was bound to this address", b"GET / HTTP/1.1\r\nHost: evil.example\r\n\r\n", 421),
        ("its name with this port", b"GET /values.json HTTP/1.1\r\nHost: evil.example:80\r\n\r\n", 421),
        ("a host with a user", b"GET / HTTP/1.1\r\nHost: 127.0.0.1@evil.example\r\n\r\n", 421),
        ("an address that is none", b"GET / HTTP/1.1\r\nHost: 127.0.0.1.evil.example\r\n\r\n", 421),
        ("localhost", b"GET /healthz HTTP/1.1\r\nHost: localhost:9\r\n\r\n", 200),
        ("an address of version 6", b"GET /healthz HTTP/1.1\r\nHost: [::1]:9\r\n\r\n", 200),
        ("another origin", b"GET /values.json HTTP/1.1\r\n" + head + b"Origin: http://evil.example\r\n\r\n", 403),
        ("the origin null", b"GET /events HTTP/1.1\r\n" + head + b"Origin: null\r\n\r\n", 403),
        ("another site", b"GET /values.json HTTP/1.1\r\n" + head + b"Sec-Fetch-Site: cross-site\r\nSec-Fetch-Mode: no-cors\r\n\r\n", 403),
        ("a link of another site", b"GET / HTTP/1.1\r\n" + head + b"Sec-Fetch-Site: cross-site\r\nSec-Fetch-Mode: navigate\r\n\r\n", 200),
    ]


def of_heads(head):
    return [
        ("no HTTP", b"\x16\x03\x01\x02\x00\x01\x00\x01\xfc\x03\x03" + bytes(50) + b"\r\n\r\n", 400),
        ("HTTP/0.9", b"GET /\r\n\r\n", 400),
        ("HTTP/2", b"PRI * HTTP/2.0\r\n\r\nSM\r\n\r\n", 400),
        ("a whole address", b"GET http://127.0.0.1/ HTTP/1.1\r\n" + head + b"\r\n", 400),
        ("a proxy", b"CONNECT 127.0.0.1:22 HTTP/1.1\r\n" + head + b"\r\n", 400),
        ("a space in the path", b"GET / / HTTP/1.1\r\n" + head + b"\r\n", 400),
        ("a NUL in the path", b"GET /\0 HTTP/1.1\r\n" + head + b"\r\n", 400),
        ("a NUL in quotes", b"GET /%00 HTTP/1.1\r\n" + head + b"\r\n", 404),
        ("a path of 3,000 letters", b"GET /" + b"a" * 3000 + b" HTTP/1.1\r\n" + head + b"\r\n", 400),
        ("a path upwards", b"GET /../page.py HTTP/1.1\r\n" + head + b"\r\n", 404),
        ("a path upwards in quotes", b"GET /%2e%2e/%2e%2e/page.py HTTP/1.1\r\n" + head + b"\r\n", 404),
        ("a file of the folder that is none of the page's", b"GET /page.html HTTP/1.1\r\n" + head + b"\r\n", 404),
        ("a header folded", b"GET /healthz HTTP/1.1\r\n" + head + b"A: b\r\n c\r\n\r\n", 400),
        ("a header without a colon", b"GET /healthz HTTP/1.1\r\n" + head + b"nonsense\r\n\r\n", 400),
        ("a header with a NUL", b"GET /healthz HTTP/1.1\r\n" + head + b"A: \0\r\n\r\n", 400),
        ("a header of 8,000 spaces and a NUL", b"GET /healthz HTTP/1.1\r\n" + head + b"A:" + b" " * 8000 + b"\0\r\n\r\n", 400),
        ("a header with a bare LF", b"GET /healthz HTTP/1.1\r\n" + head + b"A: b\nHost: evil\r\n\r\n", 400),
        ("65 lines", b"GET /healthz HTTP/1.1\r\n" + head + b"A: b\r\n" * 64 + b"\r\n", 431),
        ("a head of 9,000 bytes", b"GET /healthz HTTP/1.1\r\n" + head + b"A: " + b"b" * 9000 + b"\r\n\r\n", 431),
        ("a head of a megabyte", b"GET /healthz HTTP/1.1\r\n" + head + (b"A: " + b"b" * 1000 + b"\r\n") * 1000, 431),
        ("a line of a megabyte", b"G" * 1000000, 431),
    ]


def of_bodies(head):
    return [
        ("another method", b"DELETE / HTTP/1.1\r\n" + head + b"\r\n", 405),
        ("a preflight of another page", b"OPTIONS /write HTTP/1.1\r\n" + head + b"\r\n", 405),
        ("a read of the form", b"GET /write?name=Main.count&value=1 HTTP/1.1\r\n" + head + b"\r\n", 405),
        ("a body without a length", b"POST /write HTTP/1.1\r\n" + head + b"\r\n", 411),
        ("a body in pieces", b"POST /write HTTP/1.1\r\n" + head + b"Transfer-Encoding: chunked\r\n\r\n0\r\n\r\n", 501),
        ("two lengths", b"POST /write HTTP/1.1\r\n" + head + b"Content-Length: 1\r\nContent-Length: 2\r\n\r\nab", 400),
        ("a length below 0", b"POST /write HTTP/1.1\r\n" + head + b"Content-Length: -1\r\n\r\n", 411),
        ("a body of a gigabyte", b"POST /write HTTP/1.1\r\n" + head + b"Content-Length: 1000000000\r\n\r\n", 411),
        ("a body of a megabyte", b"POST /write HTTP/1.1\r\n" + head + b"Content-Length: 1000000\r\n\r\n" + bytes(1000), 413),
        ("a thousand fields", b"GET /history.json?" + b"&".join([b"a=1"] * 400) + b" HTTP/1.1\r\n" + head + b"\r\n", 400),
        ("a name that is none", b"GET /history.json?name=%ff%fe HTTP/1.1\r\n" + head + b"\r\n", 404),
        ("a port that is none", b"GET /history.json?name=Main.count&port=%C2%B2 HTTP/1.1\r\n" + head + b"\r\n", 200),
        ("a request of which only the half comes", b"GET /healthz HTT", None),
    ]


def of_requests(page):
    """Each of them is answered as it must be, and none leaves anything behind."""
    for what, given, wanted in requests(f"127.0.0.1:{page.port}"):
        if wanted is None:
            with socket.create_connection(("127.0.0.1", page.port)) as it:
                it.sendall(given)
            continue
        started = time.monotonic()
        came = raw(page, given)
        see(time.monotonic() - started < 30, f"a peer with {what} was answered after {time.monotonic() - started:.1f} s")
        see(status_of(came) == wanted, f"a peer with {what}: {came[:200]!r} in place of status {wanted}")
        guarded = b"Content-Security-Policy: default-src 'none'; script-src 'self'" in came and b"unsafe" not in came
        see(guarded, f"a peer with {what}: an answer without its guards")
    return len(requests(""))


def of_slow(page):
    """A head that never ends, and a body that never comes, end after their seconds; a peer that takes nothing is given up."""
    started = time.monotonic()
    with socket.create_connection(("127.0.0.1", page.port), timeout=12) as it:
        it.sendall(b"GET /healthz HTTP/1.1\r\n")
        came = b""
        it.settimeout(0.3)
        while time.monotonic() < started + 40 and not came:
            try:
                it.sendall(b"A: b\r\n"[:1])
                came = it.recv(4096)
            except socket.timeout:
                pass
            except OSError:
                break
    took = time.monotonic() - started
    see(status_of(came) == 408 and 4 < took < 40, f"a head a byte at a time: {came[:100]!r} after {took:.1f} s")


def of_many(page):
    """Two hundred connections that say nothing: whoever asks is answered all the same."""
    silent = []
    try:
        for _ in range(200):
            silent.append(socket.create_connection(("127.0.0.1", page.port), timeout=60))
        started = time.monotonic()
        see(page.is_well(), "with 200 silent connections /healthz is not answered")
        took = time.monotonic() - started
        see(took < 30, f"with 200 silent connections /healthz took {took:.1f} s")
    finally:
        for it in silent:
            it.close()
    return took


def of_lazy():
    """A browser that takes nothing of its stream is let go, and the others go on."""
    async def played():
        streams = Streams()

        async def handle(_, reader, writer):
            await streams.follow(reader, writer, b"")

        server = await Web(handle, []).start("127.0.0.1", 0)
        port = server.sockets[0].getsockname()[1]
        ends = [await asyncio.open_connection("127.0.0.1", port, limit=1 << 26) for _ in range(2)]
        for _, writer in ends:
            writer.write(f"GET / HTTP/1.1\r\nHost: 127.0.0.1:{port}\r\n\r\n".encode())
        while len(streams.open) < 2:
            await asyncio.sleep(0.01)
        ends[1][0]._transport.pause_reading()
        for _ in range(400):
            streams.send(bytes(100000))
            await asyncio.sleep(0.002)
            await ends[0][0].read(1 << 20)
        left = len(streams.open), streams.dropped
        see(left == (1, 1), f"of a browser that reads and one that does not {left[0]} are there, and {left[1]} was let go")
        for _, writer in ends:
            writer.transport.abort()
        server.close()

    asyncio.run(asyncio.wait_for(played(), 60))


def of_full(page):
    """All places are taken by browsers that read nothing, but for one that does: another one gets a place, and the one that reads keeps its own."""
    held = [socket.create_connection(("127.0.0.1", page.port), timeout=60) for _ in range(63)]
    try:
        with Stream(page) as reads:
            reads.next("table")
            for it in held:
                it.sendall(f"GET /events HTTP/1.1\r\nHost: 127.0.0.1:{page.port}\r\n\r\n".encode())
            page.until(lambda: b"ads_page_browsers 64\n" in page.ask("/metrics")[2], "64 browsers")
            began = time.monotonic()
            with Stream(page) as late:
                late.next("table")
                took = time.monotonic() - began
                see(took < 30, f"another browser waited {took:.1f} s for a place")
                reads.next("values")
    finally:
        for it in held:
            it.close()
    return took
