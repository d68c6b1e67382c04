"""A page that stands in the place of another one until that comes, and says what is done meanwhile."""
import html
import socketserver
import threading

HEAD = "HTTP/1.0 200 OK\r\nContent-Type: text/html; charset=utf-8\r\nCache-Control: no-store\r\n\r\n"
PAGE = HEAD + """<!doctype html>
<html lang="en"><meta http-equiv="refresh" content="2"><title>Not yet</title>
<body style="font: 1.2rem/1.5 system-ui, sans-serif; max-width: 40rem; margin: 4rem auto; color-scheme: light dark">
<h1>Not yet</h1><p>{said}</p><p>This page looks again every two seconds, and becomes the page of values by itself.</p>
"""


class Answering(socketserver.StreamRequestHandler):
    timeout = 5

    def handle(self):
        try:
            while self.rfile.readline(65536).strip():
                pass
            self.wfile.write(PAGE.format(said=html.escape(self.server.said)).encode())
        except OSError:  # whoever asked is slow or gone
            pass


class Waiting(socketserver.ThreadingTCPServer):
    """Answers at a port of this machine from its making to `close`; `said` is what it says."""
    allow_reuse_address = daemon_threads = True

    def __init__(self, port):
        super().__init__(("127.0.0.1", port), Answering)
        self.said = ""
        threading.Thread(target=self.serve_forever, args=(0.05,), daemon=True).start()

    def handle_error(self, *_):
        pass

    def close(self):
        self.shutdown()
        self.server_close()
