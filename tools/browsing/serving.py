"""The server: on the loopback address alone, one request for each connection, and what ends it.

It ends by Ctrl-C, with its terminal (SIGHUP), by SIGTERM, and when the standard input hangs up: a terminal that was closed though the
signal was kept away, or a pipe whose other end is gone. It does not end where the standard input is merely empty, as /dev/null is.
"""
import http
import select
import signal
import socket
import socketserver
import threading
import time

from browsing import guard

# How many seconds a client has for its request, how many clients are heard at a time, and how many bytes of a refused one are read.
WAIT, CLIENTS, LEFT_OVER = 10, 32, 64 << 20
FIELDS = (
    "Content-Security-Policy: default-src 'none'; style-src 'unsafe-inline'; form-action 'self'; base-uri 'none'; frame-ancestors 'none'",
    "Cross-Origin-Resource-Policy: same-origin",
    "Cross-Origin-Opener-Policy: same-origin",
    "X-Content-Type-Options: nosniff",
    "X-Frame-Options: DENY",
    "Referrer-Policy: no-referrer",
    "Cache-Control: no-store",
    "Connection: close",
)


class Reply:
    """What a request gets."""

    def __init__(self, status, kind, text, *fields):
        body = text.encode("utf-8", "backslashreplace")
        first = f"HTTP/1.1 {status} {http.HTTPStatus(status).phrase}"
        lines = [first, *FIELDS, *fields, f"Content-Type: {kind}; charset=utf-8", f"Content-Length: {len(body)}"]
        self.bytes = "".join(line + "\r\n" for line in lines).encode() + b"\r\n" + body


def head_of(client):
    """Returns the head of a request without its last line, or None where the client has gone."""
    head, late = b"", time.monotonic() + WAIT
    while b"\r\n\r\n" not in head:
        if len(head) > guard.LONGEST_HEAD:
            raise guard.Refused(431, f"the head has more than {guard.LONGEST_HEAD} bytes")
        client.settimeout(max(0.01, late - time.monotonic()))
        part = client.recv(guard.LONGEST_HEAD)
        if not part:
            return None
        head += part
    if len(head) > guard.LONGEST_HEAD:
        raise guard.Refused(431, f"the head has more than {guard.LONGEST_HEAD} bytes, or a body")
    return head[: head.index(b"\r\n\r\n")]


class Client(socketserver.BaseRequestHandler):
    """Hears one client."""

    def handle(self):
        try:
            if reply := self.reply():
                self.request.settimeout(WAIT)
                self.request.sendall(reply.bytes)
                self.request.shutdown(socket.SHUT_WR)
                self.read_on()
        except OSError:
            pass

    def reply(self):
        """Returns what the request gets. One is served at a time."""
        try:
            head = head_of(self.request)
            if head is None:
                return None
            name, query = guard.asked(head, self.server.authority, self.server.token)
        except guard.Refused as refused:
            return Reply(refused.status, "text/plain", f"refused: {refused.what}\n")
        with self.server.lock:
            return self.server.serve(name, query)

    def read_on(self):
        """Reads what a client sends still, so that it comes to read its reply."""
        left, late = LEFT_OVER, time.monotonic() + WAIT
        while left > 0 and (wait := late - time.monotonic()) > 0:
            self.request.settimeout(wait)
            part = self.request.recv(1 << 16)
            if not part:
                return
            left -= len(part)


class Server(socketserver.ThreadingTCPServer):
    """Serves pages on a port that the system gives, behind a token."""

    daemon_threads, block_on_close, request_queue_size = True, False, CLIENTS

    def __init__(self, token, serve):
        super().__init__(("127.0.0.1", 0), Client)
        self.token, self.serve, self.lock = token, serve, threading.Lock()
        self.room = threading.BoundedSemaphore(CLIENTS)
        self.authority = f"127.0.0.1:{self.server_address[1]}"
        self.address = f"http://{self.authority}/{token}/"

    def verify_request(self, request, client_address):
        return self.room.acquire(blocking=False)

    def process_request_thread(self, request, client_address):
        try:
            super().process_request_thread(request, client_address)
        finally:
            self.room.release()


def hear_signals():
    """Lets each signal that ends the tool come as KeyboardInterrupt."""
    for number in (signal.SIGINT, signal.SIGTERM, signal.SIGHUP):
        signal.signal(number, signal.default_int_handler)


def serve_until_ended(server):
    """Serves until a signal comes or the standard input hangs up."""
    watch = select.poll()
    watch.register(0, 0)
    threading.Thread(target=server.serve_forever, daemon=True).start()
    try:
        watch.poll()
    except KeyboardInterrupt:
        pass
