"""A reverse proxy that has a server under the front of a path: it cuts that off, and else passes bytes on, those of WebSocket too."""

import re
import socket
import threading
from contextlib import contextmanager

SECONDS = 30


def head_of(one):
    """The head of a request with its empty line, and what came behind it."""
    data = b""
    while b"\r\n\r\n" not in data:
        piece = one.recv(65_536)
        if not piece:
            return None, data
        data += piece
    head, _, rest = data.partition(b"\r\n\r\n")
    return head + b"\r\n\r\n", rest


def pump(source, sink):
    """Passes bytes on until there are no more."""
    try:
        while piece := source.recv(65_536):
            sink.sendall(piece)
        sink.shutdown(socket.SHUT_WR)
    except OSError:
        pass


def pass_on(one, port, front):
    """Passes one request on, which is the last of its connection unless it asks for another protocol."""
    head, rest = head_of(one)
    found = head and re.match(rb"([A-Z]+) " + re.escape(front) + rb"(/\S*) ", head)
    if not found:
        return one.sendall(b"HTTP/1.1 404 Not Found\r\nContent-Length: 0\r\nConnection: close\r\n\r\n") if head else None
    head = b"%s %s %s" % (found[1], found[2], head[found.end():])
    if not re.search(rb"(?im)^upgrade:", head):
        head = re.sub(rb"(?im)^connection:.*\r\n", b"", head).replace(b"\r\n\r\n", b"\r\nConnection: close\r\n\r\n")
    with socket.create_connection(("127.0.0.1", port), SECONDS) as other:
        for it in (one, other):
            it.settimeout(None)
        other.sendall(head + rest)
        back = threading.Thread(target=pump, args=(other, one), daemon=True)
        back.start()
        pump(one, other)
        back.join()


@contextmanager
def under(front, listener, port):
    """Serves at this listener, below `front`, what the server of this port has."""
    def accept():
        while True:
            try:
                one, _ = listener.accept()
            except OSError:
                return
            threading.Thread(target=served, args=(one,), daemon=True).start()

    def served(one):
        try:
            with one:
                one.settimeout(SECONDS)
                pass_on(one, port, front.encode())
        except OSError:
            pass

    threading.Thread(target=accept, daemon=True).start()
    try:
        yield
    finally:
        listener.shutdown(socket.SHUT_RDWR)
        listener.close()
