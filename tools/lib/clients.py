"""A client that keeps its connection, as browsers do: it holds a second one on which it sends nothing, and asks again where its own was closed."""
import re
import socket
from collections.abc import Mapping
from typing import Self

from lib.served import connected, request

# So often it asks again on a new connection where none of an answer came.
TRIES = 5


class Client:
    """A client of a port of 127.0.0.1."""

    def __init__(self, port: int) -> None:
        self.port = port
        self.link: socket.socket | None = None
        self.silent: socket.socket | None = None
        self.again = 0

    def ask(self, method: str, path: str, fields: Mapping[str, str] | None = None) -> tuple[int, str]:
        """Asks, and returns the status and the page."""
        for _ in range(TRIES):
            link = self.link or self.opened()
            try:
                link.sendall(request(method, path, fields))
                given = link.recv(65536)
            except (BrokenPipeError, ConnectionResetError):
                given = b""
            if given:
                return self.rest(link, given)
            self.again += 1
            self.close()
        raise ConnectionError(f"{method} {path}: no answer on {TRIES} connections")

    def opened(self) -> socket.socket:
        """Opens a connection, and beside it one on which nothing is sent."""
        self.link, self.silent = connected(self.port), connected(self.port)
        return self.link

    def rest(self, link: socket.socket, given: bytes) -> tuple[int, str]:
        """Reads the rest of an answer, and returns its status and its page."""
        while b"\r\n\r\n" not in given:
            given += self.more(link)
        head, _, page = given.partition(b"\r\n\r\n")
        length = re.search(rb"\r\nContent-Length: (\d+)", head)
        while length is not None and len(page) < int(length[1]):
            page += self.more(link)
        if b"\r\nConnection: close" in head:
            self.close()
        return int(head.split()[1]), page.decode()

    @staticmethod
    def more(link: socket.socket) -> bytes:
        given = link.recv(65536)
        if not given:
            raise ConnectionError("an answer is cut")
        return given

    def close(self) -> None:
        for link in (self.link, self.silent):
            if link is not None:
                link.close()
        self.link = self.silent = None

    def __enter__(self) -> Self:
        return self

    def __exit__(self, *_: object) -> None:
        self.close()
