"""Requests and answers as bytes on a connection, as far as one who passes them on has to know them."""
import re
import socket
from dataclasses import dataclass

END = b"\r\n\r\n"

# More than the program takes: what is longer is passed on as far as it has come, and the program says what is wrong.
MOST_HEAD = 32_768
MOST_BODY = 1_048_576
PIECE = 65_536

_HOP = re.compile(rb"\r\n(?:Connection|Keep-Alive|Proxy-Connection)[ \t]*:[^\r\n]*", re.IGNORECASE)
_LENGTH = re.compile(rb"\r\nContent-Length[ \t]*:[ \t]*(\d{1,12})[ \t]*\r\n", re.IGNORECASE)
_EXPECT = re.compile(rb"\r\nExpect[ \t]*:[ \t]*100-continue[ \t]*\r\n", re.IGNORECASE)


@dataclass(frozen=True)
class Request:
    """A request: its head with the empty line, and its body."""

    head: bytes
    body: bytes

    @property
    def method(self) -> str:
        return self._word(0)

    @property
    def path(self) -> str:
        return self._word(1)

    def _word(self, at: int) -> str:
        words = self.head.partition(b"\r\n")[0].split(b" ")
        return words[at].decode("latin-1") if at < len(words) else ""

    def alone(self) -> bytes:
        """Returns the bytes with which the request is asked on a connection of its own; all fields but those of the connection stay."""
        if not self.head.endswith(END):
            return self.head
        fields = _HOP.sub(b"", self.head.removesuffix(END))
        return fields + b"\r\nConnection: close" + END + self.body


@dataclass(frozen=True)
class Reply:
    """An answer as it came."""

    data: bytes

    @property
    def status(self) -> int:
        found = re.match(rb"HTTP/1\.[01] (\d{3}) ", self.data)
        return int(found[1]) if found else 0

    @property
    def body(self) -> bytes:
        return self.data.partition(END)[2]

    def is_whole(self, method: str) -> bool:
        """Whether all of the answer to a request of this method has come."""
        head, end, body = self.data.partition(END)
        found = _LENGTH.search(head + end)
        return bool(end) and (method == "HEAD" or found is not None and len(body) == int(found[1]))


def read_request(link: socket.socket) -> Request | None:
    """Returns the next request of a client, or none where it ends first."""
    data = b""
    while END not in data and len(data) < MOST_HEAD:
        more = link.recv(PIECE)
        if not more:
            return None
        data += more
    head, end, body = data.partition(END)
    if not end:
        return Request(data, b"")
    head += end
    found = _LENGTH.search(head)
    length = int(found[1]) if found else 0
    if length > MOST_BODY:
        return Request(head, b"")
    if _EXPECT.search(head) and not body:
        link.sendall(b"HTTP/1.1 100 Continue\r\n\r\n")
    return _with_body(link, head, body, length)


def _with_body(link: socket.socket, head: bytes, body: bytes, length: int) -> Request | None:
    parts, have = [body], len(body)
    while have < length:
        more = link.recv(PIECE)
        if not more:
            return None
        parts.append(more)
        have += len(more)
    return Request(head, b"".join(parts)[:length])


def ask(port: int, request: bytes, seconds: float) -> Reply:
    """Asks on a connection of its own, and returns what comes until it ends."""
    with socket.create_connection(("127.0.0.1", port), seconds) as link:
        parts = []
        try:
            link.sendall(request)
            while more := link.recv(PIECE):
                parts.append(more)
        except ConnectionError:
            # The other side may have answered before it had all, or may have ended.
            pass
        return Reply(b"".join(parts))


def reply(status: str, body: bytes, *fields: str) -> Reply:
    """Returns an answer of this program's own."""
    lines = [f"HTTP/1.1 {status}", "Content-Type: text/html; charset=utf-8", f"Content-Length: {len(body)}", "Cache-Control: no-store", *fields]
    return Reply("\r\n".join([*lines, "Connection: close", "", ""]).encode() + body)
