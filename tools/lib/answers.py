"""The answers on one connection: split, and compared with the table of answers; and the notes on a page of notes."""
import functools
import html
import re
from typing import NamedTuple

PHRASES = {
    200: "OK", 400: "Bad Request", 404: "Not Found", 405: "Method Not Allowed", 413: "Content Too Large",
    431: "Request Header Fields Too Large", 500: "Internal Server Error", 501: "Not Implemented",
    502: "Bad Gateway", 503: "Service Unavailable",
}
CLOSING = {413, 431, 502, 503}
HEAD = re.compile(
    rb"HTTP/1\.1 (?P<status>\d{3}) (?P<phrase>[A-Za-z ]+)\r\nContent-Type: text/html; charset=utf-8\r\n"
    rb"Content-Length: (?P<length>0|[1-9]\d*)\r\n(?:Allow: (?P<allow>GET, HEAD|POST|GET, HEAD, POST)\r\n)?"
    rb"(?P<cookies>(?:Set-Cookie: [^\r\n]*; Path=/\r\n)*)(?P<close>Connection: close\r\n)?\r\n"
)
DOCTYPE = b"<!DOCTYPE html>\n"
ERROR = re.compile(
    DOCTYPE + rb"<html><head><title>Error</title></head><body>"
    rb"(?:division by zero|duplicate key in [^<]*|table full: [^<]*|expected one row|budget spent)</body></html>"
)


class Answer(NamedTuple):
    """An answer. It is `alone` where it is a head without its body, as an answer to HEAD is."""

    status: int
    closes: bool
    alone: bool
    body: bytes | None


class Wrong(Exception):
    """What is given is none of the table's answers."""


def plain_body(status: int) -> bytes:
    """Returns the body of an answer other than 200 and 500."""
    said = f"{status} {PHRASES[status]}"
    return DOCTYPE + f"<html><head><title>{said}</title></head><body>{said}</body></html>".encode()


def is_body(status: int, body: bytes) -> bool:
    """Whether an answer of the status may have the body."""
    if status == 200:
        return body.startswith(DOCTYPE + b"<html>") and body.endswith(b"</html>")
    return bool(ERROR.fullmatch(body)) if status == 500 else body == plain_body(status)


@functools.lru_cache(4096)
def head_of(text: bytes) -> tuple[int, int, bool]:
    """Looks at the bytes of a head, and returns its status, the length that it says, and whether it closes."""
    head = HEAD.fullmatch(text)
    if head is None:
        raise Wrong(f"no head of an answer: {text[:300]!r}")
    status, length = int(head["status"]), int(head["length"])
    if PHRASES.get(status, "").encode() != head["phrase"]:
        raise Wrong(f"no such status line: {status} {head['phrase']!r}")
    if (head["allow"] is not None) != (status == 405) or (head["cookies"] and status != 200):
        raise Wrong(f"a field that {status} has not, or one is missing: {text!r}")
    if status in CLOSING and not head["close"]:
        raise Wrong(f"{status} keeps its connection")
    if status not in (200, 500) and length != len(plain_body(status)):
        raise Wrong(f"a length that {status} has not: {length}")
    return status, length, bool(head["close"])


def first(given: bytes, begin: int) -> tuple[Answer, int]:
    """Returns the first answer from a place on, and the place after it. It is a head alone where no page follows."""
    end = given.find(b"\r\n\r\n", begin) + 4
    if end < 4:
        raise Wrong(f"no head of an answer: {given[begin:begin + 300]!r}")
    status, length, closes = head_of(given[begin:end])
    if not given.startswith(DOCTYPE[:1], end):
        return Answer(status, closes, True, None), end
    body = given[end:end + length]
    if len(body) != length or not is_body(status, body):
        raise Wrong(f"no body of {status} with {length} bytes: {given[end:end + 300]!r}")
    return Answer(status, closes, False, body), end + length


def is_cut(given: bytes, begin: int) -> bool:
    """Whether the bytes from a place on may be the front of an answer, and are no whole one."""
    head = HEAD.match(given, begin)
    if head is None:
        return given.find(b"\r\n\r\n", begin) < 0
    return given.startswith(DOCTYPE[:1], head.end()) and len(given) - head.end() < int(head["length"])


def split(given: bytes, may_be_cut: bool = False) -> list[Answer]:
    """Returns the answers that the bytes are, in order. After a closing one nothing may come. The last may be cut where this is said."""
    found: list[Answer] = []
    at = 0
    while at < len(given) and not (may_be_cut and is_cut(given, at)):
        if found and found[-1].closes:
            raise Wrong(f"more after a closing answer: {given[at:at + 300]!r}")
        answer, at = first(given, at)
        found.append(answer)
    return found


def notes_of(page: bytes) -> list[tuple[int, str]]:
    """Returns the notes on a page of notes in order: numbers and texts."""
    text = page.decode()
    bodies = [html.unescape(body) for body in re.findall(r"<p>(.*?)</p>", text, re.DOTALL)]
    return list(zip([int(number) for number in re.findall(r'formaction="/Main/drop/(\d+)"', text)], bodies))
