"""Requests to a project by `replay`, over tables in memory: what is answered, in order."""
from collections.abc import Sequence
from dataclasses import dataclass

from urweb_companion.program import Answer, run

MOST = 900


@dataclass(frozen=True)
class Response:
    """The status, the fields of the head by their names in small letters, and the body."""

    status: int
    fields: dict[str, str]
    body: bytes


def request(method: str, path: str, body: bytes = b"") -> bytes:
    """Returns the bytes of a request, a form's where there is a body."""
    kind = "Content-Type: application/x-www-form-urlencoded\r\n" if method == "POST" else ""
    length = f"Content-Length: {len(body)}\r\n" if method == "POST" else ""
    return f"{method} {path} HTTP/1.1\r\nHost: localhost\r\n{kind}{length}\r\n".encode() + body


def responses(data: bytes, methods: Sequence[str]) -> list[Response]:
    """Takes apart the answers to requests of these methods; what is cut off is left out."""
    found = []
    for method in methods:
        head, blank, rest = data.partition(b"\r\n\r\n")
        if not blank:
            break
        first, *lines = head.decode("latin-1").split("\r\n")
        fields = {name.lower(): value.strip() for name, _, value in (it.partition(":") for it in lines)}
        length = 0 if method == "HEAD" else int(fields.get("content-length", "0"))
        found.append(Response(int(first.split()[1]), fields, rest[:length]))
        data = rest[length:]
    return found


def replayed(project: str, wanted: Sequence[tuple[str, str]], steps: int | None = None) -> list[Response] | Answer:
    """Returns the responses to requests of these methods and paths, or the run that gave none."""
    found: list[Response] = []
    more = ["--steps", str(steps)] if steps is not None else []
    for at in range(0, len(wanted), MOST):
        part = wanted[at:at + MOST]
        answer = run(["replay", *more, "--", project], b"".join(request(*it) for it in part))
        if answer.status != 0:
            return answer
        found += responses(answer.out, [method for method, _ in part])
    return found
