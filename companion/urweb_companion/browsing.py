"""A browser without a screen: it asks a server, and keeps cookies where it is told to."""
import http.client
from collections.abc import Sequence
from dataclasses import dataclass
from urllib.parse import quote, urlencode

HOST = "127.0.0.1"

# What a path keeps as it is: the signs of paths, and `%` of what is encoded already.
PLAIN = "/%:@!$&'()*+,;=-._~?"


@dataclass(frozen=True)
class Shown:
    """A status and a page, each byte that is no UTF-8 as one sign."""

    status: int
    page: str


class Browser:
    """One who asks a server, request by request."""

    def __init__(self, port: int, seconds: float) -> None:
        self._port, self._seconds = port, seconds
        self._cookies: dict[str, str] = {}
        self._last: dict[str, str] = {}
        self._keeps = False

    def ask(self, method: str, path: str, fields: Sequence[tuple[str, str]] = ()) -> Shown:
        """Returns what comes; an OSError or an HTTPException where nothing comes."""
        head = {"Connection": "close"}
        body = None
        if method == "POST":
            body = urlencode(fields)
            head["Content-Type"] = "application/x-www-form-urlencoded"
        if self._cookies:
            head["Cookie"] = "; ".join(f"{name}={value}" for name, value in self._cookies.items())
        link = http.client.HTTPConnection(HOST, self._port, timeout=self._seconds)
        try:
            link.request(method, quote(path, safe=PLAIN), body, head)
            given = link.getresponse()
            self._take(given.headers.get_all("Set-Cookie") or [])
            return Shown(given.status, given.read().decode("utf-8", "replace"))
        finally:
            link.close()

    def keep(self) -> None:
        """Sends cookies back from now on, those of the last answer too."""
        self._keeps = True
        self._cookies |= self._last

    def _take(self, lines: list[str]) -> None:
        pairs = (line.partition(";")[0].partition("=") for line in lines)
        self._last = {name.strip(): value for name, _, value in pairs}
        if self._keeps:
            self._cookies |= self._last
