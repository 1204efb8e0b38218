"""Messages of the language server protocol: JSON behind a head that says its length in bytes."""
import json
import re
from typing import Any, BinaryIO

Message = dict[str, Any]
MOST_BYTES = 64 * 1024 * 1024
LENGTH = re.compile(rb"^content-length *: *(\d{1,8}) *\r?$", re.IGNORECASE | re.MULTILINE)
HEAD_END = re.compile(rb"\r\n\r\n|\n\n")


class Broken(Exception):
    """Bytes that are no message. After a head that is none nothing more can be read."""

    def __init__(self, text: str, is_last: bool) -> None:
        super().__init__(text)
        self.is_last = is_last


class Inbox:
    """The bytes that came and are in no message yet."""

    def __init__(self) -> None:
        self.data = bytearray()

    def take(self) -> Message | Broken | None:
        """Takes the first message out, or says what is wrong with it; None where it has not come whole."""
        head = HEAD_END.search(self.data)
        if head is None:
            return None
        found = LENGTH.search(self.data, 0, head.end())
        if found is None or int(found[1]) > MOST_BYTES:
            return Broken("a head without a Content-Length that can be read", True)
        end = head.end() + int(found[1])
        if len(self.data) < end:
            return None
        body = bytes(self.data[head.end():end])
        del self.data[:end]
        try:
            message = json.loads(body)
        except (ValueError, RecursionError) as error:
            return Broken(str(error), False)
        return message if isinstance(message, dict) else Broken("a message that is no object", False)


def write(stream: BinaryIO, message: Message) -> None:
    """Writes one message."""
    body = json.dumps({"jsonrpc": "2.0", **message}, ensure_ascii=False).encode("utf-8", "surrogatepass")
    stream.write(b"Content-Length: %d\r\n\r\n%s" % (len(body), body))
    stream.flush()
