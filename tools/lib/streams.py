"""Streams of requests to the notes: good ones with the answers that must come, and mutated ones, all from a number."""
import random
import re
from collections.abc import Sequence
from typing import NamedTuple, TypeVar

T = TypeVar("T")

# An expected answer: a status, whether the connection closes, and whether the head comes alone.
Wanted = tuple[int, bool, bool]


class Stream(NamedTuple):
    """The bytes of a connection, where they are cut, how it ends (`half`: the client stops sending and reads on; `open`: it goes on waiting;
    `away`: it is gone at once), and the answers that must come, or None."""

    data: bytes
    cuts: list[int]
    end: str
    wanted: list[Wanted] | None


class Seed(NamedTuple):
    """A request, and its answer."""

    data: bytes
    wanted: Wanted


HOST = b"Host: localhost"
FORM = b"Content-Type: application/x-www-form-urlencoded"
FIELDS = [
    HOST, FORM, b"Host: other", b"Content-Length: 0", b"Content-Length: 5", b"Content-Length: +5", b"Content-Length: 1048576",
    b"Content-Length: 1048577", b"Content-Length: 18446744073709551616", b"content-length: 3", b"Content-Length:", b"Content-Length: 0x5",
    b"Transfer-Encoding: chunked", b"Transfer-Encoding: identity", b"transfer-encoding:", b"Connection: close", b"Connection: keep-alive",
    b"connection: x, CLOSE", b"Connection: Upgrade", b"Upgrade: h2c", b"Expect: 100-continue", b"Cookie: Main.c=1; a=b", b"X: \xff\xfe",
    b"X:\ty", b" folded: x", b"NoColon", b": empty", b"X : y", b"Content-Length : 4", b"Accept-Encoding: gzip",
]
PIECES = [
    b"\r\n", b"\r\n\r\n", b"\n", b"\r", b"\0", b" ", b"\t", b":", b"%", b"%00", b"%FF", b"%2F", b"%", b"_", b"/", b"//", b"/../", b"?", b"#",
    b"HTTP/1.1", b"HTTP/1.0", b"HTTP/2.0", b"http://a", b"https://b/", b"*", b"GET ", b"HEAD ", b"POST ", b"\xc3\xa9", b"\xff" * 3, b"&", b"=", b"+",
]
NUMBERS = [b"0", b"1", b"-1", b"+1", b"00000", b"65536", b"1048576", b"1048577", b"4294967296", b"9223372036854775808", b"18446744073709551616", b""]
# What stands for an owner and for a note's number in the seeds. An owner has as many bytes, so that lengths stay right.
OWNER, NUMBER = b"@@@", b"##"
OWNERS = [b"o%02d" % number for number in range(60)]
DIGITS = re.compile(rb"[0-9]+")


def head(method: bytes, target: bytes, *fields: bytes, version: bytes = b"HTTP/1.1") -> bytes:
    """Returns the bytes of a head."""
    return b"\r\n".join([method + b" " + target + b" " + version, *fields, b"", b""])


def post(target: bytes, body: bytes, *fields: bytes) -> bytes:
    """Returns the bytes of a request with a form."""
    return head(b"POST", target, HOST, FORM, b"Content-Length: %d" % len(body), *fields) + body


def kept(data: bytes, status: int = 200) -> Seed:
    return Seed(data, (status, False, data.startswith(b"HEAD ")))


def closed(data: bytes, status: int) -> Seed:
    return Seed(data, (status, True, data.startswith(b"HEAD ")))


def good_seeds(who: bytes, number: bytes) -> list[Seed]:
    """Requests that the program's pages lead to, in several spellings."""
    return [
        kept(head(b"GET", b"/Main/list/" + who, HOST)),
        kept(head(b"HEAD", b"/Main/list/" + who, HOST)),
        kept(post(b"/Main/add/" + who, b"Body=a+text+%26+more")),
        kept(post(b"/Main/add/" + who, b"x=1&Body=%3Cp%3E&Body=second")),
        kept(post(b"/Main/add/" + who, b"Body=%FF%00&Body", b"Accept: */*")),
        kept(post(b"/Main/drop/" + number, b"")),
        kept(post(b"/Main/move/" + number, b"To=" + who)),
        kept(head(b"GET", b"/Main/list/" + who + b"?a=/b", b"host:localhost", b"Cookie: a=b; c")),
        kept(head(b"GET", b"http://localhost:80/Main/list/" + who, HOST)),
        kept(head(b"GET", b"/Main/list/%C3%A9%20" + who, HOST)),
        kept(head(b"GET", b"/Main/list/_", HOST, *[b"X%d: y" % field for field in range(63)])),
        kept(head(b"GET", b"/Main/list/" + who, HOST, b"Content-Length: 3") + b"abc"),
        closed(head(b"GET", b"/Main/list/" + who, HOST, b"Connection: x, Close"), 200),
        closed(head(b"GET", b"/Main/list/" + who, version=b"HTTP/1.0"), 200),
        kept(head(b"GET", b"/Main/list/" + who, HOST, b"User-Agent: Mozilla/5.0 (X11)", b"Accept: text/html,*/*;q=0.8", b"Accept-Language: en")),
    ]


def refused_seeds(who: bytes, number: bytes) -> list[Seed]:
    """Requests whose answers keep the connection, though they are no page."""
    return [
        kept(head(b"GET", b"/", HOST), 404),
        kept(head(b"GET", b"/favicon.ico", HOST), 404),
        kept(head(b"GET", b"/Main/list", HOST), 404),
        kept(head(b"HEAD", b"/Main/list/" + who + b"/", HOST), 404),
        kept(head(b"GET", b"/Main/list/%FF", HOST), 404),
        kept(head(b"GET", b"http://localhost", HOST), 404),
        kept(post(b"/Main/drop/0" + number, b""), 404),
        kept(head(b"GET", b"/Main/add/" + who, HOST), 405),
        kept(head(b"HEAD", b"/Main/drop/" + number, HOST), 405),
        kept(post(b"/Main/list/" + who, b"Body=x"), 405),
        kept(post(b"/Main/add/" + who, b"body=x"), 400),
        kept(post(b"/Main/move/" + number, b""), 400),
        kept(head(b"DELETE", b"/Main/list/" + who, HOST), 501),
        kept(head(b"get", b"/Main/list/" + who, HOST), 501),
        kept(head(b"PUT", b"/Main/add/" + who, HOST, b"Content-Length: 6") + b"Body=x", 501),
    ]


def bad_seeds(who: bytes) -> list[Seed]:
    """Requests whose answers close the connection."""
    target = b"/Main/list/" + who
    return [
        closed(head(b"GET", target), 400),
        closed(head(b"GET", target, HOST, HOST), 400),
        closed(head(b"OPTIONS", b"*", HOST), 400),
        closed(head(b"POST", target, HOST, b"Content-Length: +5") + b"Body=", 400),
        closed(head(b"POST", target, HOST, b"Content-Length: 5", b"content-length: 5") + b"Body=", 400),
        closed(head(b"POST", target, HOST, b"Content-Length: 1048577"), 413),
        closed(head(b"POST", b"/Main/add/" + who, HOST, b"Transfer-Encoding: chunked") + b"6\r\nBody=x\r\n0\r\n\r\n", 501),
        closed(head(b"POST", b"/Main/add/" + who, HOST, b"Transfer-Encoding: chunked", b"Content-Length: 6") + b"Body=x", 501),
        closed(head(b"GET", target, HOST, b"X: " + b"y" * 16384), 431),
        closed(head(b"GET", b"/" + b"z" * 17000, HOST), 431),
        closed(head(b"GET", target, HOST, *[b"X%d: y" % field for field in range(64)]), 431),
        closed(b"\x16\x03\x01\x02\x00\x01\x00\x01\xfc\x03\x03" + b"\0" * 40 + b"\n", 400),
        closed(b"PRI * HTTP/2.0\r\n\r\nSM\r\n\r\n", 400),
    ]


GOOD, REFUSED, BAD = good_seeds(OWNER, NUMBER), refused_seeds(OWNER, NUMBER), bad_seeds(OWNER)


class Dice(random.Random):
    """Random choices, each of one number of `random`, which is the quickest."""

    def below(self, count: int) -> int:
        return int(self.random() * count)

    def one(self, items: Sequence[T]) -> T:
        return items[int(self.random() * len(items))]


def chain(dice: Dice) -> list[Seed]:
    """Returns some requests one after the other: mostly good ones, and mostly few."""
    most = dice.one([1, 1, 2, 3, 4, 8, 20])
    found = [dice.one(GOOD if dice.random() < 0.6 else REFUSED) for _ in range(1 + dice.below(most))]
    if dice.random() < 0.25:
        found.insert(dice.below(len(found) + 1), dice.one(BAD))
    return found


def data_of(dice: Dice, chosen: list[Seed]) -> bytes:
    """Returns the bytes of seeds for some owner and some number of a note."""
    return b"".join([seed.data for seed in chosen]).replace(OWNER, dice.one(OWNERS)).replace(NUMBER, b"%d" % (1 + dice.below(400)))


def wanted_of(chosen: list[Seed]) -> list[Wanted]:
    """Returns the answers that must come to whole requests: those up to the first that closes."""
    found = []
    for seed in chosen:
        found.append(seed.wanted)
        if seed.wanted[1]:
            break
    return found


def place(dice: Dice, data: bytes) -> int:
    """Returns a place of the bytes, often one of an end of a line."""
    at = dice.below(len(data) + 1)
    return max(data.find(b"\n", at), at) if dice.random() < 0.3 else at


def put(data: bytes, at: int, piece: bytes, past: int = 0) -> bytes:
    return data[:at] + piece + data[at + past:]


# Mutations: each returns the bytes after one change.

def change_byte(dice: Dice, data: bytes) -> bytes:
    return put(data, place(dice, data), bytes([dice.below(256)]), 1)


def turn_bit(dice: Dice, data: bytes) -> bytes:
    at = place(dice, data)
    return put(data, at, bytes([data[at] ^ 1 << dice.below(8)]) if at < len(data) else b"", 1)


def drop_bytes(dice: Dice, data: bytes) -> bytes:
    return put(data, place(dice, data), b"", dice.one([1, 1, 2, 7, 40]))


def put_bytes(dice: Dice, data: bytes) -> bytes:
    return put(data, place(dice, data), dice.randbytes(dice.one([1, 2, 5, 60])))


def put_piece(dice: Dice, data: bytes) -> bytes:
    return put(data, place(dice, data), dice.one(PIECES), dice.one([0, 0, 1, 2]))


def repeat_slice(dice: Dice, data: bytes) -> bytes:
    at = place(dice, data)
    return put(data, at, data[at:at + dice.one([1, 3, 20, 200])] * dice.one([1, 1, 2, 10]))


def swap_lines(dice: Dice, data: bytes) -> bytes:
    lines = data.split(b"\r\n")
    one, other = dice.below(len(lines)), dice.below(len(lines))
    lines[one], lines[other] = lines[other], lines[one]
    return b"\r\n".join(lines)


def double_line(dice: Dice, data: bytes) -> bytes:
    lines = data.split(b"\r\n")
    lines.insert(dice.below(len(lines)), dice.one(lines))
    return b"\r\n".join(lines)


def put_field(dice: Dice, data: bytes) -> bytes:
    lines = data.split(b"\r\n")
    lines.insert(1 + dice.below(len(lines)), dice.one(FIELDS))
    return b"\r\n".join(lines)


def drop_line(dice: Dice, data: bytes) -> bytes:
    lines = data.split(b"\r\n")
    del lines[dice.below(len(lines))]
    return b"\r\n".join(lines)


def change_number(dice: Dice, data: bytes) -> bytes:
    found = DIGITS.search(data, place(dice, data))
    at, end = found.span() if found else (len(data), len(data))
    return put(data, at, dice.one(NUMBERS), end - at)


def bare_ends(dice: Dice, data: bytes) -> bytes:
    return data.replace(b"\r\n", dice.one([b"\n", b"\r", b"\r\r\n", b"\n\r"]), dice.one([1, 2, -1]))


def lengthen(dice: Dice, data: bytes) -> bytes:
    return put(data, place(dice, data), dice.one([b"a", b"A", b"0", b" ", b"%", b"/", b":", b"\0", b"\xff"]) * dice.one([255, 4096, 16384, 70000]))


def cut_short(dice: Dice, data: bytes) -> bytes:
    return data[:place(dice, data)]


# Each as often as it stands here.
MUTATIONS = [change_byte, turn_bit, drop_bytes, put_bytes] + 2 * [
    put_piece, put_piece, repeat_slice, swap_lines, double_line, put_field, put_field, drop_line, change_number, bare_ends, cut_short,
]


def mutate(dice: Dice, data: bytes) -> bytes:
    """Returns the bytes after some mutations, mostly few. Bytes are seldom made long, since that takes time."""
    for _ in range(dice.one([1, 1, 1, 2, 3, 6])):
        data = (lengthen if dice.random() < 0.03 else dice.one(MUTATIONS))(dice, data)
    return data


def cuts(dice: Dice, data: bytes) -> list[int]:
    """Returns places where the bytes are cut: none, some, or in even pieces."""
    way = dice.random()
    if way < 0.2 or len(data) < 2:
        return []
    if way < 0.85:
        return sorted({1 + dice.below(len(data) - 1) for _ in range(dice.one([1, 1, 2, 5, 20]))})
    step = max(dice.one([1, 2, 7, 64, 1000]), len(data) // dice.one([10, 40, 40, 300]))
    return list(range(step, len(data), step))


def stream(seed: int, number: int) -> Stream:
    """Returns the stream of a number: a fourth of them good, the others mutated."""
    dice = Dice(seed << 32 | number)
    chosen, way = chain(dice), dice.random()
    data = data_of(dice, chosen)
    wanted: list[Wanted] | None = None
    if dice.random() < 0.75:
        data = mutate(dice, data)
    else:
        wanted = wanted_of(chosen)
    # One that says nothing is heard only once it ends.
    left_open = "open" if data else "half"
    return Stream(data, cuts(dice, data), "half" if way < 0.97 else "away" if way < 0.998 else left_open, wanted)
