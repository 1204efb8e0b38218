"""What is right of a run in which calls that take memory were refused: of its status and report, of what is given on its connections, of
its file of tables, and of a run after it that has all memory. tools/tries/refuse makes the runs."""
import contextlib
import os
import sqlite3
from collections.abc import Iterator
from dataclasses import dataclass

from lib import tables
from lib.answers import PHRASES, plain_body

Rows = tuple[str, ...]

REPORTS = {0: b"", 4: b"shelf fault\n", 6: b"wire fault\n", 7: b"keeper fault\n", 8: b"memory\n"}
# The clauses of `run` by which a status comes that is none of want of memory.
CLAUSES = {4: "shelf_fault", 5: "sink_fault", 6: "wire_fault", 7: "keeper_fault"}
SCHEMA = tables.LAYOUT + b"table M.item Body:string Id:int primary Id\nsequence M.ids\n"
ITEM = (("Body", "string"), ("Id", "int"))


@dataclass(frozen=True)
class Request:
    """A request: its bytes, the row that it adds, and the page that answers it, which is the list where it is None."""
    text: bytes
    adds: str | None = None
    page: str | None = None


@dataclass(frozen=True)
class Kind:
    """What is run: a project, the requests of each connection, the rows with which its file of tables begins (None where tables are in
    memory, no rows where there is no file yet), and whether the connections come over sockets."""
    project: str
    connections: tuple[tuple[Request, ...], ...]
    first: Rows | None = None
    is_served: bool = False


@dataclass(frozen=True)
class Left:
    """A file of tables: what is wrong with it, and its rows, None where no tables are kept in it."""
    wrong: Rows
    rows: Rows | None


@dataclass(frozen=True)
class Run:
    """What is seen of a run. The status is None where its time was over, and below 0 by a signal. Its report is all that it printed beside
    what is given on each connection; `other` must be empty. `left` is its file of tables, `later` the run after it over the same file."""
    status: int | None
    given: tuple[bytes, ...]
    report: bytes
    other: bytes = b""
    line: bytes = b""
    left: Left | None = None
    later: "Run | None" = None


@dataclass(frozen=True)
class End:
    """How a connection ended: after so many right answers, as `whole`, by `503` or `502`, `cut`, or `none` where it had no session."""
    answers: int
    by: str


@dataclass(frozen=True)
class Verdict:
    """What a run came to, the clauses that allow what is neither done nor want of memory, and what is broken."""
    outcome: str
    allowed: Rows = ()
    broken: Rows = ()


def answer(status: int, page: bytes) -> bytes:
    """Returns the bytes of an answer."""
    close = "" if status == 200 else "Connection: close\r\n"
    head = f"HTTP/1.1 {status} {PHRASES[status]}\r\nContent-Type: text/html; charset=utf-8\r\nContent-Length: {len(page)}\r\n{close}\r\n"
    return head.encode() + page


def fixed(status: int) -> bytes:
    """Returns the bytes of 502 or 503."""
    return answer(status, plain_body(status))


def list_page(rows: Rows) -> str:
    """Returns the page that shows these rows."""
    shown = "".join(f"<p>{it}</p>" for it in rows)
    form = '<form method="post"><input type="text" name="Body"/><input type="submit" formaction="/M/add"/></form>'
    return f"<!DOCTYPE html>\n<html><body>{shown}{form}</body></html>"


def after(request: Request, rows: Rows) -> Rows:
    """Returns the rows where the request is done."""
    return rows + (request.adds,) if request.adds else rows


def right(request: Request, rows: Rows) -> bytes:
    """Returns the right answer to the request over the rows."""
    page = list_page(after(request, rows)) if request.page is None else request.page
    return answer(200, page.encode())


def ends(requests: tuple[Request, ...], given: bytes, rows: Rows) -> Iterator[tuple[End, Rows]]:
    """Yields how a connection ended and the rows then, in each way that fits what is given on it; nothing where none does."""
    if not given:
        yield End(0, "none"), rows
    done = 0
    while done < len(requests) and given.startswith(right(requests[done], rows)):
        given = given[len(right(requests[done], rows)):]
        rows = after(requests[done], rows)
        done += 1
    yield from ends_after(done, requests[done:done + 1], given, rows)


def ends_after(done: int, coming: tuple[Request, ...], given: bytes, rows: Rows) -> Iterator[tuple[End, Rows]]:
    """Yields the same where so many answers are right and this is given after them. What is cut may have been saved."""
    if not coming and not given:
        yield End(done, "whole"), rows
    for status in (503, 502) if coming else (503,):
        if given == fixed(status):
            yield End(done, str(status)), rows
    if any(it.startswith(given) and it != given for it in [right(it, rows) for it in coming] + [fixed(503), fixed(502)]):
        yield End(done, "cut"), rows
        yield from ((End(done, "cut"), after(it, rows)) for it in coming if it.adds)


def readings(
    connections: tuple[tuple[Request, ...], ...], given: tuple[bytes, ...], rows: Rows
) -> Iterator[tuple[tuple[End, ...], Rows]]:
    """Yields how all connections ended and the rows then, in each way that fits."""
    if not connections:
        yield (), rows
        return
    for end, now in ends(connections[0], given[0], rows):
        for others, last in readings(connections[1:], given[1:], now):
            yield (end,) + others, last


def may_end(kind: Kind, status: int, all_ends: tuple[End, ...]) -> bool:
    """Says whether the sessions of a run of this status may end so."""
    by = [it.by for it in all_ends]
    sessions = by[:by.index("none")] if "none" in by else by
    if any(it != "none" for it in by[len(sessions):]):
        return False
    if status in (4, 7):
        return not sessions
    if status == 8 or (status == 6 and kind.is_served):
        return len(sessions) < len(by)
    if status == 6:
        return by[0] in ("cut", "whole")
    return status == 5 or (len(sessions) == len(by) and (kind.is_served or "cut" not in by))


def is_report(run: Run) -> bool:
    """Says whether what is printed is the report of the status, after the line of a port. Where the words find no memory nothing is printed."""
    has_line = run.line != b"" and run.report.startswith(run.line)
    said = run.report[len(run.line):] if has_line else run.report
    if run.line and not has_line and any(run.given):
        return False
    if run.status == 5:
        return any(it.startswith(run.report) for it in [run.line, *REPORTS.values()] + [run.line + it for it in REPORTS.values()])
    return said == REPORTS.get(run.status or 0) or (run.status == 8 and not said and not any(run.given) and not has_line)


def told(run: Run, all_ends: tuple[End, ...]) -> str:
    """Returns the outcome in words."""
    words = [f"status {run.status}"]
    if run.status == 8:
        words.append("nothing printed" if not run.report else "`memory` printed")
    at = "" if len(all_ends) == 1 else " on connection {}"
    for number, end in enumerate(all_ends, 1):
        if end.by not in ("whole", "none"):
            words.append(f"{end.by} after {end.answers} answers{at.format(number)}")
    if run.status == 0 and len(words) == 1:
        words.append("all answered")
    if len(all_ends) > 1 and any(it.by == "none" for it in all_ends):
        words.append(f"{sum(it.by != 'none' for it in all_ends)} connections served")
    return ", ".join(words)


def allowed_by(run: Run, all_ends: tuple[End, ...]) -> Rows:
    """Returns the clauses that allow what is neither done nor want of memory, each only where a count of faults rose."""
    found = [f"`{CLAUSES[run.status]}` of run"] if run.status in CLAUSES and run.status is not None else []
    by = [it.by for it in all_ends]
    return tuple(found + ["`keeper` of session"] * ("502" in by) + ["`wire` of session"] * ("cut" in by))


def broken_file(kind: Kind, run: Run, left: Left, found: list[tuple[tuple[End, ...], Rows]]) -> list[str]:
    """Returns what is wrong of the file of tables and of the run after it, where the sessions can be read in these ways."""
    later, wrong = run.later, list(left.wrong)
    if left.rows is None and (kind.first or any(run.given)):
        wrong.append("no tables are kept in the file")
    if left.rows is not None and left.rows not in [rows for _, rows in found]:
        wrong.append(f"the file has the rows {left.rows}, and the answers say {sorted({rows for _, rows in found})}")
    wanted = right(Request(b""), left.rows or ())
    if later is None or later.left is None:
        return [*wrong, "there is no run after it over the same file"]
    if (later.status, later.given, later.report) != (0, (wanted,), b""):
        wrong.append(f"a run after it over the same file ends with {later.status}, prints {later.report!r} and gives {later.given}")
    if later.left.wrong or later.left.rows != (left.rows or ()):
        wrong.append(f"after that run the file has {later.left}")
    return wrong


def judge(kind: Kind, run: Run) -> Verdict:
    """Judges a run of this kind."""
    if run.status is None:
        return Verdict("no end", broken=("it did not end in its time",))
    if run.status not in REPORTS and run.status != 5:
        text = f"signal {-run.status}" if run.status < 0 else f"status {run.status}"
        return Verdict(text, broken=(f"{text}, printed {run.report + run.other!r}",))
    wrong = [] if is_report(run) and not run.other else [f"status {run.status}, and printed is {run.report + run.other!r}"]
    found = [it for it in readings(kind.connections, run.given, kind.first or ()) if may_end(kind, run.status, it[0])]
    if not found:
        return Verdict("wrong answers", broken=(*wrong, f"status {run.status}, and given is {run.given}"))
    if run.left is not None:
        wrong += broken_file(kind, run, run.left, found)
        found = [it for it in found if it[1] == run.left.rows] or found
    return Verdict(told(run, found[0][0]), allowed_by(run, found[0][0]), tuple(wrong))


def rows_of(bodies: dict[tuple[int, int], bytes]) -> Rows | None:
    """Returns the rows that the bodies of a database spell, None where there are none; a ValueError says what is wrong."""
    if not bodies:
        return None
    if bodies.pop((tables.SCHEMA, 0), None) != SCHEMA:
        raise ValueError("the schema is another")
    ids = bodies.pop((tables.SEQUENCES, 0), b"")
    rows: list[str] = []
    while (body := bodies.pop((tables.FIRST_TABLE, len(rows)), None)) is not None:
        text = tables.values_of(body, ITEM)[0].decode()
        if body != tables.body_of(ITEM, (text, len(rows) + 1)):
            raise ValueError(f"row {len(rows)} is {body!r}")
        rows.append(text)
    if ids != tables.value_as_bytes(len(rows) + 1):
        raise ValueError(f"the next number is {ids!r} after {len(rows)} rows")
    if bodies:
        raise ValueError(f"there are also {sorted(bodies)}")
    return tuple(rows)


def file_at(path: str) -> Left:
    """Returns what stands in the database at the path, which a connection to it may change where a journal is left."""
    if not os.path.exists(path):
        return Left((), None)
    try:
        with contextlib.closing(sqlite3.connect(path)) as database:
            tables.check(database)
            if not database.execute("SELECT name FROM sqlite_master").fetchall():
                return Left((), None)
            bodies = {(tab, num): body for tab, num, body in database.execute("SELECT Tab, Num, Body FROM ur_row")}
            return Left((), rows_of(bodies))
    except (sqlite3.Error, ValueError) as error:
        return Left((str(error),), None)
