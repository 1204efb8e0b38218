"""Tests of tools/tries/refuse: runs that are made up and judged, the library over a small program, and a program that stands in for ours."""
import contextlib
import shutil
import sqlite3
import subprocess
import sys
import tempfile
import unittest
from dataclasses import replace
from pathlib import Path
from typing import Any

TOOLS = str(Path(__file__).resolve().parents[1])
sys.path.insert(0, TOOLS)
from lib import tables
from tries.refusing.judge import ITEM, SCHEMA, Left, Rows, Run, file_at, fixed, judge, right
from tries.refusing.runs import HELLO, KINDS, LIST, Lab, post

LINE = b"serving on 127.0.0.1:80\n"
FIRST, ADDED, LISTED = right(HELLO, ()), right(post("x"), ()), right(LIST, ("x",))
DONE, CUT = ADDED + LISTED, ADDED[:40]
NO: Rows = ()
YES: Rows = ("x",)


def later(rows: Rows | None) -> Run:
    """Returns the run after one that left these rows."""
    return Run(0, (right(LIST, rows or ()),), b"", left=Left((), rows or ()))


def over_file(status: int, given: bytes, report: bytes, rows: Rows | None, **parts: Any) -> Run:
    """Returns a run that left a right file with these rows."""
    run = Run(status, (given,), report, left=Left((), rows), later=later(rows))
    return replace(run, **parts)


def served(status: int, *given: bytes, report: bytes = b"") -> Run:
    """Returns a run of `serve`."""
    return Run(status, given, LINE + report, line=LINE)


# Of the served kind: its first connection's list and POST, and the lists and POSTs after them.
EMPTY, TWICE = right(LIST, NO), right(LIST, YES) * 2
LAST = right(post("y"), YES) + right(LIST, ("x", "y"))
LAST_ALONE = right(post("y"), NO) + right(LIST, ("y",))

# A kind, a run, the outcome, and whether it is allowed by a clause on faults.
GOOD = [
    ("hello", Run(0, (FIRST,), b""), "status 0, all answered", False),
    ("hello", Run(0, (fixed(503),), b""), "status 0, 503 after 0 answers", False),
    ("hello", Run(0, (FIRST + fixed(503),), b""), "status 0, 503 after 1 answers", False),
    ("hello", Run(8, (b"",), b"memory\n"), "status 8, `memory` printed", False),
    ("hello", Run(8, (b"",), b""), "status 8, nothing printed", False),
    ("hello", Run(4, (b"",), b"shelf fault\n"), "status 4", True),
    ("hello", Run(5, (b"",), b"mem"), "status 5", True),
    ("hello", Run(6, (FIRST[:90],), b"wire fault\n"), "status 6, cut after 0 answers", True),
    ("hello", Run(6, (FIRST,), b"wire fault\n"), "status 6", True),
    ("hello", Run(7, (b"",), b"keeper fault\n"), "status 7", True),
    ("hello", Run(0, (fixed(502),), b""), "status 0, 502 after 0 answers", True),
    ("memory", Run(0, (DONE,), b""), "status 0, all answered", False),
    ("memory", Run(0, (ADDED + fixed(503),), b""), "status 0, 503 after 1 answers", False),
    ("file", over_file(0, DONE, b"", YES), "status 0, all answered", False),
    ("file", over_file(0, fixed(503), b"", NO), "status 0, 503 after 0 answers", False),
    ("file", over_file(0, ADDED + fixed(503), b"", YES), "status 0, 503 after 1 answers", False),
    ("file", over_file(8, b"", b"memory\n", None), "status 8, `memory` printed", False),
    ("file", over_file(8, b"", b"memory\n", NO), "status 8, `memory` printed", False),
    ("file", over_file(6, CUT, b"wire fault\n", NO), "status 6, cut after 0 answers", True),
    ("file", over_file(6, CUT, b"wire fault\n", YES), "status 6, cut after 0 answers", True),
    ("file", over_file(6, b"", b"wire fault\n", YES), "status 6, cut after 0 answers", True),
    ("kept", over_file(8, b"", b"memory\n", ("first",)), "status 8, `memory` printed", False),
    ("served", served(0, EMPTY + ADDED, TWICE, LAST), "status 0, all answered", False),
    ("served", served(0, EMPTY + fixed(503), EMPTY * 2, LAST_ALONE), "status 0, 503 after 1 answers on connection 1", False),
    ("served", served(0, EMPTY + ADDED, fixed(503), LAST), "status 0, 503 after 0 answers on connection 2", False),
    ("served", served(8, EMPTY + ADDED, b"", b"", report=b"memory\n"), "status 8, `memory` printed, 1 connections served", False),
    ("served", served(8, b"", b"", b"", report=b"memory\n"), "status 8, `memory` printed, 0 connections served", False),
    ("served", Run(8, (b"", b"", b""), b"memory\n", line=LINE), "status 8, `memory` printed, 0 connections served", False),
    ("served", Run(8, (b"", b"", b""), b"", line=LINE), "status 8, nothing printed, 0 connections served", False),
    ("served", served(0, EMPTY + CUT, TWICE, LAST), "status 0, cut after 1 answers on connection 1", True),
    ("served", served(0, EMPTY + ADDED, b"", LAST), "status 0, cut after 0 answers on connection 2", True),
    ("served", served(0, EMPTY + CUT, EMPTY * 2, LAST_ALONE), "status 0, cut after 1 answers on connection 1", True),
    ("served", served(6, b"", b"", b"", report=b"wire fault\n"), "status 6, 0 connections served", True)]

# A kind and a run that is broken.
BAD = [
    ("hello", Run(None, (b"",), b"")), ("hello", Run(-11, (b"",), b"")), ("hello", Run(-6, (FIRST,), b"")), ("hello", Run(1, (b"",), b"usage")),
    ("hello", Run(2, (b"",), b"E10")), ("hello", Run(3, (b"",), b"schema differs\n")), ("hello", Run(101, (b"",), b"")),
    ("hello", Run(0, (b"",), b"")), ("hello", Run(0, (FIRST[:-1],), b"")), ("hello", Run(0, (FIRST + b"x",), b"")),
    ("hello", Run(0, (FIRST * 2,), b"")),
    ("hello", Run(0, (fixed(503) * 2,), b"")), ("hello", Run(0, (fixed(503) + FIRST,), b"")), ("hello", Run(0, (fixed(503)[:-1],), b"")),
    ("hello", Run(0, (FIRST + fixed(502),), b"")), ("hello", Run(0, (FIRST,), b"memory\n")), ("hello", Run(0, (FIRST,), b"", other=b"x")),
    ("hello", Run(8, (b"",), b"out of memory\n")), ("hello", Run(8, (FIRST,), b"memory\n")), ("hello", Run(8, (fixed(503),), b"memory\n")),
    ("hello", Run(4, (FIRST,), b"shelf fault\n")), ("hello", Run(7, (b"",), b"memory\n")), ("hello", Run(6, (b"no",), b"wire fault\n")),
    ("memory", Run(0, (ADDED,), b"")), ("memory", Run(0, (ADDED + EMPTY,), b"")), ("memory", Run(0, (fixed(503) + LISTED,), b"")),
    ("file", over_file(0, DONE, b"", NO)), ("file", over_file(0, DONE, b"", None)), ("file", over_file(0, fixed(503), b"", YES)),
    ("file", over_file(0, fixed(503), b"", None)), ("file", over_file(0, ADDED + fixed(503), b"", NO)), ("file", over_file(8, b"", b"memory\n", YES)),
    ("file", over_file(0, DONE, b"", ("x", "x"))), ("file", over_file(0, DONE, b"", YES, left=Left(("not ok",), None))),
    ("file", over_file(0, DONE, b"", YES, later=later(NO))),
    ("file", over_file(0, DONE, b"", YES, later=Run(7, (b"",), b"keeper fault\n", left=Left((), YES)))),
    ("file", over_file(0, DONE, b"", YES, later=replace(later(YES), left=Left(("not ok",), None)))), ("kept", over_file(8, b"", b"memory\n", NO)),
    ("kept", over_file(8, b"", b"memory\n", None)), ("served", served(0, EMPTY + ADDED, EMPTY * 2, LAST)),
    ("served", served(0, EMPTY + fixed(503), TWICE, LAST)), ("served", served(8, EMPTY + ADDED, TWICE, LAST, report=b"memory\n")),
    ("served", served(8, EMPTY + ADDED, b"", LAST, report=b"memory\n")), ("served", Run(0, (EMPTY + ADDED, TWICE, LAST), b"", line=LINE))]

# A small program that takes memory by each of the calls, and prints for each whether it was refused.
TAKES = r"""
#include <errno.h>
#include <stdio.h>
#include <stdlib.h>
int main(void) {
    char text[] = "00000\n";
    void *a, *b, *c, *d, *e = NULL;
    if (!(a = malloc(5)) && errno == ENOMEM) text[0] = '1';
    if (!(b = calloc(5, 5)) && errno == ENOMEM) text[1] = '1';
    if (!(c = realloc(a, 500)) && errno == ENOMEM) text[2] = '1';
    if (!(d = aligned_alloc(64, 64)) && errno == ENOMEM) text[3] = '1';
    if (posix_memalign(&e, 64, 64) == ENOMEM) text[4] = '1';
    free(b), free(c ? c : a), free(d), free(e);
    fputs(text, stderr);
}
"""

# A program that stands in for ours, over a file of tables. What it does wrong is put in place of WRONG.
STANDS_IN = r"""#!{python}
import sys
sys.dont_write_bytecode = True
sys.path.insert(0, {tools!r})
from tests.test_refusing import write
from tries.refusing.judge import fixed, right
from tries.refusing.runs import LIST, post
rows = write("f", None)
given = sys.stdin.buffer.read()
for request in (post("first"), post("x"), LIST):
    if not given.startswith(request.text):
        continue
    given = given[len(request.text):]
    if request.adds:
        if {wrong!r} != "forgets":
            rows = write("f", request.adds)
        if {wrong!r} == "refuses what it saved":
            sys.stdout.buffer.write(fixed(503))
            break
        sys.stdout.buffer.write(right(request, rows[:-1] if rows else ()))
    else:
        sys.stdout.buffer.write(right(request, rows))
"""
TABLE = "CREATE TABLE IF NOT EXISTS ur_row (Tab INTEGER NOT NULL, Num INTEGER NOT NULL, Body BLOB NOT NULL, PRIMARY KEY (Tab, Num))"
PUT = "INSERT OR REPLACE INTO ur_row VALUES (?, ?, ?)"
# Statements done to right tables, and whether the file is right then; None where there are no tables.
CHANGES = [
    ("SELECT 1", True), ("DELETE FROM ur_row WHERE Tab = 1", False), ("DELETE FROM ur_row WHERE Tab = 0", False),
    ("DELETE FROM ur_row WHERE Tab = 2", False), ("UPDATE ur_row SET Num = 1 WHERE Tab = 2", False),
    ("UPDATE ur_row SET Body = x'00' WHERE Tab = 2", False), ("INSERT INTO ur_row VALUES (3, 0, x'00')", False), ("DROP TABLE ur_row", None)
]


def write(path: str, text: str | None) -> Rows:
    """Writes the tables of the kinds to a file, with a row more where one is given, and returns its rows."""
    with contextlib.closing(sqlite3.connect(path)) as database, database:
        database.execute(TABLE)
        rows = database.execute("SELECT Body FROM ur_row WHERE Tab = ? ORDER BY Num", (tables.FIRST_TABLE,)).fetchall()
        texts = [tables.values_of(body, ITEM)[0].decode() for (body,) in rows]
        if text is not None:
            database.execute(PUT, (tables.FIRST_TABLE, len(texts), tables.body_of(ITEM, (text, len(texts) + 1))))
            texts.append(text)
        database.execute(PUT, (tables.SCHEMA, 0, SCHEMA))
        database.execute(PUT, (tables.SEQUENCES, 0, tables.value_as_bytes(len(texts) + 1)))
    return tuple(texts)


class Refusing(unittest.TestCase):
    """What judges, what refuses, and both together."""

    def setUp(self) -> None:
        room = tempfile.TemporaryDirectory(prefix="refuse-")
        self.addCleanup(room.cleanup)
        self.folder = Path(room.name)

    def test_right_runs_pass(self) -> None:
        for name, run, outcome, is_allowed in GOOD:
            with self.subTest(name=name, run=run):
                verdict = judge(KINDS[name], run)
                self.assertEqual((verdict.outcome, bool(verdict.allowed), verdict.broken), (outcome, is_allowed, ()))

    def test_broken_runs_are_told(self) -> None:
        for name, run in BAD:
            with self.subTest(name=name, run=run):
                self.assertTrue(judge(KINDS[name], run).broken)

    def test_files_are_read(self) -> None:
        for number, (statement, is_right) in enumerate(CHANGES):
            with self.subTest(statement=statement):
                path = str(self.folder / f"f{number}")
                write(path, "x")
                with contextlib.closing(sqlite3.connect(path)) as database, database:
                    database.execute(statement)
                left = file_at(path)
                self.assertEqual((left.wrong == (), left.rows), (is_right is not False, YES if is_right else None))

    def test_a_file_that_is_none(self) -> None:
        (self.folder / "torn").write_bytes(bytes(range(256)) * 32)
        self.assertNotEqual(file_at(str(self.folder / "torn")).wrong, ())
        self.assertEqual(file_at(str(self.folder / "none")), Left((), None))

    @unittest.skipUnless(shutil.which("gcc"), "this machine has no gcc")
    def test_calls_are_refused_by_number(self) -> None:
        program = self.folder / "takes"
        source = self.folder / "takes.c"
        source.write_text(TAKES, encoding="utf-8")
        subprocess.run(["gcc", "-O0", "-o", program, source], check=True)
        lab = Lab(program, str(self.folder), 600)
        for number in range(1, 7):
            alone = "".join("1" if it == number else "0" for it in range(1, 6))
            later_too = "".join("1" if it >= number else "0" for it in range(1, 6))
            for last, wanted in ((number, alone), (2**63, later_too)):
                run, _, calls, _ = lab.tried(KINDS["hello"], (number, last))
                self.assertEqual((run.report, calls >= 5), (f"{wanted}\n".encode(), True))

    @unittest.skipUnless(shutil.which("gcc"), "this machine has no gcc")
    def test_a_program_that_stands_in(self) -> None:
        for wrong, is_broken in (("nothing", False), ("forgets", True), ("refuses what it saved", True)):
            path = self.folder / f"does {wrong}"
            path.write_text(STANDS_IN.format(python=sys.executable, tools=TOOLS, wrong=wrong), encoding="utf-8")
            path.chmod(0o755)
            lab = Lab(path, str(self.folder), 600)
            if not is_broken:
                lab.prepare(KINDS["kept"])
            for name in ("file", "kept"):
                with self.subTest(wrong=wrong, name=name):
                    run, _, calls, refused = lab.tried(KINDS[name], (0, 0))
                    verdict = judge(KINDS[name], run)
                    self.assertEqual((bool(verdict.broken), refused, calls > 0), (is_broken, 0, True), f"{verdict}, {run}")


if __name__ == "__main__":
    unittest.main()
