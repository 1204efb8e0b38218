"""`seed`: rows of a CSV file, and what is refused."""
import io
import sqlite3
import sys
import unittest
from contextlib import closing
from unittest import mock

from trying import ran, Ran, replayed, request, SECONDS, steps_of_the_guest_book, Trial
from urweb_companion.attach import attach, project_of
from urweb_companion.child import Child
from urweb_companion.layout import schema_of
from urweb_companion.seed import main
from urweb_companion.store import opened
from urweb_companion.tables import main as tables


class Seeds(Trial):
    def seeded(self, text: str | bytes, *words: str) -> Ran:
        return ran(main, self.store, "note", self.write("rows.csv", text), *words)

    def rows(self) -> list[tuple[object, ...]]:
        with opened(self.store) as store:
            return list(store.rows(store.schema.tables[0]))

    def test_rows_with_their_numbers(self) -> None:
        self.fill("one")
        found = self.seeded('Owner,Id,Body\nann,7,"a, ""b"""\nbob,-1,"two\nlines"\n')
        self.assertEqual((found.status, found.out, found.err), (0, f"{self.store}: 2 rows put into Main.note\n", ""))
        self.assertEqual(self.rows(), [(0, ("one", 1, "ann")), (1, ('a, "b"', 7, "ann")), (2, ("two\nlines", -1, "bob"))])
        self.assertFalse(self.store.with_name("notes.db-wal").exists())
        self.assertIn("two\nlines", replayed(self.notes, self.store, request("GET", "/Main/list/bob")))

    def test_numbers_of_a_sequence(self) -> None:
        self.fill("one")
        self.assertEqual(self.seeded("\ufeffOwner,Body\r\nann,two\r\nann,three\r\n\r\n", "Id=ids").status, 0)
        self.assertIn("four", replayed(self.notes, self.store, request("POST", "/Main/add/ann", Body="four")))
        self.assertEqual([row for _, row in self.rows()], [(text, at, "ann") for at, text in enumerate(["one", "two", "three", "four"], 1)])

    def test_what_tables_prints_is_taken(self) -> None:
        self.fill("a,b", 'say "x"', "two\nlines", "")
        printed = ran(tables, self.store, "--csv").out
        before = self.rows()
        self.store = self.folder / "other.db"
        self.fill()
        with mock.patch.object(sys, "stdin", io.StringIO(printed, newline="")):
            self.assertEqual(ran(main, self.store, "note", "-").status, 0)
        self.assertEqual(self.rows(), before)

    def test_nothing_is_written_where_a_row_is_wrong(self) -> None:
        self.fill("one")
        before = self.sums()
        for text, said in (
            ("Owner,Id\nann,2\n", "rows.csv:1: the first line has Owner, Id; the columns are Body, Id, Owner"),
            ("", "rows.csv:1: the first line has nothing"),
            ("Owner,Id,Body,Id\n", "rows.csv:1: the first line has"),
            ("Owner,Id,Body\nann,2,x\nann,x,y\n", "rows.csv:3: Id: 'x' is no int"),
            ("Owner,Id,Body\nann,2\n", "rows.csv:2: there are 2 cells for 3 columns"),
            ("Owner,Id,Body\nann,1,x\n", "Main.note would have two rows with the key Id = 1"),
            ("Owner,Id,Body\nann,5,x\nann,5,x\n", "Main.note would have two rows with the key Id = 5"),
            ("Owner,Id,Body\nann,99999999999999999999,x\n", "is no int of 64 bits"),
            (b"Owner,Id,Body\nann,5,\xff\n", "is not UTF-8"),
            ('Owner,Id,Body\nann,5,"x\n', "rows.csv:2: unexpected end of data"),
            ("Owner,Id,Body\nann,5,a\0b\n", ""),
        ):
            found = self.seeded(text)
            self.assertEqual(found.status == 0, said == "", found)
            self.assertIn(said, found.err)
            (self.folder / "rows.csv").unlink()
            if said:
                self.assertEqual(self.sums(), before, said)
        self.assertEqual(self.rows()[1:], [(1, ("a\0b", 5, "ann"))])

    def test_wrong_uses(self) -> None:
        self.fill("one")
        rows = self.write("rows.csv", "Owner,Id,Body\n")
        before = self.sums()
        for words, said in (
            ([self.folder / "none.db", "note", rows], "there is no file"), ([self.store, "nope", rows], "has no table nope"),
            ([self.store, "note", self.folder / "none.csv"], "cannot be read"), ([self.store, "note", rows, "Id=numbers"], "has no sequence numbers"),
            ([self.store, "note", rows, "Body=ids"], "a word is a column of kind int"),
            ([self.store, "note", rows, "Id=ids", "Id=ids"], "each column stands once"),
            ([self.notes, "note", rows], "is no file of tables"),
        ):
            self.refused(ran(main, *words), said)
        self.refused(ran(main, self.store, "note"), "required", 2)
        self.assertEqual(self.sums(), before)

    def test_a_file_that_is_served(self) -> None:
        rows = self.write("rows.csv", "Owner,Id,Body\nann,5,x\n")
        with Child(str(self.notes), [f"--db={self.store}"]) as child:
            self.assertTrue(child.settled(SECONDS))
            before = self.sums()
            self.refused(ran(main, self.store, "note", rows), "is held by a server")
            self.assertEqual(self.sums(), before)

    def test_what_the_program_does_not_take_is_not_written(self) -> None:
        self.fill("one")
        with closing(sqlite3.connect(self.store, isolation_level=None)) as base:
            base.execute("UPDATE ur_row SET Body = x'0000000000000000' WHERE Tab = 1")
        before = self.sums()
        self.refused(self.seeded("Owner,Id,Body\nann,5,x\n"), "status 7: the program does not take the file")
        (self.folder / "rows.csv").unlink()
        self.assertEqual(self.sums(), before)


class Judges(Trial):
    def test_a_project_is_made_of_a_schema(self) -> None:
        texts = [
            "table B.t A:int\ntable D.t A:bool B:string primary A B unique B\nsequence A.s\nsequence B.s\nsequence C.s\n",
            "table Main.aB' A1:int unique A1 unique A1\n", "sequence Page0.s\n", "",
        ]
        for at, text in enumerate(texts):
            store = self.folder / f"{at}.db"
            with project_of(schema_of(text)) as project:
                attach(project, store)
            with opened(store) as found:
                self.assertEqual(found.text, "layout 2\n" + text)

    def test_the_guest_book_is_judged_by_its_schema(self) -> None:
        for at, project in enumerate(steps_of_the_guest_book()):
            store = self.folder / f"{at}.db"
            replayed(project, store)
            with opened(store) as found, project_of(found.schema) as other:
                attach(other, store)


if __name__ == "__main__":
    unittest.main()
