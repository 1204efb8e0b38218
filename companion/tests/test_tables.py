"""`tables`: columns, CSV, a database, and files that are none."""
import csv
import io
import sqlite3
import unittest
from contextlib import closing

from trying import ran, replayed, request, SECONDS, steps_of_the_guest_book, Trial
from urweb_companion.child import Child
from urweb_companion.tables import main


class Tables(Trial):
    def test_the_notes_in_columns(self) -> None:
        self.fill("one", "a\tb\x1b[31m", "x" * 100)
        before = self.sums()
        found = ran(main, self.store)
        lines = found.out.splitlines()
        self.assertEqual(lines[:4], ["Main.note: 3 rows", "Body" + " " * 58 + "Id  Owner", "-" * 60 + "  --  -----", "one" + " " * 60 + "1  ann"])
        self.assertTrue(lines[4].startswith("a\\tb\\x1b[31m "), lines[4])
        self.assertEqual(lines[5], "x" * 58 + "..   3  ann")
        self.assertEqual(lines[6:], ["", "Main.ids: next is 4"])
        self.assertEqual((found.status, found.err, self.sums()), (0, "", before))

    def test_csv_is_read_back(self) -> None:
        texts = ["a,b", 'say "x"', "two\nlines", "ä😀", ""]
        self.fill(*texts)
        found = ran(main, self.store, "note", "--csv")
        rows = list(csv.reader(io.StringIO(found.out, newline="")))
        self.assertEqual(rows, [["Body", "Id", "Owner"], *([text, str(at), "ann"] for at, text in enumerate(texts, 1))])

    def test_a_database_with_tables(self) -> None:
        self.fill("one", "two")
        out = self.folder / "out.db"
        self.assertEqual(ran(main, self.store, "--sqlite", out).out, f"{out}: note with 2 rows, sequences with 1 row\n")
        with closing(sqlite3.connect(out)) as base:
            self.assertEqual(base.execute("SELECT Id, Owner, Body FROM note ORDER BY rowid").fetchall(), [(1, "ann", "one"), (2, "ann", "two")])
            self.assertEqual(base.execute("SELECT * FROM sequences").fetchall(), [("Main.ids", 3)])
            with self.assertRaises(sqlite3.IntegrityError):
                base.execute("INSERT INTO note VALUES ('x', 1, 'y')")
        self.assertEqual(sorted(it.name for it in self.folder.iterdir() if "out" in it.name), ["out.db"])

    def test_each_step_of_the_guest_book(self) -> None:
        for at, project in enumerate(steps_of_the_guest_book()):
            store = self.folder / f"{at}.db"
            replayed(project, store)
            found = ran(main, store)
            self.assertEqual((found.status, "entry" in found.out), (0, "entry" in project.with_suffix(".ur").read_text()), project)

    def test_a_log_that_a_killed_server_left(self) -> None:
        with Child(str(self.notes), [f"--db={self.store}"]) as child:
            self.assertTrue(child.settled(SECONDS))
            before = self.sums()
            self.refused(ran(main, self.store), "is held by a server")
            self.assertEqual(self.sums(), before)
        replayed(self.notes, self.store, request("POST", "/Main/add/ann", Body="kept"))
        self.assertTrue(self.store.with_name("notes.db-wal").stat().st_size > 0)
        self.assertIn("kept", ran(main, self.store).out)

    def test_wrong_uses(self) -> None:
        self.fill("one")
        other, empty = self.folder / "other.db", self.write("empty.db", b"")
        with closing(sqlite3.connect(other)) as base:
            base.execute("CREATE TABLE t (a)")
        self.refused(ran(main, self.folder / "none.db"), "there is no file")
        self.refused(ran(main, self.folder), "cannot be read")
        self.refused(ran(main, self.notes), "is no file of tables")
        self.refused(ran(main, other), "none that the program has made")
        self.refused(ran(main, empty), "has no tables yet")
        self.refused(ran(main, self.store, "nope"), "has no table nope")
        self.refused(ran(main, self.store, "--sqlite", other), "is there already")
        self.refused(ran(main, self.store, "--sqlite", self.folder / "none" / "x.db"), "there is no folder")
        self.refused(ran(main), "required", 2)
        self.refused(ran(main, self.store, "--csv", "--sqlite", "x"), "not allowed", 2)

    def test_damaged_files(self) -> None:
        for statement, said in (
            ("UPDATE ur_row SET Body = substr(Body, 1, 10) WHERE Tab = 2", "Main.note, row 0: the row ends within Body"),
            ("UPDATE ur_row SET Body = substr(Body, 1, 5) WHERE Tab = 2", "Main.note, row 0: the row lacks Body"),
            ("UPDATE ur_row SET Body = cast(Body || x'00' AS BLOB) WHERE Tab = 2", "1 bytes stand behind the last column"),
            ("UPDATE ur_row SET Body = x'ff' WHERE Tab = 0", "the schema's text is not UTF-8"),
            ("UPDATE ur_row SET Body = cast('layout 7' || char(10) || Body AS BLOB) WHERE Tab = 0", "'layout 7'"),
            ("UPDATE ur_row SET Body = 'x' WHERE Tab = 2", "a body is of another type than BLOB"),
            ("DELETE FROM ur_row WHERE Tab = 1", "the sequence Main.ids has no number"),
        ):
            self.store.unlink(missing_ok=True)
            self.fill("one")
            with closing(sqlite3.connect(self.store, isolation_level=None)) as base:
                base.execute(statement)
            self.refused(ran(main, self.store), said)


if __name__ == "__main__":
    unittest.main()
