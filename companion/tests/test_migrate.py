"""`migrate`: columns and tables that are new, gone, renamed or of another kind, and what is refused."""
import os
import pty
import subprocess
import sys
import unittest

import context
from trying import SECONDS, Ran, Trial, ran, replayed, request
from urweb_companion.attach import attach
from urweb_companion.child import Child
from urweb_companion.layout import Refused
from urweb_companion.migrate import main
from urweb_companion.store import opened

PAGE = "fun main () : transaction page = return <xml><body/></xml>\n"
LIST = request("GET", "/Main/list/ann")


class Migrations(Trial):
    def setUp(self) -> None:
        super().setUp()
        self.new = self.folder / "new.db"

    def migrated(self, *words: str) -> Ran:
        return ran(main, self.notes, self.store, self.new, *words)

    def rows(self) -> list[tuple[object, ...]]:
        """Returns the rows of the new file's tables."""
        with opened(self.new) as store:
            return [row for table in store.schema.tables for _, row in store.rows(table)]

    def test_the_notes_with_columns_more_are_served(self) -> None:
        self.fill("one", "two")
        before = replayed(self.notes, self.store, LIST)
        self.add_columns()
        sums = self.sums()
        found = self.migrated("note.Tag=none yet", "Main.note.Done=True")
        self.assertEqual((found.status, found.err), (0, ""))
        self.assertEqual(found.out, f"table Main.note: 2 rows\n  Done : bool is new: True\n  Tag : string is new: 'none yet'\n"
                         f"sequence Main.ids: next is 3\n{self.new} is made, and the program takes it\n")
        self.assertEqual(sums, {name: it for name, it in self.sums().items() if not name.startswith("new.db")})
        self.assertEqual(self.rows(), [("one", True, 1, "ann", "none yet"), ("two", True, 2, "ann", "none yet")])
        self.assertEqual(sorted(it.name for it in self.folder.iterdir() if it.name.startswith((".", "new"))), ["new.db"])
        with Child(str(self.notes), [f"--db={self.new}"]) as child:
            self.assertTrue(child.settled(SECONDS))
        self.assertEqual(replayed(self.notes, self.new, LIST), before)
        self.assertIn("three", replayed(self.notes, self.new, request("POST", "/Main/add/ann", Body="three")))
        self.assertEqual(self.rows()[2:], [("three", False, 3, "ann", "")])

    def test_missing_values_are_said_and_nothing_is_written(self) -> None:
        self.fill("one")
        self.add_columns()
        before = self.sums()
        found = self.migrated("note.Done=False")
        self.refused(found, "Main.note.Tag : string has no value for 1 row: give note.Tag=VALUE")
        self.assertNotIn("note.Done=", found.err)
        self.assertEqual(self.sums(), before)

    def test_no_value_is_missing_without_rows(self) -> None:
        self.fill()
        self.add_columns()
        self.assertEqual((self.migrated().status, self.rows()), (0, []))

    def test_columns_that_may_be_empty_are_added_by_the_program(self) -> None:
        self.fill("one")
        self.change("Body : string} PRIMARY", "Body : string, Tag : option string} PRIMARY")
        self.change("(Id, Owner, Body)", "(Id, Owner, Body, Tag)")
        self.change("{[r.Body]})", "{[r.Body]}, NULL)")
        found = self.migrated()
        self.assertEqual((found.status, found.err), (0, ""))
        self.assertIn("  Tag : option string is new: empty\n", found.out)
        self.assertIn(f"the program takes {self.store} for the project as well, and does the same in it by itself\n", found.out)
        self.assertEqual(self.rows(), [("one", 1, "ann", None)])
        attach(str(self.notes), self.store)
        with opened(self.store) as store:
            self.assertEqual([row for table in store.schema.tables for _, row in store.rows(table)], [("one", 1, "ann", None)])

    def test_renamed_and_dropped_columns(self) -> None:
        self.fill("one")
        text = self.source.read_text()
        self.source.write_text(text.replace("Body : string} PRIMARY", "Text : string} PRIMARY").replace("note.Body", "note.Text")
                               .replace("r.Note.Body", "r.Note.Text").replace("(Id, Owner, Body)", "(Id, Owner, Text)"))
        self.refused(self.migrated(), "give note.Text=VALUE or note.Text=note.Body")
        self.assertIn("  Body : string is dropped\n", self.migrated().out)
        self.assertIn("  Text : string was Body : string\n", self.migrated("note.Text=note.Body").out)
        self.assertEqual(self.rows(), [(1, "ann", "one")])

    def test_a_text_that_looks_like_a_column_stands_in_quotes(self) -> None:
        self.fill("one")
        self.add_columns()
        self.refused(self.migrated("note.Done=True", "note.Tag=note.Bdy"), "had no column Bdy")
        self.assertEqual(self.migrated("note.Done=True", 'note.Tag="note.Bdy"').status, 0)
        self.assertEqual(self.rows()[0][4], "note.Bdy")

    def test_columns_of_another_kind(self) -> None:
        self.fill("12", "-3")
        self.source.write_text(f"sequence ids\ntable note : {{Id : string, Owner : string, Body : int}} PRIMARY KEY Id\n{PAGE}")
        (self.folder / "main.urs").unlink()
        self.refused(self.migrated(), "give note.Body=VALUE or note.Body=note.Body")
        found = self.migrated("note.Body=note.Body", "note.Id=note.Id")
        self.assertIn("  Body : int was Body : string\n  Id : string was Id : int\n", found.out)
        self.assertEqual(self.rows(), [(12, "1", "ann"), (-3, "2", "ann")])

    def test_a_value_of_another_kind_that_is_none(self) -> None:
        self.fill("12", "x")
        self.source.write_text(f"table note : {{Id : int, Body : int}}\n{PAGE}")
        (self.folder / "main.urs").unlink()
        self.refused(self.migrated("note.Body=note.Body"), "Main.note.Body, row 1: 'x' is no int")
        self.assertFalse(self.new.exists())

    def test_tables_and_sequences_renamed_and_new(self) -> None:
        self.fill("one", "two")
        text = self.source.read_text().replace("sequence ids", "sequence numbers\nsequence more\ntable log : {A : int}")
        text = text.replace("nextval ids", "nextval numbers")
        self.source.write_text(text.replace("table note ", "table memo ").replace("FROM note", "FROM memo AS Note").replace("INTO note", "INTO memo")
                               .replace("UPDATE note", "UPDATE memo").replace("DELETE FROM memo AS Note", "DELETE FROM memo"))
        found = self.migrated()
        for line in (
            "table Main.memo is new", "table Main.note is dropped with 2 rows; where Main.log or Main.memo is its new name, write NEW=OLD",
            "sequence Main.numbers is new, next is 1", "sequence Main.ids is dropped",
        ):
            self.assertIn(f"{line}\n", found.out)
        self.assertEqual((found.status, self.rows()), (0, []))
        self.new.unlink()
        found = self.migrated("memo=note", "numbers=ids", "Main.more=40")
        for line in (
            "table Main.memo, which was Main.note: 2 rows, as before", "table Main.log is new", "sequence Main.numbers, which was Main.ids: next is 3",
            "sequence Main.more is new, next is 40",
        ):
            self.assertIn(f"{line}\n", found.out)
        self.assertEqual(self.rows(), [("one", 1, "ann"), ("two", 2, "ann")])

    def test_a_key_that_would_repeat(self) -> None:
        self.fill("same", "same")
        self.change("PRIMARY KEY Id", "PRIMARY KEY Id, CONSTRAINT Once UNIQUE (Owner, Body)")
        found = self.migrated()
        self.refused(found, "Main.note would have two rows with the key Owner = ann, Body = same")
        self.assertIn("  its keys are (Id), (Owner, Body), and were (Id)\n", found.out)
        self.assertEqual([it.name for it in self.folder.iterdir() if "new" in it.name or it.name.startswith(".")], [])

    def test_wrong_uses(self) -> None:
        self.fill("one")
        self.add_columns()
        for words, said in (
            (["frob"], "a word is T.C=value"), (["note.Tog=x"], "Main.note has no column Tog"), (["nute.Tag=x"], "the project has no table nute"),
            (["note.Done=maybe"], "'maybe' is neither True nor False"), (["note.Tag=a", "Main.note.Tag=b"], "Main.note.Tag is said twice"),
            (["note.Owner=x"], "has its values already"), (["note=x"], "the file has no table x"), (["ids=0"], "no number for a sequence"),
            (["ids=x"], "the file has no sequence x"), (["x=3"], "the project has no table or sequence x"),
        ):
            self.refused(self.migrated(*words), said)
        self.refused(ran(main, self.notes, self.store, self.store), "is there already")
        self.refused(ran(main, self.notes, self.folder / "none.db", self.new), "there is no file")
        self.refused(ran(main, self.folder / "none.urp", self.store, self.new), "E02")
        self.refused(ran(main, self.notes, self.store), "required", 2)
        self.write("new.db-wal", b"x")
        self.refused(self.migrated("note.Tag=", "note.Done=True"), "new.db-wal is there already")

    def test_a_file_that_is_served(self) -> None:
        with Child(str(self.notes), [f"--db={self.store}"]) as child:
            self.assertTrue(child.settled(SECONDS))
            self.refused(self.migrated(), "is held by a server")
        self.assertFalse(self.new.exists())

    def test_questions_on_a_terminal(self) -> None:
        self.fill("one")
        self.add_columns()
        ours, theirs = pty.openpty()
        words = [sys.executable, str(context.TOP / "companion"), "migrate", str(self.notes), str(self.store), str(self.new)]
        with subprocess.Popen(words, stdin=theirs, stdout=subprocess.PIPE, stderr=subprocess.STDOUT) as asked:
            os.close(theirs)
            os.write(ours, b"perhaps\nTrue\nurgent\n")
            out, _ = asked.communicate(timeout=SECONDS)
        os.close(ours)
        self.assertEqual(asked.returncode, 0, out)
        self.assertIn(b"'perhaps' is neither True nor False", out)
        self.assertEqual(self.rows(), [("one", True, 1, "ann", "urgent")])

    def test_the_program_is_the_judge(self) -> None:
        self.fill("one")
        self.add_columns()
        with self.assertRaisesRegex(Refused, "status 3: schema differs"):
            attach(str(self.notes), self.store)


if __name__ == "__main__":
    unittest.main()
