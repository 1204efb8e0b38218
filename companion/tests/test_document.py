"""What docs/SERVING.md shows of `tables`, `migrate` and `seed` is what they print."""
import os
import unittest

import context
from trying import Trial, ran, replayed, request
from urweb_companion import migrate, seed, tables
from urweb_companion.rows import First, Second
from urweb_companion.store import opened


class Document(Trial):
    def setUp(self) -> None:
        super().setUp()
        self.text = (context.TOP / "docs" / "SERVING.md").read_text(encoding="utf-8")
        before = os.getcwd()
        os.chdir(self.folder)
        self.addCleanup(os.chdir, before)

    def shown(self, printed: str) -> None:
        """The document shows these lines, indented as lines of a terminal are."""
        block = "".join(f"    {line}\n" if line else "\n" for line in printed.splitlines())
        self.assertIn(f"\n\n{block}\n", self.text)

    def test_the_words(self) -> None:
        replayed(self.notes, self.store, request("POST", "/Main/add/ann", Body="buy butter"), request("POST", "/Main/add/ben", Body="call Carla"))
        self.shown(ran(tables.main, "notes.db").out)
        self.change("Body : string} PRIMARY", "Body : string, Tag : string} PRIMARY")
        self.change("(Id, Owner, Body) VALUES ({[n]}, {[who]}, {[r.Body]})", "(Id, Owner, Body, Tag) VALUES ({[n]}, {[who]}, {[r.Body]}, '')")
        self.shown(ran(migrate.main, "notes", "notes.db", "new.db", "note.Tag=home").out)
        rows = 'Owner,Body,Tag\nann,"bread, milk",shop\n'
        self.shown(rows)
        self.write("rows.csv", rows)
        self.assertIn(f"`{ran(seed.main, 'new.db', 'note', 'rows.csv', 'Id=ids').out.rstrip()}`", self.text)
        for word in (
            "tables notes.db", "tables notes.db note --csv", "tables notes.db --sqlite out.db", "migrate notes notes.db new.db note.Tag=home",
            "seed new.db note rows.csv Id=ids",
        ):
            self.assertIn(f"./urweb {word}", " ".join(self.text.split()))

    def test_the_layout(self) -> None:
        self.fill("a&b")
        with opened(self.store) as store:
            self.shown(store.text)
            table = store.schema.tables[0]
            row = next(store.rows(table))[1]
            body = First().write(table.columns, row).hex()
            self.assertIn(f"`{body}`", self.text.replace("00000003 612662 0000000000000001 00000003 616e6e", body))
            self.assertEqual(body, "000000036126620000000000000001" + "00000003616e6e")
            self.assertIn(f"\n\n{Second().write(table.columns, row).hex()}\n\n", self.text.replace(" ", ""))


if __name__ == "__main__":
    unittest.main()
