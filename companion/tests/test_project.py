"""Places in files: lines and columns in characters and in UTF-16 units."""
import unittest
from pathlib import Path

import context  # noqa: F401
from urweb_companion.project import Place, Source, folder_of, project_file


class Places(unittest.TestCase):
    def test_columns_are_characters_and_not_bytes(self) -> None:
        source = Source(Path("m.ur"), "é = 1\n  naïve 😀x\n".encode())
        self.assertEqual(source.place(0), Place(1, 1))
        self.assertEqual(source.place(2), Place(1, 2))
        at = source.data.index(b"x")
        self.assertEqual(source.place(at), Place(2, 10))
        self.assertEqual(source.place16(at), (1, 10))
        self.assertEqual(source.line(2), "  naïve 😀x")

    def test_a_mark_of_byte_order_is_no_column(self) -> None:
        source = Source(Path("m.ur"), b"\xef\xbb\xbfval a")
        self.assertEqual(source.place(3), Place(1, 1))
        self.assertEqual(source.line(1), "val a")

    def test_the_end_and_beyond_it(self) -> None:
        source = Source(Path("m.ur"), b"a\r\nb\n")
        self.assertEqual(source.place(5), Place(3, 1))
        self.assertEqual(source.place(99), Place(3, 1))
        self.assertEqual(source.line(1), "a")
        self.assertEqual(source.line(3), "")

    def test_an_ending_is_added(self) -> None:
        self.assertEqual(project_file("a/notes"), Path("a/notes.urp"))
        self.assertEqual(folder_of("notes"), Path("."))


if __name__ == "__main__":
    unittest.main()
