"""`test`: what passes and fails, cookies, and lines that are none."""
import unittest

from trying import GUESTBOOK, Ran, Trial, ran
from urweb_companion.scripts import Ask, Has, Is, Keep, what_of
from urweb_companion.testing import main

BOOK = GUESTBOOK / "8-record" / "guestbook.urp"


class Files(Trial):
    def tried(self, text: str) -> Ran:
        return ran(main, self.notes, self.write("a.test", text))

    def test_what_passes(self) -> None:
        found = self.tried("# notes\nGET /Main/list/ann\nis 200\nnot <p>\n\n"
                           "POST /Main/add/ann Body='x < y & z'\nis 200\nhas <p>x &lt; y &amp; z</p>\n"
                           "HEAD /Main/list/ann\nis 200\nPUT /Main/list/ann\nis 501\n"
                           "GET /Main/list/b%20c\nhas <h1>b c</h1>\nGET '/Main/list/b c'\nhas <h1>b c</h1>\n")
        self.assertEqual((found.status, found.out, found.err), (0, "8 passed, 0 failed\n", ""))

    def test_what_fails(self) -> None:
        found = self.tried("GET /Main/list/ann\nis 404\nhas <p>\nnot ann\nPOST /Main/add/ann Body=a&b\nhas a&b\nPOST /Main/drop/x\nis 200\n")
        path = self.folder / "a.test"
        lines = [line for line in found.out.splitlines() if not line.startswith("  | ")]
        self.assertEqual(lines, [
            f"{path}:2: is 404: GET /Main/list/ann gives 200", f"{path}:3: has <p>: GET /Main/list/ann gives 200",
            f"{path}:4: not ann: GET /Main/list/ann gives 200", f"{path}:6: has a&b: POST /Main/add/ann gives 200; the page spells it a&amp;b",
            f"{path}:8: is 200: POST /Main/drop/x gives 404", "0 passed, 5 failed",
        ])
        self.assertEqual(found.status, 1)

    def test_each_file_has_fresh_tables(self) -> None:
        one = self.write("one.test", "POST /Main/add/ann Body=one\nhas one\n")
        two = self.write("two.test", "GET /Main/list/ann\nnot one\nPOST /Main/add/ann Body=two\nhas /Main/drop/1\n")
        self.assertEqual(ran(main, self.notes, one, two).out, "3 passed, 0 failed\n")

    def test_cookies_are_kept_where_it_is_said(self) -> None:
        sign = "POST /Guestbook/sign Name='ann b'\nis 200\n"
        for text in (
            f"{sign}GET /Guestbook/main\nhas This is me\n",
            f"{sign}keep\nGET /Guestbook/main\nhas ann b: \nPOST /Guestbook/add Body=x\nis 200\n",
            f"keep\n{sign}GET /Guestbook/main\nhas ann b: \n",
        ):
            found = ran(main, BOOK, self.write("b.test", text))
            self.assertEqual((found.status, "0 failed" in found.out), (0, True), found)

    def test_wrong_uses(self) -> None:
        for text, said in (
            ("is 200\n", ":1: nothing was asked before"), ("GET x\n", ":1: behind GET stands a path"), ("\nGET /a b=c\n", ":2: GET has no form"),
            ("frob\n", "`frob` is neither a method"), ('POST /a x="\n', "No closing quotation"), ("POST /a x\n", "`x` is no field"),
            ("GET /a\nis ok\n", ":2: behind `is` stands a status"), ("GET /a\nhas\n", ":2: behind `has` stands a text"),
            ("keep it\n", "behind `keep` stands nothing"),
        ):
            self.refused(self.tried(text), said, 2)
        self.refused(ran(main, self.notes, self.folder / "none"), "cannot be read", 2)
        self.refused(ran(main, self.notes), "required", 2)
        self.refused(ran(main, self.folder / "none.urp", self.write("c.test", "")), "E02", 2)
        self.source.write_text("fun f")
        self.refused(self.tried("GET /a\nis 404\n"), "E05", 2)


class Lines(unittest.TestCase):
    def test_words(self) -> None:
        self.assertEqual(what_of("POST /M/add A=1 'B=x y' C="), Ask("POST", "/M/add", (("A", "1"), ("B", "x y"), ("C", ""))))
        self.assertEqual(what_of("is 503"), Is(503))
        self.assertEqual(what_of("has  a  'b' "), Has("a  'b'", True))
        self.assertEqual(what_of("not # x"), Has("# x", False))
        self.assertEqual(what_of("keep"), Keep())


if __name__ == "__main__":
    unittest.main()
