"""Schemas as texts, and rows as bytes."""
import unittest

import context  # noqa: F401
from urweb_companion.layout import Column, Damaged, Refused, Schema, Table, named, one, schema_of
from urweb_companion.rows import First, Second, number_body, number_of, split
from urweb_companion.values import MOST_BYTES, cell_of, value_of

NOTE = Table("Main.note", (Column("Body", "string"), Column("Id", "int"), Column("Owner", "string")), (("Id",),), True)
TEXT = "table Main.note Body:string Id:int Owner:string primary Id\nsequence Main.ids\n"


class Schemas(unittest.TestCase):
    def test_a_text_is_read_and_written(self) -> None:
        self.assertEqual(schema_of(TEXT), Schema((NOTE,), ("Main.ids",)))
        for text in (TEXT, "", "table A.t\n", "table A.t B:bool C:int unique B C unique C\nsequence A.s\nsequence B.s\n", "table A.t B:int? C:string? D:bool?\n"):
            self.assertEqual(schema_of(text).text(), text)

    def test_other_texts_are_none(self) -> None:
        for text in ("view x\n", "table\n", "table A.t B\n", "table A.t B:float\n", "table A.t B:int??\n", "table A.t B:?\n", "table A.t B:int primary C\n", "sequence a b\n"):
            with self.assertRaises(Damaged, msg=text):
                schema_of(text)

    def test_names_without_modules(self) -> None:
        self.assertEqual(named(["A.t", "B.t", "A.u"], "t"), ["A.t", "B.t"])
        self.assertEqual(one(["A.t", "A.u"], "u", ""), "A.u")
        for name in ("t", "v"):
            with self.assertRaises(Refused, msg=name):
                one(["A.t", "B.t"], name, "there is no")


    def test_which_schemas_extend_which(self) -> None:
        kept = "table A.t B:int D:string primary B\nsequence A.s\n"
        for text in (
            kept, "table A.t A:int? B:int D:string primary B\nsequence A.s\n", "table A.t B:int C:bool? D:string E:string? primary B\nsequence A.s\n",
        ):
            self.assertTrue(schema_of(text).extends(schema_of(kept)), text)
        for text in (
            "table A.t B:int D:string E:int primary B\nsequence A.s\n", "table A.t B:int primary B\nsequence A.s\n", "table A.t B:int D:int primary B\nsequence A.s\n",
            "table A.t B:int D:string? primary B\nsequence A.s\n", "table A.t B:int D:string unique B\nsequence A.s\n", "table A.u B:int D:string primary B\nsequence A.s\n",
            "table A.t B:int D:string primary D\nsequence A.s\n", "table A.t B:int D:string primary B\n", "table A.t B:int D:string primary B\ntable A.u A:int\nsequence A.s\n",
        ):
            self.assertFalse(schema_of(text).extends(schema_of(kept)), text)


class Rows(unittest.TestCase):
    def test_the_rows_of_the_document(self) -> None:
        body = bytes.fromhex("00000003 612662 0000000000000001 00000003 616e6e")
        self.assertEqual(First().read(NOTE.columns, body), ("a&b", 1, "ann"))
        self.assertEqual(First().write(NOTE.columns, ("a&b", 1, "ann")), body)
        body = bytes.fromhex("00000004 426f6479 00000003 612662 00000002 4964 0000000000000001 00000005 4f776e6572 00000003 616e6e")
        self.assertEqual(Second().read(NOTE.columns, body), ("a&b", 1, "ann"))
        self.assertEqual(Second().write(NOTE.columns, ("a&b", 1, "ann")), body)

    def test_columns_that_are_missing(self) -> None:
        columns = (Column("A", "int?"), Column("B", "bool"), Column("C", "string?"))
        a, b, c = (bytes.fromhex(it) for it in ("00000001 41 01 0000000000000005", "00000001 42 01", "00000001 43 00"))
        self.assertEqual(Second().write(columns, (5, True, None)), a + b + c)
        for body, row in ((a + b + c, (5, True, None)), (b + c, (None, True, None)), (a + b, (5, True, None)), (b, (None, True, None))):
            self.assertEqual(Second().read(columns, body), row)
        for wrong in (a + c, b + a, a + a + b, a + b + c + c, c + b, a + b[:-1], b + c + bytes.fromhex("00000001 44 00"), b"", a[:3]):
            with self.assertRaises(Damaged, msg=wrong):
                Second().read(columns, wrong)

    def test_ends_of_kinds(self) -> None:
        columns = (Column("A", "int"), Column("B", "bool"), Column("C", "string"))
        for row in ((-(2**63), False, ""), (2**63 - 1, True, "ä😀\0\n"), (-1, True, "x")):
            self.assertEqual(First().read(columns, First().write(columns, row)), row)
        self.assertEqual(First().write(columns, (-1, True, "ä")).hex(), "ffffffffffffffff" "01" "00000002" "c3a4")

    def test_columns_that_may_be_empty(self) -> None:
        columns = (Column("A", "int?"), Column("B", "bool?"), Column("C", "string?"))
        for row, body in (
            ((None, None, None), "00" "00" "00"), ((5, False, ""), "01" "0000000000000005" "01" "00" "01" "00000000"), ((None, True, "ä"), "00" "01" "01" "01" "00000002" "c3a4"),
        ):
            self.assertEqual(First().write(columns, row).hex(), body)
            self.assertEqual(First().read(columns, bytes.fromhex(body)), row)
        for wrong in ("", "02", "01" "00", "00" "00", "00" "00" "00" "00"):
            with self.assertRaises(Damaged, msg=wrong):
                First().read(columns, bytes.fromhex(wrong))
        most = Column("C", "string?")
        text = "x" * (MOST_BYTES - 32)
        self.assertEqual(First().read((most,), First().write((most,), (text,))), (text,))
        with self.assertRaises(Damaged):
            First().read((most,), First().write((most,), (text + "x",)))

    def test_bodies_that_are_no_row(self) -> None:
        body = First().write(NOTE.columns, ("a&b", 1, "ann"))
        for wrong in (body[:-1], body + b"\0", body[:4] + b"\xff" + body[5:], b""):
            with self.assertRaises(Damaged, msg=wrong):
                First().read(NOTE.columns, wrong)
        with self.assertRaises(Damaged):
            First().read((Column("B", "bool"),), b"\2")

    def test_numbers_and_layouts(self) -> None:
        self.assertEqual(number_of(number_body(258)), 258)
        self.assertEqual(number_body(1).hex(), "0000000000000001")
        with self.assertRaises(Damaged):
            number_of(b"\1")
        for text, layout in ((TEXT, First), ("layout 2\n" + TEXT, Second)):
            self.assertIsInstance(split(text)[0], layout)
            self.assertEqual(split(text)[1], TEXT)
        with self.assertRaises(Damaged):
            split("layout 7\n" + TEXT)


class Values(unittest.TestCase):
    def test_texts_of_each_kind(self) -> None:
        for kind, text, value in (
            ("int", "-9223372036854775808", -(2**63)), ("int", " 7 ", 7), ("bool", "True", True), ("bool", "false", False), ("string", " x ", " x "),
            ("string", "", ""),
        ):
            self.assertEqual(value_of(Column("A", kind), text), value)

    def test_texts_of_columns_that_may_be_empty(self) -> None:
        for kind, text, value in (
            ("int?", "", None), ("int?", "-7", -7), ("bool?", "", None), ("bool?", "True", True), ("string?", "", None), ("string?", "x", "x"),
            ("string?", '""', ""), ("string?", '"""', '"'), ("string?", '""""', '""'), ("string?", '"', '"'), ("string?", "NULL", "NULL"),
        ):
            self.assertEqual(value_of(Column("A", kind), text), value)
        for value in (None, "", '"', '""', '"a"', "a", "NULL"):
            self.assertEqual(value_of(Column("A", "string?"), cell_of(Column("A", "string?"), value)), value)
        self.assertEqual(cell_of(Column("A", "string"), '""'), '""')

    def test_other_texts(self) -> None:
        for kind, text in (
            ("int", ""), ("int", "x"), ("int", "1.0"), ("int", "9223372036854775808"), ("int", "--1"), ("int", "٣"), ("bool", "1"), ("bool", ""),
            ("string", "\udcff"), ("string", "x" * (MOST_BYTES + 1)), ("int?", "x"), ("bool?", "NULL"), ("string?", "x" * (MOST_BYTES - 31)),
        ):
            with self.assertRaises(ValueError, msg=(kind, text[:20])):
                value_of(Column("A", kind), text)


if __name__ == "__main__":
    unittest.main()
