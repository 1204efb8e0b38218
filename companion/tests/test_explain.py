"""Refusals explained: each small wrong program of refusals.txt has the explanation that is written for it, and the document's examples are among them."""
import os
import unittest

import context
from refusal_cases import cases, document_examples, written
from urweb_companion.display import escaped, under
from urweb_companion.ended import explained
from urweb_companion.explain import explain, of_run
from urweb_companion.hints import BY_CODE
from urweb_companion.program import run
from urweb_companion.refusals import parse, section, sections
from urweb_companion.shown_types import as_source, fields_of

LEAST = 120


def setUpModule() -> None:
    os.chdir(context.TOP)


class Programs(unittest.TestCase):
    maxDiff = None

    def test_each_small_wrong_program_has_its_explanation(self) -> None:
        for case in cases():
            with self.subTest(case.name), written(case.files) as folder:
                explanation = of_run(run(["check", "m"], folder=folder), folder)
                self.assertIsNotNone(explanation)
                self.assertEqual(explanation.text() if explanation else "", case.wanted)

    def test_there_are_enough_of_them_and_no_two_are_the_same(self) -> None:
        found = cases()
        self.assertGreaterEqual(len(found), LEAST)
        self.assertEqual(len({str(it.files) for it in found}), len(found))

    def test_the_examples_of_the_document_are_among_them(self) -> None:
        known = [it.files for it in cases()]
        examples = document_examples()
        self.assertGreaterEqual(len(examples), 20)
        for code, files, line in examples:
            with self.subTest(code), written(files) as folder:
                self.assertIn(files, known)
                self.assertEqual(run(["check", "m"], folder=folder).text, line)

    def test_most_codes_have_a_program(self) -> None:
        shown = {it.wanted.split(": ")[1][:3] for it in cases()}
        # What is refused behind the making of instances is of code that is made by hand.
        self.assertEqual(set(sections()) - shown, {"E19"})

    def test_few_programs_get_the_hint_that_says_nothing(self) -> None:
        found = cases()
        vague = [it.name for it in found if "look there and before it" in it.wanted]
        self.assertLessEqual(len(vague), len(found) // 50, vague)


class Parts(unittest.TestCase):
    def test_a_line_is_taken_apart(self) -> None:
        refusal = parse("E10 a b/m.ur:14-19 string | int\n")
        assert refusal is not None
        self.assertEqual((refusal.code, refusal.file, refusal.start, refusal.end, refusal.found, refusal.wanted), ("E10", "a b/m.ur", 14, 19, "string", "int"))
        self.assertIsNone(parse("ok 4 routes\n"))

    def test_a_found_part_may_hold_the_sign_between(self) -> None:
        refusal = parse("E01 m.urp:0-5 a | b | \n")
        assert refusal is not None
        self.assertEqual((refusal.found, refusal.wanted), ("a | b", ""))

    def test_types_are_written_as_a_source_writes_them(self) -> None:
        self.assertEqual(as_source("$[A = (int); B = (option (int)); ]"), "{A : int, B : option int}")
        self.assertEqual(as_source("($[]) -> (transaction (page))"), "unit -> transaction page")
        self.assertEqual(as_source("((int) -> (int)) -> (int)"), "(int -> int) -> int")
        self.assertEqual(as_source("list (option (int))"), "list (option int)")
        self.assertEqual(as_source("xml form [] [A = (bool); ]"), "xml form [] [A = bool]")
        self.assertEqual(as_source("int, string or bool"), "int, string or bool")
        self.assertEqual(fields_of("$[A = (int); ]"), {"A": "int"})
        self.assertEqual(fields_of("int"), {})

    def test_nothing_steers_a_terminal(self) -> None:
        self.assertEqual(escaped("a\x1b[31m\u202e\x07\x9b"), "a\\x1b[31m\\u202e\\x07\\x9b")

    def test_carets_stand_under_wide_letters(self) -> None:
        self.assertEqual(under("字 = x", 4, 5), ("字 = x", "     ^"))
        self.assertEqual(under("\tx", 1, 2), ("    x", "    ^"))

    def test_colours_are_asked_for(self) -> None:
        refusal = parse("E02 x.urp:0-0 x.urp | ")
        assert refusal is not None
        self.assertNotIn("\x1b", explain(refusal).text())
        self.assertIn("\x1b[1m", explain(refusal).text(colour=True))

    def test_a_place_beyond_the_file_is_no_fault(self) -> None:
        with written({"m.ur": "val a : int = 1\n"}) as folder:
            for code in BY_CODE:
                refusal = parse(f"{code} m.ur:900-950 a | b")
                assert refusal is not None
                self.assertTrue(explain(refusal, folder).text())

    def test_each_section_of_the_document_is_found(self) -> None:
        self.assertTrue(section("E13").startswith("A cell of a table in a body."))
        self.assertEqual(section("E99"), "")


class Behind(unittest.TestCase):
    def test_a_run_is_explained_by_its_project_wherever_it_stands_among_the_words(self) -> None:
        for words in (["check", "nothere"], ["serve", "--port", "8080", "nothere"], ["replay", "--steps=3", "nothere"], ["check", "--", "nothere"]):
            self.assertIn("nothere.urp: E02 found no file nothere.urp\n", explained(words))

    def test_a_run_without_a_project_is_not_explained(self) -> None:
        self.assertEqual(explained(["check"]), "")
        self.assertEqual(explained(["check", str(context.NOTES)]), "")


if __name__ == "__main__":
    unittest.main()
