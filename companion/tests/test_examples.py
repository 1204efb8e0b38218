"""The applications of examples/ pass their own tests."""
import contextlib
import io
import tempfile
import unittest
from pathlib import Path

import context
from urweb_companion import testing

SCRIPTS = sorted(context.EXAMPLES.rglob("*.test"))


class Examples(unittest.TestCase):
    def test_each_passes_its_tests(self) -> None:
        self.assertGreaterEqual({it.stem for it in SCRIPTS}, {"forum", "issues", "shop", "tasks"})
        for script in SCRIPTS:
            with self.subTest(script.stem), contextlib.redirect_stdout(io.StringIO()) as out:
                status = testing.main([str(script.with_suffix(".urp")), str(script)])
                self.assertEqual(status, 0, out.getvalue())
                self.assertNotEqual(out.getvalue(), "0 passed, 0 failed\n")

    def test_a_wrong_word_of_a_page_fails(self) -> None:
        folder = context.EXAMPLES / "forum"
        script = Path(self.enterContext(tempfile.TemporaryDirectory())) / "wrong.test"
        script.write_text("GET /Forum/main\nhas 1 topic, 0 posts.\n", encoding="utf-8")
        with contextlib.redirect_stdout(io.StringIO()) as out:
            self.assertEqual(testing.main([str(folder / "forum.urp"), str(script)]), 1)
        self.assertTrue(out.getvalue().endswith("0 passed, 1 failed\n"), out.getvalue())


if __name__ == "__main__":
    unittest.main()
