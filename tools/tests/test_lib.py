"""Tests of tools/lib: crates.txt, clauses, definitions, bodies of rows, ports, answers and cases."""
import shutil
import sys
import tempfile
import unittest
from pathlib import Path

sys.path.insert(0, str(Path(__file__).resolve().parents[1]))
from lib import answers, cases, clauses, crates, definitions, served, tables, used

CRATES = "# Low\nur_a: std\nur_b staticlib: ur_a # a word\n\n# High\nur_c: ur_a ur_b\n"
SOURCE = """//! A crate.
ghost use Rattle.ur_a.specs.Words.{Tells, is_so as so};

/// It has `{` in a comment.
pub fn told<T: Into<[u8; 4]>>(text: &str) -> [u8; 4]
    requires { so text.now }
    // why
    ensures told { Tells "}" text.now }
    ensures* lent { Tells text.now
        text.now }
{
    let brace = '{';
    inner(brace)
}

fn hidden(x: u8) -> u8 { x }

pub trait Keeper {
    fn begin(&mut self)
        ensures { so self.new };
}

#[cfg(test)]
mod tests {
    pub fn tried() {}
}
"""


def read(source: str, renames: clauses.Renames = clauses.Renames()) -> list[clauses.Function]:
    return clauses.Reader("ur_b", "lib.rt", source, renames).functions()


class Crates(unittest.TestCase):
    """crates.txt and what a crate is."""

    def test_layers(self) -> None:
        found = crates.read(CRATES)
        self.assertEqual([(it.name, it.layer, it.uses) for it in found],
                         [("ur_a", "Low", ("std",)), ("ur_b", "Low", ("ur_a",)), ("ur_c", "High", ("ur_a", "ur_b"))])
        self.assertEqual([title for title, _ in crates.by_layer(found)], ["Low", "High"])

    def test_sentence(self) -> None:
        with tempfile.TemporaryDirectory() as folder:
            root = Path(folder, "crates", "ur_a", "src")
            root.mkdir(parents=True)
            (root / "lib.rt").write_text("//! What it\n//! is.\n#![x]\n", encoding="utf-8")
            self.assertEqual(crates.sentence("ur_a", Path(folder)), "What it is.")
            (root.parent / "README.md").write_text("# ur_a\n\nAnother\nword.\n\nMore.\n", encoding="utf-8")
            self.assertEqual(crates.sentence("ur_a", Path(folder)), "Another word.")


class Clauses(unittest.TestCase):
    """What is read of a source, and what is told to be another clause."""

    def test_functions(self) -> None:
        found = read(SOURCE)
        self.assertEqual([(it.owner, it.name, [(c.kind, c.name) for c in it.clauses]) for it in found], [
            ("", "told", [("requires", ""), ("ensures", "told"), ("ensures*", "lent")]), ("Keeper", "begin", [("ensures", "")])])
        self.assertEqual(found[0].clauses[1].text, 'Tells "}" text.now')

    def test_another_import_is_another_clause(self) -> None:
        other = SOURCE.replace("ur_a.specs.Words", "ur_c.specs.Words")
        self.assertNotEqual(read(SOURCE)[0].clauses[0].key, read(other)[0].clauses[0].key)

    def test_another_module_is_none(self) -> None:
        self.assertEqual(read(SOURCE)[0].clauses, read(SOURCE.replace("specs.Words", "specs.More.Others"))[0].clauses)

    def test_renames(self) -> None:
        renames = clauses.read_map("ur_c: ur_a # a crate\nur_a::Tells -> ur_c::TellsName\nur_b::told -> ur_b::said\n")
        now = SOURCE.replace("ur_a.specs", "ur_c.specs").replace("Tells", "TellsName").replace("told<", "said<")
        before, after = read(SOURCE, renames), read(now)
        self.assertEqual([it.name for it in before], [it.name for it in after])
        self.assertEqual([c.key for c in before[0].clauses], [c.key for c in after[0].clauses])

    def test_definitions(self) -> None:
        with tempfile.TemporaryDirectory() as folder:
            specs = Path(folder, "crates", "ur_a", "specs")
            specs.mkdir(parents=True)
            (specs / "Lib.antt").write_text("pub mod Words\n", encoding="utf-8")
            (specs / "Words.antt").write_text("use Rattle.std.specs.Prelude.{List}\n-- a word\nabbrev pub Tells : List\nTells = x\n\n"
                                              "pub record Is (a : List) where\n  pub one : a\n", encoding="utf-8")
            found = definitions.definitions_of(Path(folder), clauses.Renames())
        self.assertEqual([(it.name, it.told) for it in found], [
            ("Tells", "abbrev pub Tells : std::List Tells = x"), ("Is", "pub record Is (a : std::List) where pub one : a")])


class Small(unittest.TestCase):
    """Bodies, ports, answers and cases."""

    def test_bodies(self) -> None:
        columns = (*tables.NOTE, ("T", "bool"))
        values = [b"a&b", b"\0" * 7 + b"\1", b"ann", b"\1"]
        body = tables.body_of(columns, ("a&b", 1, "ann", True))
        self.assertEqual(body.hex(), "00000004426f6479" "00000003612662" "000000024964" "0000000000000001" "000000054f776e6572" "00000003616e6e" "0000000154" "01")
        self.assertEqual(tables.values_of(body, columns), values)
        self.assertEqual(tables.first_values_of(tables.first_body(("a&b", 1, "ann", True)), columns), values)
        for other in (tables.NOTE, (*columns, ("U", "bool")), columns[::-1]):
            with self.assertRaises(ValueError):
                tables.values_of(body, other)

    def test_bodies_of_options(self) -> None:
        columns = (("A", "int?"), ("B", "string?"))
        a, b = b"\0\0\0\1A", b"\0\0\0\1B"
        self.assertEqual(tables.columns_of(a + b"\0" + b + b"\1" b"\0\0\0\2ab", columns), [None, b"ab"])
        self.assertEqual(tables.columns_of(a + b"\1" + b"\0" * 7 + b"\5" + b + b"\0", columns), [b"\0" * 7 + b"\5", None])
        self.assertEqual(tables.columns_of(b + b"\0", columns), [None, None])
        self.assertEqual(tables.columns_of(b"", columns), [None, None])
        for body in (b"\0", a + b"\2" + b + b"\0", a + b"\0" + b + b"\0\0", a + b"\1\0", b + b"\0" + a + b"\0"):
            with self.assertRaises(ValueError):
                tables.columns_of(body, columns)
        with self.assertRaises(ValueError):
            tables.values_of(a + b"\0" + b + b"\0", columns)

    def test_ports_differ(self) -> None:
        self.assertEqual(len({served.free_port() for _ in range(20)}), 20)

    def test_processes_are_ended(self) -> None:
        self.assertEqual(served.Process(["cat"], stdin=-1).ended(b"x"), (0, b"x", b""))
        self.assertIsNone(served.Process(["sleep", "60"], seconds=0.2).ended().status)

    def test_what_runs_take(self) -> None:
        self.assertEqual([used.used_by(["sh", "-c", f"exit {status}"], ".").status for status in (0, 3)], [0, 3])
        self.assertEqual(used.used_by(["sh", "-c", "kill -TERM $$"], ".").status, -15)
        busy = used.used_by([sys.executable, "-c", "x = bytearray(50 << 20)\nfor _ in range(3000000): pass"], ".")
        self.assertGreater(busy.seconds, 0.01)
        self.assertGreater(busy.kib, 50 << 10)

    @unittest.skipUnless(shutil.which("gcc"), "no gcc")
    def test_a_run_is_not_told_to_take_what_this_process_has(self) -> None:
        room = bytearray(50 << 20)
        self.assertLess(used.used_by(["true"], ".").kib, len(room) >> 10)

    def test_answers(self) -> None:
        body = answers.plain_body(404)
        given = b"HTTP/1.1 404 Not Found\r\nContent-Type: text/html; charset=utf-8\r\nContent-Length: %d\r\n\r\n" % len(body) + body
        self.assertEqual([it.status for it in answers.split(given * 2)], [404, 404])
        with self.assertRaises(answers.Wrong):
            answers.split(given.replace(b"Not Found\r", b"Found\r"))

    def test_cases(self) -> None:
        text = b"run serve p --port 8080\n| file p.urp m\\n\n| ask GET /M/main\n= 0 s1 reads 1\n+ HTTP/1.1 200 OK^ / a\n! serving\n"
        row = cases.row_of(cases.cases_of(text)[0])
        self.assertEqual((row.words, row.files), (["serve", "p", "--port", "8080"], {"p.urp": b"m\n"}))
        self.assertEqual(row.inputs, [b"GET /M/main HTTP/1.1\r\nHost: localhost\r\n\r\n"])
        self.assertEqual((row.wanted.status, row.wanted.given, row.wanted.printed), (0, [b"HTTP/1.1 200 OK^ / a"], [b"serving"]))


if __name__ == "__main__":
    unittest.main()
