"""Tests of tools/gate/layers: a use against the order, and how a sentence is cut."""
import importlib.util
import sys
import unittest
from importlib.machinery import SourceFileLoader
from pathlib import Path

TOOLS = Path(__file__).resolve().parents[1]
sys.path.insert(0, str(TOOLS))
from lib.crates import read

loader = SourceFileLoader("gate_layers", str(TOOLS / "gate" / "layers"))
spec = importlib.util.spec_from_loader("gate_layers", loader)
assert spec is not None
layers = importlib.util.module_from_spec(spec)
loader.exec_module(layers)


def said(text: str) -> list[str]:
    """Returns what goes against the order, without what is said of folders."""
    return [it for it in layers.faults(read(text)) if "uses" in it or "layer" in it]


class Layers(unittest.TestCase):
    """What is refused, and what is shown."""

    def test_order(self) -> None:
        self.assertEqual(said("# Low\na: std\nb: a\n# High\nc: a b\n"), [])
        self.assertEqual(said("# Low\na: b\nb:\n"), ["a (Low) uses b, which stands below it (Low)"])
        self.assertEqual(said("# Low\na: c\n# High\nc:\n"), ["a (Low) uses c, which stands below it (High)"])
        self.assertEqual(said("# Low\na:\n# High\nc:\n# Low\nb:\n"), ["the layer Low stands in two places"])

    def test_sentences_are_cut(self) -> None:
        self.assertEqual(layers.short("One. Two.", 100), "One")
        self.assertEqual(layers.short("a text of some words; and more of them", 30), "a text of some words")
        self.assertEqual(layers.short("a text, of some words, and more of them", 30), "a text, of some words, ..")
        self.assertEqual(layers.short("a text of some words and more of them", 30), "a text of some words and ..")

    def test_table_is_put_at_its_place(self) -> None:
        self.assertEqual(layers.with_table("a\n<!-- layers -->\nold\n<!-- /layers -->\nb\n", "new"), "a\n<!-- layers -->\nnew\n<!-- /layers -->\nb\n")
        self.assertIsNone(layers.with_table("a\n", "new"))


if __name__ == "__main__":
    unittest.main()
