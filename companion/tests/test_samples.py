"""The samples of documents: each source of them compiles, and where a document says that a path shows a text, the page has it.

A block of four blanks behind a line that is the path of a file in backquotes is that file. A `.ur` whose name is not yet in the project begins the next
one, unless a block of its project file named it. Behind the files come sentences "`/M/f` shows `text`" and "A `POST` of `A=x` to `/M/f` shows `text`"."""
import re
import subprocess
import tempfile
import unittest
from dataclasses import dataclass, field
from pathlib import Path

import context
from urweb_companion import program

DOCUMENTS = ("LANGUAGE.md", "FROM-URWEB.md")
SHOWS = re.compile(r"(?:A `POST`(?: of `(?P<body>[^`]*)`)? to )?`(?P<path>/[^`]*)` shows `(?P<text>[^`]*)`")


@dataclass
class Sample:
    """A project of a document, and what its pages must show: the method, the path, the body and the text."""

    place: str
    files: dict[str, str] = field(default_factory=dict)
    shows: list[tuple[str, str, str, str]] = field(default_factory=list)

    def project_file(self) -> str:
        return next((name for name in self.files if name.endswith(".urp")), "sample.urp")

    def takes(self, name: str) -> bool:
        """Whether a file belongs to this project: its signature, or a module that its project file names."""
        if self.shows or name in self.files or name.endswith(".urp"):
            return False
        stem = name.rpartition(".")[0]
        return stem in self.files.get(self.project_file(), "").split() or name.endswith(".urs") and f"{stem}.ur" in self.files

    def write(self, folder: Path) -> None:
        modules = [name[:-3] for name in self.files if name.endswith(".ur")]
        for name, text in {"sample.urp": "\n".join(modules) + "\n", **self.files}.items():
            (folder / name).write_text(text, encoding="utf-8")


def samples(path: Path) -> list[Sample]:
    """Returns the projects of a document, in order."""
    found: list[Sample] = []
    name = ""
    for number, part in enumerate(re.split(r"\n(?=`[^`\n]+`\n)", path.read_text(encoding="utf-8"))):
        head, _, rest = part.partition("\n\n")
        match = re.fullmatch(r"`([a-z][A-Za-z0-9_]*\.ur[sp]?)`", head)
        if match:
            name = match[1]
            block = re.match(r"(?:(?:    .*)?\n)+", rest)
            assert block, f"{path.name}: no block behind {name}"
            if not found or not found[-1].takes(name):
                found.append(Sample(f"{path.name}, {name}"))
            found[-1].files[name] = "\n".join(line[4:] for line in block[0].rstrip("\n").split("\n")) + "\n"
        if found:
            text = " ".join((rest[block.end():] if match and block else part).split())
            found[-1].shows += [("POST" if "POST" in it[0] else "GET", it["path"], it["body"] or "", it["text"]) for it in SHOWS.finditer(text)]
    return found


def request(method: str, path: str, body: str) -> bytes:
    data = body.encode()
    return f"{method} {path} HTTP/1.1\r\nHost: localhost\r\nContent-Length: {len(data)}\r\n\r\n".encode() + data


class Documents(unittest.TestCase):
    def test_each_sample_compiles_and_shows_what_is_said(self) -> None:
        for document in DOCUMENTS:
            given = samples(context.TOP / "docs" / document)
            self.assertGreater(len(given), 8, document)
            self.assertGreater(sum(len(it.shows) for it in given), 5, document)
            for sample in given:
                with self.subTest(sample.place), tempfile.TemporaryDirectory() as made:
                    sample.write(Path(made))
                    self.tried(sample, Path(made))

    def test_the_guide_shows_the_explanation_that_comes(self) -> None:
        text = (context.TOP / "docs" / "GUIDE.md").read_text(encoding="utf-8")
        shown = re.search(r"    \./urweb (check \S+)\n\nprints\n\n    ([^\n]*)\n\n[^\n]*:\n\n```\n([^`]*)```\n", text)
        assert shown
        ran = subprocess.run([context.TOP / "urweb", *shown[1].split()], cwd=context.TOP, capture_output=True, text=True, timeout=300)
        self.assertEqual((ran.stdout, ran.stderr), (shown[2] + "\n", shown[3]))

    def tried(self, sample: Sample, folder: Path) -> None:
        checked = program.run(["check", sample.project_file()], folder=folder)
        self.assertEqual((checked.status, checked.text[:3]), (0, "ok "), checked.text)
        for method, path, body, text in sample.shows:
            answer = program.run(["replay", sample.project_file()], request(method, path, body), folder)
            self.assertIn(text, answer.text)


if __name__ == "__main__":
    unittest.main()
