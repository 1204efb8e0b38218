"""What stands in companion/editors: the grammar, tried by a small reader of such grammars; vim's files, where vim is; the extension, where node is."""
import json
import re
import shutil
import subprocess
import tempfile
import unittest
from dataclasses import dataclass
from pathlib import Path
from typing import Any

import context

EDITORS = context.TOP / "companion" / "editors"
GRAMMAR = EDITORS / "vscode" / "syntaxes" / "urweb.tmLanguage.json"
Rule = dict[str, Any]


@dataclass(frozen=True)
class Token:
    """A part of a line, and the scopes that it is in."""

    text: str
    scopes: tuple[str, ...]

    @property
    def scope(self) -> str:
        return self.scopes[-1].removesuffix(".urweb") if self.scopes else ""


class Grammar:
    """The part of such grammars that ours is written in: match, begin and end, captures, include, names."""

    def __init__(self, path: Path) -> None:
        self.root: Rule = json.loads(path.read_text(encoding="utf-8"))

    def flat(self, rules: list[Rule]) -> list[Rule]:
        """Returns rules with each include in the place of what it names."""
        found: list[Rule] = []
        for rule in rules:
            if "include" in rule:
                named = self.root["repository"][rule["include"].removeprefix("#")]
                found += [named] if "match" in named or "begin" in named else self.flat(named["patterns"])
            else:
                found.append(rule)
        return found

    def captured(self, match: re.Match[str], captures: Rule, scopes: tuple[str, ...]) -> list[Token]:
        """Returns a match as tokens, each group under its name."""
        if not captures:
            return [Token(match[0], scopes)]
        if "0" in captures:
            return [Token(match[0], (*scopes, captures["0"]["name"]))]
        found, at = [], match.start()
        for number in sorted(captures, key=int):
            start, end = match.span(int(number))
            found += [Token(match.string[at:start], scopes), Token(match.string[start:end], (*scopes, captures[number]["name"]))]
            at = end
        return [token for token in [*found, Token(match.string[at:match.end()], scopes)] if token.text]

    def tokens(self, text: str) -> list[Token]:
        """Returns the tokens of a text, line by line, with what is open at the end of one still open in the next."""
        open_rules: list[tuple[Rule, tuple[str, ...]]] = [(self.root, ())]
        found: list[Token] = []
        for line in text.splitlines():
            self.line(line, open_rules, found)
        assert len(open_rules) == 1, open_rules[-1][0].get("begin")
        return found

    def line(self, line: str, open_rules: list[tuple[Rule, tuple[str, ...]]], found: list[Token]) -> None:
        at = 0
        while True:
            rule, scopes = open_rules[-1]
            inner = (*scopes, rule["contentName"]) if "contentName" in rule else scopes
            ends = [re.compile(rule["end"]).search(line, at)] if "end" in rule else []
            rules = self.flat(rule.get("patterns", []))
            hits = [(it.start(), order, it) for order, it in enumerate(
                [*ends, *(re.compile(sub.get("match") or sub["begin"]).search(line, at) for sub in rules)]) if it]
            if not hits:
                found += [Token(line[at:], inner)] if line[at:] else []
                return
            start, order, match = min(hits, key=lambda hit: hit[:2])
            found += [Token(line[at:start], inner)] if line[at:start] else []
            at = match.end()
            if ends and order == 0:
                found += self.captured(match, rule.get("endCaptures", {}), scopes)
                open_rules.pop()
            else:
                taken = rules[order - len(ends)]
                named = (*inner, taken["name"]) if "name" in taken else inner
                found += self.captured(match, taken.get("beginCaptures", taken.get("captures", {})), named)
                if "begin" in taken:
                    open_rules.append((taken, named))
                elif match.end() == match.start():
                    raise AssertionError(f"a rule takes nothing: {taken}")


class Colours(unittest.TestCase):
    def setUp(self) -> None:
        self.grammar = Grammar(GRAMMAR)

    def scopes(self, text: str) -> dict[str, str]:
        """Returns the innermost scope of each part of a text."""
        return {token.text.strip(): token.scope for token in self.grammar.tokens(text)}

    def test_each_keyword_of_the_language(self) -> None:
        text = (context.TOP / "docs" / "LANGUAGE.md").read_text(encoding="utf-8")
        words = re.search(r"Keywords are\s+`([^`]+)`", text)
        assert words
        for word in words[1].split():
            self.assertTrue(self.scopes(f"({word})")[word].startswith("keyword."), word)
            self.assertFalse(self.scopes(f"({word}')").get(word, "").startswith("keyword."), word)

    def test_comments_nest(self) -> None:
        found = self.scopes("(* a (* b *) val *) val x : int = 1")
        self.assertEqual(found["val"], "keyword.declaration")
        self.assertEqual(found["x"], "variable.other.definition")
        self.assertEqual(self.grammar.tokens("(* a\n(* b *)\nc *) 1")[-1].scope, "constant.numeric")

    def test_markup_and_code_stand_in_one_another(self) -> None:
        text = "fun f (x : int) : xbody =\n  <xml><p>if 'x {[if x = 1 then [] else {A = \"}\"}]} &amp;</p>{<xml><b/></xml>}end</xml>"
        tokens = self.grammar.tokens(text)
        inside = [token for token in tokens if "text.html.urweb" in token.scopes]
        self.assertEqual([token.text for token in inside if token.scope == "keyword.control"], ["if", "then", "else"])
        self.assertEqual([token.text for token in inside if token.scope == "entity.name.tag"], ["p", "p", "b"])
        self.assertEqual([token.scope for token in inside if token.text.endswith("end")], ["text.html"])

    def test_attributes_fields_and_names(self) -> None:
        found = self.scopes('val a : xbody = <xml><textbox{#Body} value="a &lt; b"/><a link={M.page 3}>x</a></xml>')
        self.assertEqual(found["#Body"], "variable.other.member")
        self.assertEqual(found["value"], "entity.other.attribute-name")
        self.assertEqual(found["&lt;"], "constant.character.entity")
        self.assertEqual(found["M"], "entity.name.namespace")
        self.assertEqual(found["3"], "constant.numeric")

    def test_statements(self) -> None:
        found = self.scopes("x <- oneRow (SELECT COUNT( * ) AS N FROM t WHERE t.A = 'it''s' AND t.B = {[y']});")
        for word in ("SELECT", "COUNT", "AS", "FROM", "WHERE", "AND"):
            self.assertEqual(found[word], "keyword.other.sql", word)
        self.assertEqual((found["it"], found["''"], found["oneRow"]), ("string.quoted.single", "constant.character.escape", "support.function"))

    def test_the_examples_are_read_to_their_ends(self) -> None:
        paths = [*context.EXAMPLES.rglob("*.ur"), *context.EXAMPLES.rglob("*.urs")]
        self.assertGreater(len(paths), 10)
        for path in paths:
            text = path.read_text(encoding="utf-8")
            tokens = self.grammar.tokens(text)
            self.assertEqual("".join(token.text for token in tokens), text.replace("\n", ""), path)
            self.assertFalse([token for token in tokens if "invalid" in token.scope], path)


VIM = """
set nocompatible runtimepath^=%s
filetype plugin on
syntax on
edit m.ur
let found = [&filetype, &commentstring, &makeprg]
call add(found, synIDattr(synID(1, 1, 0), 'name'))
for text in ['fun', 'nested', 'SELECT', 'quote', 'inside', 'text', 'tail']
  call cursor(1, 1)
  call search(text, 'c')
  call add(found, synIDattr(synID(line('.'), col('.'), 0), 'name'))
endfor
let lines = ["E13 m.ur:2-3 td | body", "m.ur:3:21: E13 found td, wanted body", "   3 | ...", "nonsense"]
call setqflist([], ' ', {'lines': lines, 'efm': &errorformat})
let errors = getqflist()
call add(found, len(errors))
call add(found, [bufname(errors[0].bufnr), errors[0].lnum, errors[0].col, errors[0].nr, errors[0].text])
edit m.urp
call add(found, &filetype)
call writefile([json_encode(found)], 'found.json')
quitall!
"""
VIM_SOURCE = """(* first (* nested *) *)
fun main () = x <- oneRow (SELECT t.A FROM t WHERE t.B = 'quote');
  return <xml><p>{if inside then <xml>text</xml> else {A = 1}.A}</p></xml> tail
"""


class Vim(unittest.TestCase):
    @unittest.skipUnless(shutil.which("vim"), "this machine has no vim")
    def test_its_files(self) -> None:
        with tempfile.TemporaryDirectory() as made:
            folder = Path(made)
            (folder / "m.ur").write_text(VIM_SOURCE, encoding="utf-8")
            (folder / "m.urp").write_text("m\n", encoding="utf-8")
            (folder / "run.vim").write_text(VIM % str(EDITORS / "vim"), encoding="utf-8")
            subprocess.run(["vim", "-es", "-u", "NONE", "-i", "NONE", "-S", "run.vim"], cwd=folder, capture_output=True, timeout=600)
            found = json.loads((folder / "found.json").read_text(encoding="utf-8"))
        self.assertEqual(found[:4], ["urweb", "(* %s *)", "urweb check", "urwebComment"])
        self.assertEqual(found[4:11], ["urwebKeyword", "urwebComment", "urwebSql", "urwebSqlText", "urwebSplice", "urwebMarkup", ""])
        self.assertEqual(found[11:], [1, ["m.ur", 3, 21, 13, "found td, wanted body"], "urwebproject"])


class Extension(unittest.TestCase):
    def test_its_files_are_there(self) -> None:
        folder = EDITORS / "vscode"
        said = json.loads((folder / "package.json").read_text(encoding="utf-8"))
        parts = said["contributes"]
        for path in [said["main"], parts["languages"][0]["configuration"], *(it["path"] for it in parts["grammars"])]:
            self.assertTrue((folder / path).is_file(), path)
        json.loads((folder / parts["languages"][0]["configuration"]).read_text(encoding="utf-8"))
        line = "a b/m.ur:2:21: E13 found td, wanted body"
        match = re.match(parts["problemMatchers"][0]["pattern"]["regexp"], line)
        assert match
        self.assertEqual(match.groups(), ("a b/m.ur", "2", "21", "E13", "found td, wanted body"))

    @unittest.skipUnless(shutil.which("node"), "this machine has no node")
    def test_it_shows_a_refusal_a_hover_and_a_change(self) -> None:
        with tempfile.TemporaryDirectory() as made:
            folder = Path(made)
            (folder / "m.urp").write_text("m\n", encoding="utf-8")
            (folder / "m.ur").write_text("val a : int = b\n", encoding="utf-8")
            words = ["node", context.TOP / "companion" / "tests" / "vscode_stub.js", EDITORS / "vscode" / "extension.js",
                     folder / "m.ur", "val a : int = \"x\"\n", "0", "14"]
            ran = subprocess.run(words, capture_output=True, text=True, timeout=600)
        first, hover, second = [json.loads(line) for line in ran.stdout.splitlines()]
        self.assertEqual(first, [{"code": "E07", "at": [0, 14, 0, 15], "severity": 0}])
        self.assertIn("look at the spelling", hover)
        self.assertEqual(second, [{"code": "E10", "at": [0, 14, 0, 17], "severity": 0}])
        self.assertEqual((ran.returncode, ran.stderr), (0, ""))


if __name__ == "__main__":
    unittest.main()
