"""A rough reading of a source as tokens, only to find places and to guess what was meant.

It follows the spelling of tokens and where markup begins and ends. It knows no grammar and no types, goes on behind what is no token, and takes
a source apart in some way whatever it holds. What is right and what is wrong the program alone says."""
import re
from dataclasses import dataclass

KEYWORDS = frozenset("and case con cookie datatype else end fn fun if in let of sequence table then type val".split())
STATEMENTS = frozenset({"SELECT", "INSERT", "UPDATE", "DELETE"})

CODE = re.compile(
    r"(?P<blank>[ \t\r\n]+)|(?P<xml><xml>|<xml/>)|(?P<word>[A-Za-z_][A-Za-z0-9_']*)|(?P<int>[0-9]+)"
    r'|(?P<string>"(?:[^"\\\n]|\\[^\n])*")|(?P<broken>"[^\n]*)|(?P<sqltext>\'(?:[^\'\n]|\'\')*\')'
    r"|(?P<sign>::|<>|<=|>=|->|=>|<-|\+\+|--|&&|\|\||.)",
    re.DOTALL,
)
TEXT = re.compile(r"(?P<text>[^<{]+)|(?P<endxml></xml>)|(?P<close></[a-z][a-z0-9]*)|(?P<open><[a-z][a-z0-9]*)|(?P<brace>\{)|(?P<sign>.)", re.DOTALL)
TAG = re.compile(
    r'(?P<blank>[ \t\r\n]+)|(?P<string>"[^"\n]*")|(?P<broken>"[^\n]*)|(?P<word>[a-z][a-z0-9]*)|(?P<closed>/>)|(?P<end>>)|(?P<brace>\{)|(?P<sign>.)',
    re.DOTALL,
)
PAIRS = {")": "(", "]": "[", "}": "{"}


@dataclass(frozen=True)
class Token:
    """A token: its sort, its text, and its two offsets in bytes."""

    kind: str
    text: str
    start: int
    end: int

    def is_sign(self, *texts: str) -> bool:
        return self.kind in {"sign", "brace"} and self.text in texts

    def is_word(self, *texts: str) -> bool:
        return self.kind == "word" and self.text in texts

    @property
    def is_name(self) -> bool:
        return self.kind == "word" and self.text not in KEYWORDS


class _Reader:
    """Goes through a source; the stack has what the text is in: code, markup, or a tag."""

    def __init__(self, data: bytes) -> None:
        # One character for each byte, so that offsets are bytes.
        self.text = data.decode("latin-1")
        self.at = 3 if data.startswith(b"\xef\xbb\xbf") else 0
        self.within = ["code"]
        self.braces = [0]
        self.found: list[Token] = []

    def read(self) -> list[Token]:
        steps = {"code": self._code, "markup": self._markup, "tag": self._tag}
        while self.at < len(self.text):
            steps[self.within[-1]]()
        return self.found

    def _take(self, pattern: re.Pattern[str]) -> Token:
        it = pattern.match(self.text, self.at)
        assert it is not None and it.lastgroup is not None
        token = Token(it.lastgroup, it[0], it.start(), it.end())
        self.at = it.end()
        if token.kind != "blank":
            self.found.append(token)
        return token

    def _enter(self, where: str) -> None:
        self.within.append(where)
        self.braces.append(0)

    def _leave(self) -> None:
        if len(self.within) > 1:
            self.within.pop()
            self.braces.pop()

    def _code(self) -> None:
        if self.text.startswith("(*", self.at):
            self._comment()
            return
        token = self._take(CODE)
        if token.text == "<xml>":
            self._enter("markup")
        elif token.is_sign("{"):
            self.braces[-1] += 1
        elif token.is_sign("}") and self.braces[-1] == 0:
            self._leave()
        elif token.is_sign("}"):
            self.braces[-1] -= 1

    def _comment(self) -> None:
        start, depth, at = self.at, 0, self.at
        for it in re.compile(r"\(\*|\*\)").finditer(self.text, at):
            depth += 1 if it[0] == "(*" else -1
            at = it.end()
            if depth == 0:
                break
        if depth > 0:
            at = len(self.text)
            self.found.append(Token("comment", "(*", start, at))
        self.at = at

    def _markup(self) -> None:
        token = self._take(TEXT)
        if token.kind == "endxml":
            self._leave()
        elif token.kind in {"open", "close"}:
            self._enter("tag")
        elif token.kind == "brace":
            self._enter("code")

    def _tag(self) -> None:
        token = self._take(TAG)
        if token.kind in {"end", "closed"}:
            self._leave()
        elif token.kind == "brace":
            self._enter("code")


def tokens(data: bytes) -> list[Token]:
    """Returns the tokens of a source, without comments that end; one that does not is a token of its own."""
    return _Reader(data).read()


def open_at(found: list[Token], offset: int) -> list[Token]:
    """Returns what was begun before an offset and has not ended there: brackets, elements, markup, `let`, `case` and statements of SQL."""
    stack: list[Token] = []
    for at, token in enumerate(found):
        if token.start >= offset:
            break
        _follow(stack, token, found, at)
    return stack


def _follow(stack: list[Token], token: Token, found: list[Token], at: int) -> None:
    if token.is_sign("(", "[", "{") or token.text == "<xml>" or token.is_word("let", "case"):
        stack.append(token)
    elif token.is_sign(")", "]", "}"):
        _close(stack, PAIRS[token.text])
    elif token.kind == "endxml":
        _close(stack, "<xml>")
    elif token.is_word("end"):
        _close(stack, "let")
    elif token.is_word(*STATEMENTS) and stack and stack[-1].text == "(" and found[at - 1] is stack[-1]:
        stack.append(token)
    elif token.kind == "open":
        stack.append(token)
    elif token.kind == "close":
        _close(stack, "<" + token.text[2:])
    elif token.kind == "closed" and stack and stack[-1].kind == "open":
        stack.pop()


def _close(stack: list[Token], text: str) -> None:
    """Takes the last of its sort off, with what was begun in it; nothing where there is none."""
    for at in range(len(stack) - 1, -1, -1):
        if stack[at].text == text:
            del stack[at:]
            return
