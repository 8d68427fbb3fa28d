"""The words of a Rattle file: what `parse.py` reads declarations from.

Comments are left out but three: doc comments, which belong to what follows them, a note `// name: ArchivedTest`, which does too, and the
marker, at which reading ends.
"""

import re
from dataclasses import dataclass
from typing import List

from .model import MARK, Refused

WORD, LIFETIME, NUMBER, TEXT, SIGN, DOC, INNER_DOC, NOTE, END = (
    "word", "lifetime", "number", "text", "sign", "doc", "inner doc", "note", "end",
)

# How much of a word is told, in characters.
MOST_SAID = 40
MARK_BEGINS = "// Below this line all is written by tools/derive"
NAME_NOTE = re.compile(r"//\s*name:\s*(.*?)\s*$")
EDGE = re.compile(r"/\*|\*/")
# What comes next, the first that fits.
NEXT = re.compile(
    r"""(?P<space>\s+)
    |(?P<comment>//[^\n]*)
    |(?P<block>/\*)
    |(?P<char>b?'(?:\\u\{[^}'\n]*\}|\\x[0-9a-fA-F]{2}|\\[^\n]|[^\\'\n])')
    |(?P<lifetime>'[^\W\d]\w*)
    |(?P<raw>(?:b|c)?r(?P<hashes>\#*)")
    |(?P<plain>(?:b|c)?")
    |(?P<word>(?:r\#)?[^\W\d]\w*)
    |(?P<number>0[xob][0-9a-fA-F_]+\w*|\d[\d_]*(?:\.\d[\d_]*)?(?:[eE][+-]?\d[\d_]*)?\w*)
    |(?P<sign>::|->|=>|\.\.=|\.\.\.|\.\.|.)""",
    re.X | re.S,
)


@dataclass
class Token:
    kind: str
    text: str
    line: int
    start: int  # in characters from the file's first one

    def is_sign(self, text: str) -> bool:
        return self.kind == SIGN and self.text == text

    def is_word(self, *texts: str) -> bool:
        return self.kind == WORD and self.text in texts

    def said(self) -> str:
        """The word as a message says it, of a long one or one of several lines how it begins."""
        if self.kind == END:
            return "the end"
        begin = self.text.split("\n")[0][:MOST_SAID]
        return f"`{begin}{'' if begin == self.text else '..'}`"


@dataclass
class Tokens:
    """A file's words up to the marker, and where the marker is: `end` is the length of what is above it."""

    path: str
    words: List[Token]
    end: int


class Reader:
    def __init__(self, path: str, text: str):
        self.path = path
        self.text = text
        self.at = 0
        self.line = 1
        self.words: List[Token] = []

    def refuse(self, line: int, why: str):
        raise Refused(self.path, line, why)

    def put(self, kind: str, end: int, text: str = None):
        self.words.append(Token(kind, self.text[self.at:end] if text is None else text, self.line, self.at))
        self.skip(end)

    def skip(self, end: int):
        self.line += self.text.count("\n", self.at, end)
        self.at = end

    def is_at_line_start(self) -> bool:
        before = self.text[self.text.rfind("\n", 0, self.at) + 1:self.at]
        return not before.strip(" ")

    def line_comment(self, comment) -> bool:
        """Passes a line comment; whether it is the marker."""
        said = comment[0].rstrip()
        if said == MARK and self.is_at_line_start():
            return True
        if said.startswith(MARK_BEGINS):
            self.refuse(self.line, f"this is nearly the line that tools/derive looks for; write it as `{MARK}`, alone on its line")
        note = NAME_NOTE.match(said)
        if said.startswith("//!"):
            self.put(INNER_DOC, comment.end())
        elif said.startswith("///") and not said.startswith("////"):
            self.put(DOC, comment.end(), said[3:].strip())
        elif note:
            self.put(NOTE, comment.end(), note[1])
        else:
            self.skip(comment.end())
        return False

    def block_comment(self):
        start, line, depth, at = self.at, self.line, 0, self.at
        while True:
            edge = EDGE.search(self.text, at)
            if not edge:
                self.refuse(line, "this comment has no `*/`; write it where the comment ends")
            at = edge.end()
            depth += 1 if edge[0] == "/*" else -1
            if depth == 0:
                break
        said = self.text[start:at]
        if said.startswith("/*!"):
            self.put(INNER_DOC, at)
        elif said.startswith("/**") and not said.startswith("/***") and len(said) > 4:
            lines = [it.strip().lstrip("*").strip() for it in said[3:-2].split("\n")]
            self.put(DOC, at, " ".join(it for it in lines if it))
        else:
            self.skip(at)

    def raw_text(self, opening):
        hashes = opening["hashes"]
        shut = self.text.find('"' + hashes, opening.end())
        if shut < 0:
            self.refuse(self.line, f'this text has no end; close it by `"{hashes}`')
        self.put(TEXT, shut + 1 + len(hashes))

    def plain_text(self, opening):
        at = opening.end()
        while at < len(self.text) and self.text[at] != '"':
            at += 2 if self.text[at] == "\\" else 1
        if at >= len(self.text):
            self.refuse(self.line, "this text has no end; close it by `\"`")
        self.put(TEXT, at + 1)

    def step(self) -> bool:
        """Passes what is next; whether it is the marker."""
        found = NEXT.match(self.text, self.at)
        kind = found.lastgroup
        if kind == "space":
            self.skip(found.end())
        elif kind == "comment":
            return self.line_comment(found)
        elif kind == "block":
            self.block_comment()
        elif kind == "plain":
            self.plain_text(found)
        elif found["raw"]:
            self.raw_text(found)
        else:
            self.put(TEXT if kind == "char" else kind, found.end())
        return False


def tokens(path: str, text: str) -> Tokens:
    reader = Reader(path, text)
    while reader.at < len(text):
        if reader.step():
            break
    reader.words.append(Token(END, "the end", reader.line, reader.at))
    return Tokens(path, reader.words, text.rfind("\n", 0, reader.at) + 1 if reader.at < len(text) else len(text))
