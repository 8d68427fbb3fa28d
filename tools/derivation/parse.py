"""The items of a file above its marker: its declarations with their types as written, what it brings in by `use`, and the names of the rest.

Nothing is looked up here. What a declaration has that no archive can is kept as a fault, which counts only once the declaration is archived.
"""

from dataclasses import dataclass, field
from typing import Dict, List, Set, Tuple

from .model import Declaration, Field, Parameter, Refused, Type, Variant
from .tokens import DOC, END, INNER_DOC, LIFETIME, NOTE, NUMBER, SIGN, TEXT, WORD, Token, Tokens, tokens

CLOSES = {"(": ")", "[": "]", "{": "}"}
# How deep types and lists of `use` items may be nested.
DEEPEST = 100
# Types that are no path, by the word or sign that begins them.
NO_PATH = {"dyn": "dyn", "impl": "impl", "fn": "fn", "unsafe": "fn", "extern": "fn", "for": "fn"}
KEYWORDS = set(
    """as async await break const continue crate dyn else enum extern false fn for if impl in let loop match mod move mut pub ref return
    self static struct super trait true type unsafe use where while ghost requires ensures""".split()
)


@dataclass
class Declared:
    """A declaration as written, and why it can't be archived, if so."""

    declaration: Declaration
    faults: List[Refused] = field(default_factory=list)
    is_test: bool = False


@dataclass
class Alias:
    name: str
    parameters: List[str]
    type: Type
    line: int


@dataclass
class File:
    path: str
    text: str
    head_end: int  # in characters
    declared: List[Declared] = field(default_factory=list)
    aliases: Dict[str, Alias] = field(default_factory=dict)
    uses: Dict[str, Tuple[str, ...]] = field(default_factory=dict)
    globs: List[Tuple[str, ...]] = field(default_factory=list)
    ghost_uses: Dict[str, Tuple[str, ...]] = field(default_factory=dict)
    numbers: Dict[str, int] = field(default_factory=dict)  # constants whose value is written as a number
    items: Dict[str, int] = field(default_factory=dict)  # the name of each item, with its line
    twice: List[Tuple[str, int]] = field(default_factory=list)  # names that are declared or brought in a second time
    use_lines: Dict[str, int] = field(default_factory=dict)  # the line of each name of `uses` and `ghost_uses`
    impls: List[Tuple[str, str]] = field(default_factory=list)  # the last words of the trait and the type of each impl
    shown: Set[str] = field(default_factory=set)  # the names of items and of what is brought in that other files may bring in


class Parser:
    def __init__(self, path: str, text: str, words: Tokens):
        self.path = path
        self.text = text
        self.words = words.words
        self.at = 0
        self.file = File(path, text, words.end)
        self.faults: List[Refused] = []
        self.depth = 0
        self.is_shown = False  # whether the item that is read has a visibility

    # ---- the next words ----

    def peek(self, ahead: int = 0) -> Token:
        return self.words[min(self.at + ahead, len(self.words) - 1)]

    def next(self) -> Token:
        token = self.peek()
        self.at += 1
        return token

    def is_next(self, sign: str) -> bool:
        return self.peek().is_sign(sign)

    def take(self, sign: str) -> bool:
        if self.is_next(sign):
            self.at += 1
            return True
        return False

    def take_word(self, *words: str) -> bool:
        if self.peek().is_word(*words):
            self.at += 1
            return True
        return False

    def refuse(self, line: int, why: str):
        raise Refused(self.path, line, why)

    def fault(self, line: int, why: str):
        self.faults.append(Refused(self.path, line, why))

    def want(self, sign: str, where: str = "", other: str = ""):
        """Takes a sign; `other` may be missing instead of it, but not before what closes something, nor at the end."""
        if not self.take(sign):
            found = self.peek()
            wanted = f"`{other}` or `{sign}`" if other and found.kind != END and found.text not in CLOSES.values() else f"`{sign}`"
            self.refuse(found.line, f"found {found.said()}{where}; write {wanted} here")

    def show(self, name: str):
        if self.is_shown:
            self.file.shown.add(name)

    def declare(self, name: str, line: int):
        self.show(name)
        if name in self.file.items:
            self.file.twice.append((name, line))
        else:
            self.file.items[name] = line

    def name(self, of: str) -> Token:
        token = self.peek()
        if token.kind != WORD or token.text in KEYWORDS or token.text == "_":
            self.refuse(token.line, f"found {token.said()}; write the name of {of} here")
        if token.text.startswith("r#"):
            self.fault(token.line, f"`{token.text}` is a keyword; choose another name")
        return self.next()

    def between(self, start: int, end: int) -> str:
        """The text of the words from `start` up to `end`, without `end` and without comments, on one line."""
        said, at = "", 0
        for word in self.words[start:end]:
            if word.kind not in (DOC, INNER_DOC, NOTE):
                said += " " * (word.start > at and said != "") + word.text
                at = word.start + len(word.text)
        return said

    def skip_group(self):
        opening = self.next()
        shut = [CLOSES[opening.text]]
        while shut:
            token = self.next()
            if token.kind == END:
                self.refuse(opening.line, f"`{opening.text}` is never closed; write `{shut[-1]}` where it ends")
            if token.kind != SIGN:
                continue
            if token.text in CLOSES:
                shut.append(CLOSES[token.text])
            elif token.text == shut[-1]:
                shut.pop()
            elif token.text in CLOSES.values():
                self.refuse(token.line, f"found `{token.text}`; write `{shut[-1]}` here, which closes what is open")

    # ---- what is above an item ----

    def above(self):
        """The doc comments, attributes and note above an item, a field or a variant."""
        docs, attributes, notes = [], [], []
        while True:
            token = self.peek()
            if token.kind == DOC:
                docs.append(self.next().text)
            elif token.kind == INNER_DOC:
                self.next()
            elif token.kind == NOTE:
                notes.append(self.next())
            elif token.is_sign("#"):
                start = self.at
                self.next()
                self.take("!")
                if not self.is_next("["):
                    self.refuse(token.line, "`#` begins an attribute; write `[` behind it")
                self.skip_group()
                attributes.append(self.between(start, self.at))
            else:
                return docs, attributes, notes

    def visibility(self) -> str:
        start = self.at
        if self.take_word("pub") and self.is_next("(") and self.peek(1).is_word("crate", "super", "self", "in"):
            self.skip_group()
        return self.between(start, self.at)

    # ---- types ----

    def type(self) -> Type:
        self.depth += 1
        if self.depth > DEEPEST:
            self.refuse(self.peek().line, f"this type is nested more than {DEEPEST} deep; give a part of it a name")
        found = self.one_type()
        self.depth -= 1
        return found

    def one_type(self) -> Type:
        token = self.peek()
        if token.kind == SIGN and token.text in ("&", "*", "!", "(", "[", "<"):
            return getattr(self, {"&": "reference", "*": "pointer", "!": "never", "(": "tuple", "[": "array", "<": "projection"}[token.text])()
        if token.is_word(*NO_PATH):
            return self.no_path(NO_PATH[token.text])
        if token.kind == LIFETIME:
            return Type(self.next().text, line=token.line)
        if token.kind in (NUMBER, TEXT) or token.is_sign("{") or token.is_sign("-") or token.is_word("true", "false"):
            return self.argument()
        return self.path_type()

    def reference(self) -> Type:
        line = self.next().line
        if self.peek().kind == LIFETIME:
            self.next()
        self.take_word("mut")
        return Type("&", [self.type()], line)

    def pointer(self) -> Type:
        line = self.next().line
        self.take_word("const", "mut")
        return Type("*", [self.type()], line)

    def never(self) -> Type:
        return Type("!", line=self.next().line)

    def tuple(self) -> Type:
        line = self.next().line
        args = []
        while not self.take(")"):
            args.append(self.type())
            if not self.take(","):
                self.want(")")
                return args[0] if len(args) == 1 else Type("tuple", args, line)
        return Type("tuple", args, line) if args else Type("()", line=line)

    def array(self) -> Type:
        line = self.next().line
        item = self.type()
        if self.take("]"):
            return Type("[]", [item], line)
        self.want(";")
        start = self.at
        while not self.is_next("]"):
            if self.peek().kind == END:
                self.refuse(line, "`[` is never closed; write `]` where it ends")
            self.skip_group() if self.peek().text in CLOSES and self.peek().kind == SIGN else self.next()
        length = self.between(start, self.at)
        self.next()
        return Type("array", [item], line, length=length)

    def projection(self) -> Type:
        line = self.peek().line
        self.skip_angles()
        while self.take("::"):
            self.next()
            if self.is_next("<"):
                self.skip_angles()
        return Type("<>", line=line)

    def skip_angles(self):
        opening = self.next()
        depth = 1
        while depth:
            token = self.peek()
            if token.kind == END or token.is_sign(";"):
                self.refuse(opening.line, "`<` is never closed; write `>` where it ends")
            if token.kind == SIGN and token.text in CLOSES:
                self.skip_group()
                continue
            depth += {"<": 1, ">": -1}.get(token.text, 0) if token.kind == SIGN else 0
            self.next()

    def no_path(self, name: str) -> Type:
        """What begins with `dyn`, `impl` or `fn`, up to what ends a type."""
        line = self.peek().line
        while self.peek().kind != END and self.peek().text not in (",", ";", ">", ")", "]", "}", "="):
            if self.is_next("<"):
                self.skip_angles()
            elif self.peek().kind == SIGN and self.peek().text in CLOSES:
                if self.is_next("{"):
                    break
                self.skip_group()
            else:
                self.next()
        return Type(name, line=line)

    def argument(self) -> Type:
        """A number or a block that is handed to a const parameter."""
        token = self.peek()
        start = self.at
        if token.is_sign("{"):
            self.skip_group()
        else:
            self.take("-")
            self.next()
        return Type("#", line=token.line, length=self.between(start, self.at))

    def path_type(self) -> Type:
        token = self.peek()
        self.take("::")
        words, args, within = [], [], False
        while True:
            word = self.peek()
            if word.kind != WORD or (word.text in KEYWORDS and word.text not in ("crate", "self", "super")):
                self.refuse(word.line, f"found {word.said()}; write a type here")
            words.append(self.next().text)
            within = within or bool(args)
            if self.is_next("!"):
                return self.macro(token.line)
            if self.is_next("(") and words[-1] in ("Fn", "FnMut", "FnOnce"):
                return self.no_path("fn")
            if self.is_next("<") or (self.is_next("::") and self.peek(1).is_sign("<")):
                self.take("::")
                args = self.arguments()
            if not self.take("::"):
                break
        if within:
            return Type("<>", line=token.line)
        return Type(words[-1], args, token.line, tuple(words))

    def macro(self, line: int) -> Type:
        self.next()
        if self.peek().kind == SIGN and self.peek().text in CLOSES:
            self.skip_group()
        return Type("macro", line=line)

    def arguments(self) -> List[Type]:
        self.next()
        args = []
        while not self.take(">"):
            args.append(self.type())
            if self.take("="):
                args[-1] = self.type()
            if not self.take(","):
                self.want(">")
                break
        return args

    # ---- declarations ----

    def parameters(self) -> List[Parameter]:
        out = []
        if not self.take("<"):
            return out
        while not self.take(">"):
            self.above()
            token = self.peek()
            if token.kind == LIFETIME:
                self.next()
                self.fault(token.line, f"a lifetime has no place in an archived type; remove {token.text} and own what it borrows")
                if self.take(":"):
                    self.bounds()
            elif token.is_word("const"):
                self.next()
                name = self.name("a parameter")
                self.fault(token.line, f"a const parameter has no archived type; in place of `{name.text}` write one type for each number")
                self.bounds()
            else:
                name = self.name("a parameter")
                out.append(Parameter(name.text, self.bounds() if self.take(":") else ""))
                if self.is_next("="):
                    self.fault(token.line, f"`{name.text}` has a default; write the type at each use instead")
                    self.bounds()
            if not self.take(","):
                self.want(">")
                break
        return out

    def bounds(self) -> str:
        """What is written up to the next `,`, `=` or `>` of these parameters."""
        start = self.at
        if self.is_next("="):
            self.next()
        while self.peek().kind != END and self.peek().text not in (",", ">", "="):
            if self.is_next("<"):
                self.skip_angles()
            elif self.peek().kind == SIGN and self.peek().text in CLOSES:
                self.skip_group()
            else:
                self.next()
        return self.between(start, self.at)

    def where(self) -> str:
        if not self.take_word("where"):
            return ""
        start = self.at
        while self.peek().kind != END and not self.is_next("{") and not self.is_next(";"):
            if self.peek().kind == SIGN and self.peek().text in ("(", "["):
                self.skip_group()
            else:
                self.next()
        return self.between(start, self.at)

    def fields(self, of: str) -> List[Field]:
        opening = self.next()
        named, shut = opening.text == "{", CLOSES[opening.text]
        out: List[Field] = []
        while not self.take(shut):
            if self.peek().kind == END:
                self.refuse(opening.line, f"`{opening.text}` is never closed; write `{shut}` where the fields of {of} end")
            docs, attributes, _ = self.above()
            token = self.peek()
            if any(it.startswith("#[cfg") for it in attributes):
                self.fault(token.line, f"a field of {of} that is there only sometimes has no place; remove its `cfg`")
            seen = self.visibility()
            line = self.peek().line
            if named and self.peek().is_word("ghost"):
                self.ghost_field(of, line)
                continue
            name = self.name(f"a field of {of}").text if named else str(len(out))
            if named:
                self.want(":", f" behind the field `{name}`")
            out.append(Field(name, self.type(), line, docs, seen))
            if not self.take(","):
                self.want(shut, f" behind the field `{name}` of {of}", ",")
                break
        return out

    def ghost_field(self, of: str, line: int):
        self.fault(line, f"{of} has a ghost field, which bytes can't promise; archive a struct without it, and make this one of that")
        while self.peek().kind != END and not self.is_next("}") and not self.is_next(","):
            self.skip_group() if self.peek().text in CLOSES and self.peek().kind == SIGN else self.next()
        self.take(",")

    def struct(self, it: Declaration):
        it.parameters = self.parameters()
        it.where = self.where()
        if self.is_next("{"):
            it.fields = self.fields(f"`{it.name}`")
            return
        it.form = "unit"
        if self.is_next("("):
            it.form = "tuple"
            it.fields = self.fields(f"`{it.name}`")
            it.where = self.where() or it.where
        self.want(";", f" behind the struct `{it.name}`")

    def enum(self, it: Declaration):
        it.parameters = self.parameters()
        it.where = self.where()
        opening = self.peek()
        self.want("{", f" behind the enum `{it.name}`")
        while not self.take("}"):
            if self.peek().kind == END:
                self.refuse(opening.line, f"`{{` is never closed; write `}}` where the variants of `{it.name}` end")
            docs, attributes, _ = self.above()
            self.visibility()
            token = self.name(f"a variant of `{it.name}`")
            if any(a.startswith("#[cfg") for a in attributes):
                self.fault(token.line, f"the variant `{token.text}` is there only sometimes, so it has no tag; remove its `cfg`")
            form = "struct" if self.is_next("{") else "tuple" if self.is_next("(") else "unit"
            fields = self.fields(f"`{it.name}::{token.text}`") if form != "unit" else []
            it.variants.append(Variant(token.text, form, fields, token.line, docs))
            if self.is_next("="):
                self.fault(token.line, f"`{token.text}` has a number of its own, and tags count from 0; remove `= ..`")
                self.discriminant()
            if not self.take(","):
                self.want("}", f" behind the variant `{token.text}`", ",")
                break

    def discriminant(self):
        while self.peek().kind != END and not self.is_next(",") and not self.is_next("}"):
            self.skip_group() if self.peek().text in CLOSES and self.peek().kind == SIGN else self.next()


def derives_of(attributes: List[str]) -> List[str]:
    out = []
    for it in attributes:
        words = [w.text for w in tokens("", it[2:-1]).words]
        if words[:2] == ["derive", "("]:
            out += [a for a, b in zip(words[2:], words[3:]) if b in (",", ")") and a != ","]
    return out


def parsed(path: str, text: str) -> File:
    from .items import Items

    return Items(path, text, tokens(path, text)).read()
