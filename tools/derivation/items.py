"""The items of a file one after another: declarations are read, of the others what they are called and what they bring in."""

from typing import List, Tuple

from .model import Declaration
from .parse import CLOSES, DEEPEST, Alias, Declared, File, Parser, derives_of
from .tokens import END, SIGN

# Words that stand before what an item is.
BEFORE = ("unsafe", "async", "final", "default")
NAMED = ("struct", "enum", "union", "trait", "mod", "type", "const", "static", "fn")


class Items(Parser):
    def read(self) -> File:
        while True:
            docs, attributes, notes = self.above()
            if self.peek().kind == END:
                return self.file
            self.item(docs, attributes, notes)

    def item(self, docs, attributes, notes):
        seen = self.visibility()
        self.is_shown = seen != ""
        token = self.peek()
        if token.is_word("struct", "enum", "union"):
            self.declaration(seen, docs, attributes, notes)
        elif token.is_word("use"):
            self.next()
            self.use(self.file.uses, (), True)
        elif token.is_word("ghost") and self.peek(1).is_word("use"):
            self.at += 2
            self.use(self.file.ghost_uses, (), False)
        elif token.is_word("type"):
            self.alias()
        elif token.is_word("impl"):
            self.implementation()
        elif token.is_word("const") and not self.peek(1).is_word("fn", *BEFORE):
            self.constant()
        else:
            self.other()

    def declaration(self, seen, docs, attributes, notes):
        self.faults = []
        kind = self.next()
        name = self.name(f"the {kind.text}")
        it = Declaration(kind.text, name.text, visibility=seen, docs=docs, attributes=attributes, path=self.path, line=name.line)
        it.derives = derives_of(attributes)
        it.archived = f"Archived{it.name}"
        if notes:
            it.archived, it.named = notes[-1].text, True
            if not it.archived.isidentifier() or not it.archived.isascii():
                self.fault(notes[-1].line, f"`{it.archived}` is no name; write `// name: Archived{it.name}`, or remove the line")
        self.declare(it.name, it.line)
        if kind.text == "union":
            self.fault(it.line, f"a union has no format; write an enum in place of `{it.name}`")
            self.parameters()
            self.where()
            if self.is_next("{"):
                self.skip_group()
        elif kind.text == "struct":
            self.struct(it)
        else:
            self.enum(it)
        is_test = any(a.replace(" ", "") == "#[cfg(test)]" for a in attributes)
        self.file.declared.append(Declared(it, self.faults, is_test))
        self.faults = []

    # ---- use ----

    def use(self, into: dict, before: Tuple[str, ...], globs: bool):
        self.tree(into, before, globs)
        self.want(";", " in a `use` item")

    def tree(self, into: dict, before: Tuple[str, ...], globs: bool):
        """A part of a `use` item: a path, a list in braces, or `*`."""
        words = list(before)
        self.take("::")
        while True:
            if self.take("{"):
                self.list(into, tuple(words), globs)
                return
            if self.take("*"):
                if globs:
                    self.file.globs.append(tuple(words))
                return
            words.append(self.use_name(globs))
            if not self.take("::") and not self.take("."):
                break
        name, line = words[-1], self.peek(-1).line
        if self.take_word("as"):
            name = self.use_name(globs)
        if words[-1] == "self":
            words.pop()
            name = words[-1] if name == "self" and words else name
        if into.get(name, tuple(words)) != tuple(words):
            self.file.twice.append((name, line))
        into[name] = tuple(words)
        self.show(name)
        self.file.use_lines[name] = line

    def list(self, into: dict, before: Tuple[str, ...], globs: bool):
        self.depth += 1
        if self.depth > DEEPEST:
            self.refuse(self.peek().line, "this `use` item is nested too deep; write several")
        while not self.take("}"):
            self.tree(into, before, globs)
            if not self.take(","):
                self.want("}", " in a `use` item")
                break
        self.depth -= 1

    def use_name(self, plain: bool) -> str:
        """A name of a `use` item; among ghost ones an operator or a name with dashes is one."""
        token = self.peek()
        if plain or token.kind == END:
            return token.text if self.take_word(token.text) else self.name("what is brought in").text
        start = self.at
        while self.peek().kind != END and not any(self.is_next(it) for it in (",", "}", "{", ";", "::", ".")) and not self.peek().is_word("as"):
            self.next()
        if start == self.at:
            self.refuse(token.line, f"found {token.said()}; write a name in the `use` item here")
        return self.between(start, self.at)

    # ---- the others ----

    def alias(self):
        self.next()
        name = self.name("the type")
        parameters = [it.name for it in self.parameters()]
        self.faults = []
        self.where()
        self.want("=", f" behind the type `{name.text}`")
        self.file.aliases[name.text] = Alias(name.text, parameters, self.type(), name.line)
        self.declare(name.text, name.line)
        self.where()
        self.want(";", f" behind the type `{name.text}`")

    def constant(self):
        self.next()
        name = self.peek()
        start = self.at
        while self.peek().kind != END and not self.is_next(";"):
            self.skip_group() if self.peek().kind == SIGN and self.peek().text in CLOSES else self.next()
        words = self.words[start:self.at]
        self.want(";", " behind a constant")
        self.declare(name.text, name.line)
        value = number_of(words[-1].text) if len(words) > 1 and words[-2].is_sign("=") else None
        if value is not None:
            self.file.numbers[name.text] = value

    def implementation(self):
        start = self.at
        self.next()
        if self.is_next("<"):
            self.skip_angles()
        heads: List[str] = [self.type().name]
        if self.take_word("for"):
            heads.append(self.type().name)
        if len(heads) == 2:
            self.file.impls.append((heads[0], heads[1]))
        self.at = max(self.at, start + 1)
        self.body()

    def other(self):
        """A function, a trait, a module, a macro or a static: passed over."""
        token = self.peek()
        start = self.at
        while self.peek().is_word("const", "extern", *BEFORE) or self.peek().kind == "text":
            self.next()
        if self.peek().is_word(*NAMED) and self.peek(1).kind == "word":
            self.declare(self.peek(1).text, self.peek(1).line)
        if self.peek().kind == SIGN and not self.is_next("{"):
            said = self.peek()
            self.refuse(said.line, f"found `{said.text}`; write an item here, as `struct Point {{ .. }}`")
        if self.peek().kind == END:
            self.refuse(token.line, "found the end; write an item here, as `struct Point { .. }`")
        self.body()
        if self.at == start:
            self.next()

    def body(self):
        """Passes the rest of an item: up to its `;`, or its last group in braces. A clause's braces aren't the last ones."""
        clause, bounds = False, False
        while True:
            token = self.peek()
            if token.kind == END:
                self.refuse(token.line, "found the end within an item; write what is missing")
            if token.is_sign(";"):
                self.next()
                return
            if token.kind == SIGN and token.text in CLOSES.values():
                self.refuse(token.line, f"found `{token.text}`, which closes nothing; remove it")
            clause = clause or token.is_word("requires", "ensures")
            bounds = bounds or token.is_word("where")
            if token.kind == SIGN and token.text in CLOSES:
                before = self.words[self.at - 1] if self.at else token
                inner = clause or token.text != "{" or (not bounds and (before.is_sign("<") or before.is_sign(",")))
                self.skip_group()
                if not inner:
                    return
                if token.text == "{":
                    clause = False
                continue
            self.next()


def number_of(text: str):
    """The number that a literal writes, or `None`."""
    plain = text.replace("_", "")
    for suffix in ("usize", "u8", "u16", "u32", "u64"):
        plain = plain[: -len(suffix)] if plain.endswith(suffix) and not plain.startswith("0x") else plain
    try:
        return int(plain, 0) if plain != "0" and not plain.isdigit() else int(plain)
    except ValueError:
        return None
