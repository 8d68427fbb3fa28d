"""Rust text as `rt fmt` lays it out: lines of up to 100 columns, and longer lists with an item a line."""

import re

WIDTH = 100
CALL = 60  # how wide the arguments of a call, or a tuple, may be on one line
SHORT = 10  # arguments up to this width are filled into lines
LITERAL = 18  # how wide the fields of a struct literal may be on one line


class Group:
    """A list between brackets: on one line where it fits, else an item a line."""

    def __init__(self, head, items, close, limit=WIDTH, spaced=False, filled=False):
        self.head = head
        self.items = list(items)
        self.close = close
        self.limit = limit
        self.filled = filled
        self.space = " " if spaced and self.items else ""


class Generic:
    """`name::<generics>(arguments)`: the generics a line each where the name and they don't fit."""

    def __init__(self, name, generics, arguments, tail=""):
        self.name = name
        self.generics = list(generics)
        self.group = call(f"{name}::<{', '.join(generics)}>", arguments, tail)
        self.items = self.group.items
        self.short = call(">", arguments, tail)

    def lay(self, indent, column, tail):
        if column + len(self.group.head) <= WIDTH:
            return lay(self.group, indent, column, tail)
        lines = "".join(f"{' ' * (indent + 4)}{generic},\n" for generic in self.generics)
        return f"{self.name}::<\n{lines}{' ' * indent}{lay(self.short, indent, indent, tail)}"


def call(name, arguments, tail=""):
    """`name(arguments)`, which breaks sooner than other lists."""
    return Group(f"{name}(", arguments, f"){tail}", CALL, filled=True)


def literal(name, fields):
    """`name { fields }`."""
    return Group(f"{name} {{", fields, "}", LITERAL, spaced=True)


def pair(parts, end="()"):
    """`(a, (b, end))`."""
    return Group("(", [parts[0], pair(parts[1:], end)], ")", CALL) if parts else end


def fours(parts, end="()"):
    """`FourParts<a, b, c, d, rest>`: four at once, and pairs of those that are left."""
    return Group("FourParts<", [*parts[:4], fours(parts[4:], end)], ">") if len(parts) >= 4 else pair(parts, end)


def flat(doc):
    if isinstance(doc, str):
        return doc
    if isinstance(doc, Generic):
        doc = doc.group
    return doc.head + doc.space + inner(doc) + doc.space + doc.close


def inner(group):
    return ", ".join(flat(item) for item in group.items)


def one_line(doc):
    """Whether no list in it is too wide for one line."""
    if isinstance(doc, Generic):
        doc = doc.group
    return isinstance(doc, str) or (len(inner(doc)) <= doc.limit and all(one_line(item) for item in doc.items))


def lay(doc, indent=0, column=0, tail=0):
    """The text of `doc`, which begins at `column` of a line that is indented by `indent`; `tail` columns follow its end."""
    if isinstance(doc, Generic):
        return doc.lay(indent, column, tail)
    one = flat(doc)
    if isinstance(doc, str) or not doc.items:
        return one
    if one_line(doc) and column + len(one) + tail <= WIDTH:
        return one
    deeper = indent + 4
    if doc.filled and all(len(flat(item)) <= SHORT for item in doc.items):
        return f"{doc.head}\n{fill([flat(item) for item in doc.items], deeper)}{' ' * indent}{doc.close}"
    lines = "".join(f"{' ' * deeper}{lay(item, deeper, deeper, 1)},\n" for item in doc.items)
    return f"{doc.head}\n{lines}{' ' * indent}{doc.close}"


def fill(words, indent):
    """Lines of words, each with a comma."""
    lines, line = [], " " * (indent - 1)
    for word in words:
        if len(line) + len(word) + 2 > WIDTH:
            lines.append(line)
            line = " " * (indent - 1)
        line += f" {word},"
    return "\n".join(lines + [line]) + "\n"


def statement(indent, before, doc, after):
    """A line of `before`, `doc` and `after`."""
    return f"{' ' * indent}{before}{ended(lay(doc, indent, indent + len(before), len(after)), indent, after)}\n"


def ended(text, indent, after):
    """With what follows it: a brace behind generics that have a line each has one, too."""
    if after == " {" and text.split("\n")[-1].lstrip().startswith(">("):
        return f"{text}\n{' ' * indent}{{"
    return text + after


def implementation(generics, name, arguments, of):
    """The head of an impl: of the trait `name` with these arguments, if any, for a type."""
    said = f"impl<{', '.join(generics)}>" if generics else "impl"
    trait = name + (f"<{', '.join(arguments)}>" if arguments else "")
    one = f"{said} {trait} for {of} {{"
    if len(one) <= WIDTH:
        return one
    if len(f"{said} {trait}") <= WIDTH:
        return f"{said} {trait}\n    for {of} {{"
    if arguments and len(f"{said} {name}<") <= WIDTH:
        lines = "".join(f"    {argument},\n" for argument in arguments)
        return f"{said} {name}<\n{lines}> for {of} {{"
    lines = "".join(f"    {generic},\n" for generic in generics)
    return f"impl<\n{lines}> {trait} for {of} {{"


def natural(word):
    """The order in which names of a `use` are written: numbers by their size."""
    return [(1, int(x), "") if x.isdigit() else (0, 0, x) for x in re.findall(r"\d+|\D+", word)]


def use(path, names):
    """`use path::{names};`, filled up to the width."""
    names = sorted(set(names), key=lambda w: (w[0].islower(), natural(w)))
    if len(names) == 1:
        return f"use {path}::{names[0]};\n"
    one = f"use {path}::{{{', '.join(names)}}};"
    if len(one) <= WIDTH:
        return one + "\n"
    return f"use {path}::{{\n{fill(names, 4)}}};\n"


def signature(head, generics, arguments, result, indent=0):
    """A function up to its contract: `head` is `fn name` with what stands before it, `result` a type or nothing."""
    pad = " " * indent
    start = f"{pad}{head}" + (f"<{', '.join(generics)}>" if generics else "")
    answer = f" -> {flat(result)}" if result else ""
    one = f"{start}({', '.join(flat(a) for a in arguments)}){answer}"
    if len(one) <= WIDTH and all(one_line(a) for a in arguments) and one_line(result or ""):
        return one
    if len(start) + 1 > WIDTH:
        start = f"{pad}{head}<\n" + "".join(f"{pad}    {g},\n" for g in generics) + f"{pad}>"
        line = f"{pad}>({', '.join(flat(a) for a in arguments)}){answer}"
        if len(line) <= WIDTH and all(one_line(a) for a in arguments) and one_line(result or ""):
            return start[:-len(f"{pad}>")] + line
    lines = "".join(f"{pad}    {lay(a, indent + 4, indent + 4, 1)},\n" for a in arguments)
    end = f"{pad}) -> " if result else f"{pad})"
    return f"{start}(\n{lines}{end}{lay(result, indent, len(end)) if result else ''}"
