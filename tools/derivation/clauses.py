"""Contracts on lines of up to 100 columns: each clause, and each ghost member, that is wider stands on several lines, as `rt fmt` keeps them."""

import re

from .layout import WIDTH

CLAUSE = re.compile(r"^ *((requires|ensures)( \w+)? \{|ghost \w+(: | = )\{)")
SIGNS = {"→", "↔", "≡", "≢", "×", "⊎", "+", "++", "≤", "<", "∙"}
OPENING, CLOSING = "(⟦{[", ")⟧}]"
# What is in these brackets has an item a line where it doesn't fit.
BLOCK = re.compile(r"\belim( [^\[\]|]+)? \[ |\brecord \{ ")


def clauses(text):
    """The text with its clauses so."""
    lines, out = text.split("\n"), []
    while lines:
        taken = whole(lines)
        if taken and any(len(line) > WIDTH for line in lines[:taken]):
            out += laid(" ".join([lines[0].strip(), *(line.strip() for line in lines[1:taken])]), len(lines[0]) - len(lines[0].lstrip()))
        else:
            out += lines[: taken or 1]
        del lines[: taken or 1]
    return "\n".join(out)


def whole(lines):
    """How many lines a clause takes that begins with the first, or 0: none does, or it has its items a line each already."""
    if not CLAUSE.match(lines[0]):
        return 0
    depth = 0
    for number, line in enumerate(lines, 1):
        if "//" in line or (number > 1 and line.lstrip().startswith("| ")) or line.endswith("record {"):
            return 0
        depth += sum((sign in OPENING) - (sign in CLOSING) for sign in bare(line))
        if depth == 0:
            return number if re.search(r"\}[;,]?$", line) else 0
    return 0


def bare(line):
    """The line with no text in it, of the same length."""
    return re.sub(r'"[^"]*"', lambda it: '"' * len(it[0]), line)


def laid(text, indent):
    """The lines of a clause, or of an item of one: the first one is indented by `indent`, the others by four more."""
    line, out = " " * indent + text, []
    while len(line) > WIDTH:
        here = len(line) - len(line.lstrip())
        block = wide_block(line)
        if block:
            begin, end = block
            out.append(line[:begin].rstrip())
            for item in items(line[begin:end].strip(), line[end]):
                out += laid(item, here + 2)
            line = " " * here + line[end:]
            continue
        at = best(line, here)
        if not at:
            break
        out.append(line[:at])
        line = " " * (indent + 4) + line[at + 1 :]
    return [*out, line]


def wide_block(line):
    """Where the first block's items begin and end that begins in the line and doesn't end in it, if there is one."""
    at, line = 0, bare(line)
    while (found := BLOCK.search(line, at)) and found.end() <= WIDTH:
        depth, end = 1, found.end()
        while depth:
            depth += (line[end] in OPENING) - (line[end] in CLOSING)
            end += 1
        if end > WIDTH:
            return found.end(), end - 1
        at = end
    return None


def items(text, close):
    """The arms of an `elim`, or the fields of a record."""
    mark = "|" if close == "]" else ";"
    depth, begin, found = 0, 0, []
    for at, sign in enumerate(bare(text)):
        depth += (sign in OPENING) - (sign in CLOSING)
        if depth == 0 and sign == mark:
            found.append(text[begin:at].strip())
            begin = at + 1
    found = [it for it in [*found, text[begin:].strip()] if it]
    return [f"| {it}" for it in found] if mark == "|" else [f"{it};" for it in found]


def best(line, indent):
    """Where a line ends: at the space in its second half at which the fewest brackets are open, before a sign if it can; or at any space.
    None is within a type, or the arms of an `elim`."""
    depth, types, found = 0, 0, []
    for at, sign in enumerate(bare(line)[: WIDTH + 1]):
        depth += (sign in OPENING) - (sign in CLOSING)
        types += (sign in "⟦[") - (sign in "⟧]")
        if sign == " " and at > indent and not types:
            before, after = line[:at].rsplit(" ", 1)[-1], line[at + 1 :].split(" ", 1)[0]
            if before.lstrip("(") in SIGNS | {"ghost", "λ", "{", ":", "=", "|"} or after in ("}", "};", "{", "[", ":", "=", "↦"):
                continue
            found.append((depth, after not in SIGNS, -at))
    late = [it for it in found if -it[2] > indent + (WIDTH - indent) // 2]
    return -min(late or found, default=(0, 0, 0))[2]
