"""What the contracts of public calls and the definitions of specs/ say, read as text: for tools/trusted and tools/definitions."""
import functools
import pathlib
import re

ROOT = pathlib.Path(__file__).resolve().parent.parent
CRATES = ROOT / "crates"
# The libraries, by crates.txt: all but what the benchmark calls.
LIBRARIES = re.findall(r"^(archive_\w+):", (ROOT / "crates.txt").read_text(), re.M)
NAME = r"[^\s:(){};,.]+"
WORD = re.compile(r"[^\s(){};,.⟦⟧∥λ]+")
DEFINED = re.compile(rf"^( *)(?:pub )?(?:abbrev |unfoldable )(?:pub )?({NAME}) :")
MADE = re.compile(rf"^( *)(?:pub )?(record|data) ({NAME})")
STATED = re.compile(rf"^( *)(?:pub )?({NAME}) :")
BLOCK = re.compile(r"^( *)((?:abbrev )?mutual|module _.*where)\s*$")
USE = re.compile(r"use Rattle\.(\w+)\.specs\.([\w.]+?)\.\{([^}]*)\}")
MEMBER = re.compile(r"^ *ghost (\w+)( ?[:=]) \{")


class Definition:
    def __init__(self, key, kind, path):
        self.key, self.kind, self.path = key, kind, path
        self.lines = []
        self.above = []
        # The one whose comment is for it, too: the first of a `mutual` block, or of definitions that follow each other under one comment.
        self.head = self

    @property
    def comment(self):
        """How many lines of comment stand above it."""
        return len(self.above)

    def text(self):
        return "\n".join(line.split(" -- ")[0] for line in self.lines)


def imported(text):
    """Each name that a file brings in, and where it stands."""
    found = {}
    for crate, module, names in USE.findall(text):
        for name in names.split(","):
            name = name.strip()
            if name and not module.startswith("declared"):
                here, _, other = name.partition(" as ")
                found[(other or here).strip()] = (crate, module, here.strip())
    return found


def definitions(crate, path, found):
    """The definitions and lemmas of one file."""
    module = ".".join(path.relative_to(CRATES / crate / "specs").with_suffix("").parts)
    lines = path.read_text().split("\n")
    blocks = []
    current = last = None
    above = []
    constructors = {}
    for line in lines:
        if not line.strip() or line.startswith(("use ", "pub use ", "pub mod ")):
            above = []
            continue
        indent = len(line) - len(line.lstrip())
        if line.lstrip().startswith("--"):
            above.append(line.strip()[2:].strip())
            if current and indent > current.indent:
                current.lines.append(line)
            continue
        blocks = [block for block in blocks if block[0] < indent]
        block = BLOCK.match(line)
        if block:
            blocks.append((indent, "abbrev" in block[2], [] if "mutual" in block[2] else None))
            current = None
            if not re.match(r" *(abbrev )?mutual", line):
                above = []
            continue
        if current and indent > current.indent:
            current.lines.append(line)
            part = STATED.match(line)
            if part and current.kind == "definition" and current.made == "data":
                constructors[part[2]] = current.key
            above = []
            continue
        started = None
        if MADE.match(line):
            started = (MADE.match(line)[3], "definition", MADE.match(line)[2])
        elif DEFINED.match(line):
            started = (DEFINED.match(line)[2], "definition", None)
        elif STATED.match(line):
            kind = "definition" if any(short for _, short, _ in blocks) else "lemma"
            started = (STATED.match(line)[2], kind, None)
        if started:
            name, kind, made = started
            current = Definition((crate, module, name), kind, path)
            current.indent, current.made, current.above = indent, made, above
            found[current.key] = current
            for together in [block[2] for block in blocks if block[2] is not None][-1:]:
                together.append(current)
                current.head = together[0]
            if kind == "definition":
                if current.head is current and not above and last:
                    current.head = last.head
                last = current
        if current:
            current.lines.append(line)
        above = []
    for name, key in constructors.items():
        found.setdefault((crate, module, name), found[key])
    return module


def hidden(path):
    """Whether a file's module is private, and which of its names are shown."""
    private, shown = False, set()
    here = path
    while here.name != "lib.rt":
        parent = here.parent.with_suffix(".rt") if here.parent.name != "src" else here.parent / "lib.rt"
        text = parent.read_text()
        if not re.search(rf"^pub mod {here.stem};", text, re.M):
            private = True
            for names in re.findall(rf"pub use {here.stem}::(\{{[^}}]*\}}|\w+)", text):
                shown |= set(re.findall(r"\w+", names))
        here = parent
    return private, shown


def implementor(owner):
    """The type whose calls an `impl` without a trait has."""
    depth, rest = 0, owner.removeprefix("impl")
    for at, letter in enumerate(rest):
        depth += (letter == "<") - (letter == ">" and rest[at - 1] not in "-=")
        if depth == 0 and letter != "<":
            found = re.match(r"\s*(\w+)", rest[at + (letter == ">") :])
            return found[1] if found else None
    return None


@functools.cache
def public_types():
    """The types that users reach: of a public module, or passed on by one. Their calls are public wherever they stand."""
    found = set()
    for path in library_files():
        private, shown = hidden(path)
        names = re.findall(r"^pub (?:struct|enum) (\w+)", path.read_text(), re.M)
        found |= {it for it in names if not private or it in shown}
    return found


def roots(path, only=None):
    """The clauses of the public contracts of a file, or of those of its calls that are named alone."""
    private, shown = hidden(path)
    clauses, owner, public, clause = [], "", True, None
    lines = path.read_text().split("\n")
    for number, line in enumerate(lines):
        text = line.strip()
        if re.match(r"(pub(\(crate\))? )?(trait|impl|struct|enum)\b", line):
            owner = line
            if line.startswith("impl"):
                # A long head goes on below.
                owner = " ".join("\n".join(lines[number:]).split("{")[0].split())
        call = re.match(r"(pub(?:\(crate\))? )?(?:final |const )*fn (\w+)", text)
        if call:
            method = owner and line.startswith("    ") and (re.match(r"(pub )?trait", owner) or " for " in owner)
            of_type = line.startswith("    ") and implementor(owner) in public_types()
            open_call = call[1] == "pub " and (not private or call[2] in shown or of_type)
            public = bool(method or open_call) and (only is None or call[2] in only)
        if clause is None and re.match(r"(requires|ensures)\*? ", text) and public:
            clause = ""
        member = MEMBER.match(line)
        if clause is None and only is None and member and (member[2].strip() == ":" or re.search(r"\b(trait|impl)\b", owner)):
            if not re.match(r"(pub(\(crate\))? )?(struct|enum)", owner):
                clause = ""
        if clause is not None:
            clause += " " + text
            if clause.count("{") <= clause.count("}"):
                clauses.append(clause)
                clause = None
    return clauses


class Specs:
    """All definitions of the libraries' specs/, and what each word of a file stands for."""

    def __init__(self):
        self.found, self.names = {}, {}
        for crate in LIBRARIES:
            for path in sorted((CRATES / crate / "specs").rglob("*.antt")):
                definitions(crate, path, self.found)
                self.names[path] = imported(path.read_text())

    def meant(self, text, brought, crate=None, module=None):
        """The definitions that the words of a text name, in order."""
        for word in WORD.findall(text):
            definition = self.found.get((crate, module, word)) or self.found.get(brought.get(word))
            if definition and definition.kind == "definition":
                yield definition

    def named_by(self, definition):
        crate, module, _ = definition.key
        return self.meant(definition.text(), self.names[definition.path], crate, module)

    def levels(self, first, known=()):
        """Those definitions, then those that they name, and so on: each once, at its first level, and none that is known."""
        level, seen = [], {it.key for it in known}
        pending = list(first)
        while pending:
            for it in pending:
                if it.key not in seen:
                    seen.add(it.key)
                    level.append(it)
            if not level:
                return
            yield level
            pending = [named for it in level for named in self.named_by(it)]
            level = []


def library_files():
    for crate in LIBRARIES:
        yield from sorted((CRATES / crate / "src").rglob("*.rt"))
