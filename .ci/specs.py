"""The definitions of every crate's specs/, and which of them the clauses of public calls rest on.

A public clause is a `requires` or an `ensures` that a caller in another crate sees: of a `pub fn`, of a method of a
`pub trait` or of its `impl`, if the crate's root makes the module or the item public. What a `pub trait` says of its
ghost members, what an `impl` says of a call in such a member (`λ old new ..`), and the value as which contracts see a
type, count as public clauses, too. A clause rests on the definitions that it names, and on those that these name in
turn.
"""
import re
from pathlib import Path

TOP = Path(__file__).resolve().parent.parent
CRATES = TOP / "crates"
NAME = r"[^\W\d][\w'-]*"
PATH = re.compile(rf"{NAME}(?:\.{NAME})*")
HEAD = re.compile(rf"^(?:abbrev |unfoldable )?(?:pub )?(?:record |data )?({NAME})")
INNER = re.compile(rf"^  (?:abbrev |unfoldable )?pub (?:record |data )?({NAME})")


class Definition:
    """A definition: its names (several for a block of them), its lines, and what the comment directly above it says."""

    def __init__(self, module, names, lines, says):
        self.module, self.names, self.lines, self.says = module, names, lines, says

    @property
    def key(self):
        return (*self.module.key, self.names[0])

    def text(self):
        return "\n".join(self.lines)

    def size(self):
        """The lines that are neither empty nor a comment."""
        return sum(1 for line in self.lines if line.strip() and not line.strip().startswith("--"))


def said_by(lines):
    """The comment directly above a definition, without an empty line or a heading between them."""
    above = []
    for line in reversed(lines):
        if not line or line.startswith("-- ----"):
            break
        above.insert(0, line[2:].strip())
    return " ".join(above)


class Module:
    """A file of a crate's specs/."""

    def __init__(self, crate, path):
        self.crate, self.path = crate, path
        self.name = ".".join(path.relative_to(CRATES / crate / "specs").with_suffix("").parts)
        self.key = (crate, self.name)
        self.imports, self.definitions = {}, []
        current, comments = None, []
        for line in path.read_text().splitlines():
            if line.startswith(("use ", "pub use ")):
                self.bring(line)
            elif not line or line.startswith("--"):
                comments.append(line)
            elif line.startswith((" ", "}", ")")) and current:
                inner = INNER.match(line) if current.lines[0].startswith("module ") else None
                current.names += [inner.group(1)] if inner else []
                current.lines += [*comments, line]
                comments = []
            elif not line.startswith(("pub mod ", "mod ")):
                name = HEAD.match(line).group(1)
                if current and name in current.names and not line.startswith(("pub ", "abbrev ", "unfoldable ")):
                    current.lines += [*comments, line]
                else:
                    names = [] if line.startswith("module ") else [name]
                    current = Definition(self, names, [line], said_by(comments))
                    self.definitions.append(current)
                comments = []
        self.local = {name: it for it in self.definitions for name in it.names}

    def bring(self, line):
        found = re.match(r"(pub )?use ([\w.]+?)(?:\.\{([^}]*)\})?(?: as (\w+))?\s*$", line)
        handed_on, base, names, alias = found.groups()
        for item in (names or "").split(","):
            words = item.strip().split(" as ")
            if words[0]:
                self.imports[words[-1].strip()] = (base, words[0].strip(), bool(handed_on))
        if names is None:
            self.imports[alias or base.split(".")[-1]] = (base, None, bool(handed_on))


def crates():
    """The crates of crates.txt, in its order."""
    for line in (TOP / "crates.txt").read_text().splitlines():
        line = line.split("#")[0].strip()
        if line:
            yield line.split(":")[0].split()[0]


def modules():
    found = [Module(crate, path) for crate in crates() for path in sorted((CRATES / crate / "specs").rglob("*.antt"))]
    return {it.key: it for it in found}


def definition_of(every, base, name):
    """The definition that a module's path and a name mean, if it is one of this repository."""
    found = re.match(r"Rattle\.(\w+)\.specs\.(.*)$", base)
    module = every.get(found.groups()) if found else None
    if module is None:
        return None
    if name in module.local:
        return module.local[name]
    base, handed_on, is_public = module.imports.get(name, (None, None, False))
    return definition_of(every, base, handed_on) if is_public and handed_on else None


def cited(every, text, imports, local):
    """The definitions that a text names."""
    found = set()
    text = re.sub(r'"[^"]*"|--[^\n]*', " ", text)
    for path in PATH.findall(text):
        words = path.split(".")
        if words[0] in local:
            found.add(local[words[0]])
        elif words[0] in imports:
            base, name = imports[words[0]][:2]
            name = name or (words[1] if len(words) > 1 else None)
            found.add(definition_of(every, base, name) if name else None)
    return found - {None}


def closure(every, roots, text_of=Definition.text):
    """The definitions on which these rest, themselves among them."""
    found, left = set(), list(roots)
    while left:
        it = left.pop()
        if it not in found:
            found.add(it)
            left += cited(every, text_of(it), it.module.imports, it.module.local)
    return found


def matched(text, start):
    """The end of the brackets that open at `start`."""
    depth = 0
    for place in range(start, len(text)):
        depth += {"{": 1, "}": -1}.get(text[place], 0)
        if depth == 0:
            return place
    return len(text)


def ghost_imports(text):
    """What `ghost use` lines bring, as a module's imports."""
    brought = {}
    for base, names, alias in re.findall(r"ghost use ([\w.]+?)(?:\.\{([^}]*)\})?(?: as (\w+))?;", text):
        for item in names.split(","):
            words = item.strip().split(" as ")
            if words[0]:
                brought[words[-1].strip()] = (base, words[0].strip())
        if not names:
            brought[alias or base.split(".")[-1]] = (base, None)
    return brought


def exported(source):
    """The modules and the items that a crate's root makes public."""
    found, items = set(), set()
    for root in [source / name for name in ("lib.rt", "main.rt") if (source / name).exists()]:
        text = root.read_text()
        found |= set(re.findall(r"^pub mod (\w+)", text, re.M))
        for names in re.findall(r"^pub use [\w:]*?(\w+|\{[^}]*\});", text, re.M):
            items |= set(re.findall(r"\w+", names))
    return found, items


def owner(text, start):
    """The trait or the type whose function begins at `start`, or an empty text."""
    name = ""
    for found in re.finditer(r"^(?:pub trait|trait|impl)\b([^{;]*)\{", text[:start], re.M):
        if matched(text, found.end() - 1) > start:
            rest = re.sub(r"\bwhere\b.*", "", found.group(1), flags=re.S).split(" for ")[-1]
            name = re.search(r"\b([A-Z]\w*)", re.sub(r"^\s*<[^>]*>", "", rest)).group(1)
    return name


def is_public(text, start, name, items):
    """Whether the function that begins at `start` is seen outside; `items` are those that are, or None if all are."""
    head = None
    for found in re.finditer(r"^(pub trait|trait|impl)\b([^{;]*)\{", text[:start], re.M):
        if matched(text, found.end() - 1) > start:
            head = found
    line = text[text.rfind("\n", 0, start) + 1 : start]
    has_word = re.search(r"\bpub $", line) is not None
    if head is None:
        return has_word and (items is None or name in items)
    kind, rest = head.groups()
    rest = re.sub(r"\bwhere\b.*", "", rest, flags=re.S)
    of = rest.split(" for ")[-1] if kind == "impl" else rest
    subject = re.search(r"\b([A-Z]\w*)", re.sub(r"^\s*<[^>]*>", "", of))
    seen = subject is not None and (items is None or subject.group(1) in items)
    return seen and (kind == "pub trait" or has_word or " for " in rest)


def clauses(text, items):
    """The public clauses of a file: the function, after its type or trait, and the clause."""
    for function in re.finditer(r"\bfn (\w+)", text):
        if not is_public(text, function.start(), function.group(1), items):
            continue
        place = function.end()
        while True:
            clause = re.compile(r"(?:requires|ensures)\*?\b[^{;]*\{").search(text, place)
            stop = re.compile(r"[{;]").search(text, place)
            if not clause or not stop or clause.end() - 1 > stop.start():
                break
            place = matched(text, clause.end() - 1) + 1
            of = owner(text, function.start())
            yield (f"{of}::{function.group(1)}" if of else function.group(1)), text[clause.start() : place]
    for trait in re.finditer(r"^pub trait[^{]*\{", text, re.M):
        body = text[trait.end() : matched(text, trait.end() - 1)]
        yield from (("", it) for it in re.findall(r"ghost \w+: \{(.*?)\};", body, re.S))
    yield from (("", it) for it in re.findall(r"ghost Value = \{([^}]*)\}", text))
    for member in re.finditer(r"ghost (\w+) = \{ (λ old new .*?) \};", text):
        yield f"{owner(text, member.start())}::{member.group(1)}", member.group(2)


def sources(crate):
    """The files of a crate's code: the text without comments, and the items that are seen outside (None for all)."""
    source = CRATES / crate / "src"
    public, items = exported(source)
    for path in sorted(source.rglob("*.rt")):
        parts = path.relative_to(source).with_suffix("").parts
        text = re.sub(r"//.*", "", path.read_text())
        yield path, text, None if parts[0] in public or parts[0] in ("lib", "main") else items


def roots(every, crate, only=None):
    """The definitions that the public clauses of a crate name; `only` takes a function's name and a clause."""
    found = set()
    for _, text, items in sources(crate):
        brought = ghost_imports(text)
        for function, clause in clauses(text, items):
            if only is None or only(function, clause):
                found |= cited(every, clause, brought, {})
    return found
