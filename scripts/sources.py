"""Reads the sources for scripts/api.py: items of `.rt` files, words of `.antt` files, wrong bodies of `.edit` files."""

import re
from functools import cache
from pathlib import Path

ROOT = Path(__file__).resolve().parent.parent
CRATES = ["rstar_base", "rstar", "rstar_run"]
TESTS = re.compile(r"(^|[/_])tests(/|\.rt$)")
HEAD = re.compile(r"( {0}| {4})(?:(pub) |pub\(\w+\) )?(fn|struct|enum|trait|type|const|impl|ghost)\b")
CLAUSE = re.compile(r"\s*(requires|ensures)\*? ?(\w*) ?\{ ?(.*)")
WORD = re.compile(r"(?:abbrev |unfoldable )*pub (?:record |data )?([^\s:({]+)")


class Item:
    """An item of a source file: its lines, head, docstring and clauses, and the impl or trait around it."""

    def __init__(self, path, lines, number, docs, owner):
        self.path, self.first, self.docs, self.owner = path, number, docs, owner
        indent, self.public, self.kind = HEAD.match(lines[number]).groups()
        head, self.clauses, at = [], [], number
        while lines[at] != indent + "{" and not lines[at].endswith((" {", ";", "{}")):
            at += 1
        for line in lines[number:at + 1]:
            clause = CLAUSE.match(line)
            if clause and self.kind == "fn":
                self.clauses.append(list(clause.groups()))
            elif self.clauses:
                self.clauses[-1][2] += " " + line.strip()
            else:
                head.append(line.strip())
        if lines[at].endswith("{"):
            while lines[at] not in (indent + "}", indent + "};"):
                at += 1
        self.head, self.last = " ".join(head), at
        named = re.search(rf"\b{self.kind} (\w+)", self.head)
        impl = re.match(r"impl(?:<.*?>)? (?:.* for )?(\w+)", self.head)
        self.name = impl[1] if impl else named[1] if named else ""


@cache
def items(path):
    """The items of a source file, in order; those of an impl or a trait have it as their owner."""
    lines, docs, owner, found = path.read_text().splitlines(), [], None, []
    for number, line in enumerate(lines):
        if line.strip().startswith("///"):
            docs.append(line.strip()[3:].removeprefix(" "))
        elif HEAD.match(line):
            inner = line.startswith(" ")
            if not inner or owner and number <= owner.last:
                found.append(Item(path, lines, number, docs, owner if inner else None))
                owner = owner if inner else found[-1]
            docs = []
        elif line.strip() and not line.strip().startswith("#["):
            docs = []
    return found


def sources(crate):
    """The source files of a crate without its tests, each before those of its submodules."""
    paths = sorted((ROOT / "crates" / crate / "src").rglob("*.rt"), key=lambda path: path.with_suffix("").parts)
    return [path for path in paths if not TESTS.search(str(path))]


def module_of(path):
    """The module of a source file, as `rstar::rtree`."""
    crate, _, *parts = path.relative_to(ROOT / "crates").with_suffix("").parts
    return "::".join([crate, *parts]).removesuffix("::lib")


class Word:
    """A word that contracts cite: its file, the comment above it, and its lines."""

    def __init__(self, path, name, indent, comment, line):
        self.crate, self.path, self.name, self.indent = path.parts[-3], path, name, indent
        self.comment, self.lines = comment, [line]

    def own(self):
        """Its parameters, where it is a record, and its equations or fields; none where these are a type's private ones."""
        first, *rest = [line.strip() for line in self.lines if not line.strip().startswith("--")]
        if first.startswith("unfoldable") or re.search(r"\bit\.", " ".join(rest)):
            return [], []
        if " record " in first:
            head, _, body = " ".join([first, *rest]).partition(" where ")
            names = [name for group in re.findall(r"\(([^():]+) :", head) for name in group.split()]
            return names, [field.strip() for field in re.split(r"(?:^| )pub (?=[\w-]+ :)", body) if field.strip()]
        found = []
        for line in rest:
            if line.split()[0] == self.name:
                found.append(line)
            elif found:
                found[-1] += " " + line
        return [], found


def words(crate):
    """The public words of a crate's specs, by crate, file and name."""
    found = {}
    for path in sorted((ROOT / "crates" / crate / "specs").glob("*.antt")):
        word, comment, above = None, [], False
        for line in path.read_text().splitlines():
            bare, indent, named = line.strip(), len(line) - len(line.lstrip()), WORD.match(line.strip())
            if word and bare and (indent > word.indent or bare.split()[0] in (word.name, "}")):
                word.lines.append(line)
            elif bare.startswith("--"):
                comment = [*comment, bare[3:]] if above else [bare[3:]]
            elif named:
                word = Word(path, named[1], indent, " ".join(comment) if above else "", line)
                found[crate, path.stem, named[1]] = word
            elif bare:
                word = None
            above = bare.startswith("--") and not bare.startswith("-- ----") or above and bare.endswith("mutual")
    return found


@cache
def imports(path):
    """The words that a file takes from specs: by name, where each stands. A file that it renames stands with a dot."""
    taken, text = {}, path.read_text()
    for crate, file, names in re.findall(r"use Rattle\.(\w+)\.specs\.([\w.]+)\.\{([^}]*)\}", text):
        taken |= {name.strip(): (crate, file) for name in names.split(",")}
    renamed = re.findall(r"use Rattle\.(\w+)\.specs\.(\w+) as (\w+)", text)
    return taken | {name + ".": (crate, file) for crate, file, name in renamed}


def cited(text, path, known):
    """The words that a text of a file cites, in order."""
    found = []
    for front, name in re.findall(r"(?<![.\w])([a-z]+\.(?=[A-Za-z]))?([^\s(){}\[\],;.⟦⟧]+)", text):
        taken = imports(path)
        crate, file = taken.get(front, ("", "")) if front in taken else taken.get(front[:-1] or name, ("", ""))
        name = name if front in taken or not front else front[:-1]
        for key in [(crate, file, name), ("rstar_base", file, name), (path.parts[-3], path.stem, name)]:
            if key in known and known[key] not in found:
                found.append(known[key])
                break
    return found


class Edit:
    """A wrong body: where the text stands that it replaces first, and each text that does not stand once."""

    def __init__(self, path):
        self.name, self.path, self.line, self.faults = path.stem, None, 0, []
        self.in_gate = path.parent.name == "must-fail"
        texts, file, old, crate = {}, "", "", path.parent.parent
        for line in path.read_text().splitlines():
            kind, _, rest = line.partition(": ")
            if kind == "file":
                file = rest
            elif kind == "old":
                old = rest
            elif line.startswith("new:"):
                text = texts.get(file) or (crate / file).read_text()
                if text.count(old) != 1:
                    self.faults.append(f"{path.relative_to(ROOT)}: stands {text.count(old)} times in {file}: {old.strip()}")
                elif not self.path:
                    self.path, self.line = crate / file, text[:text.index(old)].count("\n")
                texts[file] = text.replace(old, rest)


def edits(crate):
    """The wrong bodies of a crate, by name."""
    folder = ROOT / "crates" / crate
    paths = [*folder.glob("must-fail/*.edit"), *folder.glob("edits/*.edit")]
    return [Edit(path) for path in sorted(paths, key=lambda path: path.stem)]
