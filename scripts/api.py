#!/usr/bin/env python3
"""Makes docs/API.md and docs/DEFINITIONS.md from the sources, and checks what the pages show of them.

    scripts/api.py            writes both pages
    scripts/api.py --check    prints what is not as the sources are; the status is 1 where there is something

From the standard library alone; scripts/sources.py reads the sources, scripts/api_heads.md has what stands above each
page. Beside the two pages and their sizes `--check` looks at

- examples in docstrings (at most twelve lines) and pieces of docs/CALLING.md: the lines between two fences stand, in
  this order and whitespace aside, in the file that the line below names, as `*`crates/..`*`. A line `// ..` marks what is
  left out;
- wrong bodies (`must-fail/`, `edits/`): the text that each replaces stands once in its file, and each listed call with
  a clause has one;
- tactic attributes: each lemma or word that one names stands in its file;
- links and paths in README.md, CONTRIBUTING.md and docs/*.md: the file and the heading are there.
"""

import re
import sys

from sources import CRATES, ROOT, cited, edits, imports, items, module_of, sources, words

LIBRARIES = ["rstar_base", "rstar"]
PROGRAM = ["run", "pack", "unpack", "mode"]
LIMITS = {"docs/API.md": 30_000, "docs/DEFINITIONS.md": 28_000}
# A definition of at most so many characters is shown with its own lines.
SHORT = 96
# Calls without a wrong body: each gives the one value of its type that can be made of what it is given.
UNTURNED = {"Counted::aabb", "GeomWithData::geom", "GeomWithData::new", "InEnvelope::seen", "ObjectRef::new",
            "PointWithData::new", "PointWithData::position", "SelectEqualsFunction::new"}
# Words that say nothing of an answer by themselves.
PLAIN = {"ℕ", "pos", "min", "table", "true", "false", "IfOk", "IfSome", "IfErr", "IfNone", "IsTrue"}


def head(page):
    """What stands above a page: the part of the head file with its name."""
    parts = re.split(r"^<!-- (\w+) -->\n", (ROOT / "scripts/api_heads.md").read_text(), flags=re.M)
    return parts[parts.index(page) + 1].strip()


def signature(item):
    """A function's name, the names of its parameters and its result."""
    text = re.sub(r"<'_>|'\w+,? ?|\bmut (?=\w+: )", "", item.head.split(" where ")[0]).removesuffix(" {").removesuffix(";")
    for _ in range(2):
        text = re.sub(r"<[\w:]+ as (?:Envelope|Point)>::", "", text)
    result = text.rpartition(" -> ")[2] if re.search(r"\) -> [^()]*(\(.*\))?[^()]*$", text) else ""
    short = re.sub(r"\b(\w*Iterator|Locate\w+)<(?:[^<>]|<[^<>]*>)*>", r"\1", result)
    inside = re.search(rf"fn {item.name}(?:<.*?>)?\((.*)\)", text.removesuffix(" -> " + result))
    names = re.findall(r"(&?(?:mut )?self|\w+)(?=:|,|$| )(?:: [^,]*(?:<[^()]*>|\([^()]*\))?)?", inside[1]) if inside else []
    method = {"&self": ".", "&mut self": "!"}.get(names[0] if names else "", "")
    return f"{method}{item.name}({', '.join(names[len(method):])})" + (f" -> {short}".replace(", AllocError>", ">") if result and short != "Self" else "")


def homes(crate):
    """The open modules of a crate, and the names that they pass on from other modules, each with its module."""
    opened, passed = {crate}, {}
    for path in sorted(sources(crate), key=lambda path: (path.stem != "lib", len(path.parts))):
        module, text = module_of(path), path.read_text()
        if module in opened:
            opened |= {f"{module}::{name}" for name in re.findall(r"^pub mod (\w+);", text, re.M)}
            for names in re.findall(r"^pub use ([^;]+);", text, re.M) if module != crate else []:
                passed |= dict.fromkeys(re.findall(r"\w+(?=[,}\s]*$|, )", names.replace("\n", " ")), module)
    return opened, passed


class Library:
    """The public items of the libraries, by module, with their clauses and wrong bodies."""

    def __init__(self):
        self.known = {key: word for crate in CRATES for key, word in words(crate).items()}
        self.all = [item for crate in LIBRARIES for path in sources(crate) for item in items(path)]
        self.opened, self.passed = set(), {}
        for opened, passed in map(homes, LIBRARIES):
            self.opened |= opened
            self.passed |= passed
        self.types = {item.name: self.home(item) for item in self.all if item.public and not item.owner and self.home(item)}
        self.modules = {}
        for item in self.all:
            if place := self.place(item):
                self.modules.setdefault(place, []).append(item)
        self.listed = [item for found in self.modules.values() for item in found]

    def home(self, item):
        """The open module of an item that is declared public, None where there is none."""
        parts = module_of(item.path).split("::")
        whole = all("::".join(parts[:at + 1]) in self.opened for at in range(len(parts)))
        return "::".join(parts) if whole else self.passed.get(item.name)

    def place(self, item):
        """The module under which an item is listed, None where it is private or has no clause of its own."""
        if not item.owner:
            return self.home(item) if item.public else None
        if item.owner.kind == "trait":
            return self.types.get(item.owner.name) if item.owner.public and item.kind in ("fn", "const") else None
        own = item.public or " for " in item.owner.head and item.clauses
        return self.types.get(item.owner.name) if item.kind == "fn" and own else None

    def ghosts(self, item):
        """The ghost members of a trait, or of a type's `Iterator`."""
        return [one for one in self.all if one.kind == "ghost" and one.owner and one.path == item.path and
                (one.owner is item or one.owner.name == item.name and " Iterator for " in one.owner.head)]

    def clauses(self, item, kind):
        """The names of a function's clauses; of one without a name the first word that it says, or else its text."""
        shown = []
        for own, name, text in item.clauses:
            text = re.sub(r"\s*};?( {)?$", "", text)
            answer = text.partition("≡")[2] or text
            said = [word for word in re.findall(r"(?<![.\w])\w+", answer) if word in imports(item.path) and word not in PLAIN]
            member = re.findall(r"\.([a-z]\w+) ", answer) or re.findall(r"\.([a-z]\w+) ", text)
            if own == kind:
                shown.append(name or (said[0] if said else f"`{text}`" if len(text) < 40 or not member else member[0]))
        return ", ".join(shown).replace("IsWholeTree", "whole")

    def says(self, item):
        """What stands behind an item's answer: its clauses, what `next` asks and gives, or a trait's laws."""
        if item.kind == "fn":
            return " → ".join(filter(None, [self.clauses(item, "requires"), self.clauses(item, "ensures")]))
        if item.kind == "trait":
            return ", ".join(one.name for one in self.ghosts(item) if one.name.endswith(("_law", "_laws")))
        members = [cited(one.head.partition(" = ")[2], one.path, self.known)[0].name for one in self.ghosts(item)]
        return "next: {} → {}".format(*members) if members else ""

    def wrong(self):
        """The wrong bodies of each listed item, those that the gate tries or else the first: those of its text, and of a
        trait's method those of its impls."""
        shown = {}
        for edit in [edit for crate in LIBRARIES for edit in edits(crate)]:
            inside = [one for one in self.all if one.path == edit.path and one.first <= edit.line <= one.last]
            found = inside[-1:] if inside[-1:] and inside[-1] in self.listed else [
                one for one in self.listed if inside and inside[-1].owner and one.owner and one.owner.kind == "trait"
                and one.name == inside[-1].name and f"{one.owner.name}" in inside[-1].owner.head.split(" for ")[0]]
            for item in found[:1]:
                shown.setdefault(id(item), []).append(f"**{edit.name}**" if edit.in_gate else edit.name)
        return {item: [name for name in names if name.startswith("*")] or names[:1] for item, names in shown.items()}

    def lacking(self):
        """The listed calls with a clause that no wrong body turns, those of `UNTURNED` aside."""
        shown = self.wrong()
        return [item for item in self.listed if item.kind == "fn" and item.clauses and id(item) not in shown
                and "::".join(one.name for one in (item.owner, item) if one) not in UNTURNED]

    def words(self):
        """The words that clauses of public items and of the program's calls cite, and those of short definitions."""
        calls = [item for path in sources("rstar_run") for item in items(path) if item.public and item.name in PROGRAM]
        chosen = []
        for item in [*self.listed, *calls]:
            text = " ".join([clause[2] for clause in item.clauses] + [one.head for one in self.ghosts(item)])
            chosen += [word for word in cited(text, item.path, self.known) if word not in chosen]
        for word in [*chosen]:
            if word.crate == "rstar_run" or 0 < sum(map(len, word.own()[1])) <= SHORT:
                chosen += cited("\n".join(word.lines[1:]), word.path, self.known)
        for word in chosen:
            named = set(re.findall(r"`(\w+)`", word.comment)) - {word.name}
            chosen += [one for one in self.known.values() if one.path == word.path and one.name in named and one not in chosen]
        return chosen


def api_page(library):
    """The text of docs/API.md."""
    shown, lines = library.wrong(), [head("API")]
    for module, found in library.modules.items():
        lines.append(f"\n## {module}\n")
        for item in found:
            name = f"`{signature(item)}`" if item.kind == "fn" else f"**{item.name}**"
            text = " ".join(item.docs[:item.docs.index("")] if "" in item.docs else item.docs)
            answer = re.split(r"(?<=[.])\s+(?=[A-Z`])", text)[0].removesuffix(".")
            answer = re.sub(r" \([A-Z][^()]* \d{4}\)|, in some order", "", answer)
            says, wrong = library.says(item), ", ".join(shown.get(id(item), []))
            lines.append(f"- {name} {answer}" + (f" [{says}]" if says else "") + (f" ✗ {wrong}" if wrong else ""))
    return "\n".join(lines) + "\n"


def definitions_page(library):
    """The text of docs/DEFINITIONS.md."""
    lines, file, chosen = [head("DEFINITIONS")], None, library.words()
    for word in library.known.values():
        if word in chosen:
            names, own = word.own()
            if word.path != file:
                file = word.path
                lines.append(f"\n## {file.stem} ({word.crate})\n")
            lines.append(f"- **{' '.join([word.name, *names])}** {word.comment}")
            if sum(map(len, own)) <= SHORT:
                lines += [f"  `{line}`" for line in own]
    return "\n".join(lines) + "\n"


def examples(place, lines):
    """What is wrong with the examples of a text: each names a file, and its lines stand there. Pieces that follow one
    another share the names of files."""
    waiting, inside = [], None
    for line in map(str.strip, lines):
        named = re.match(r"\*(`[^`]+`(?:, `[^`]+`)*)\*$", line)
        if line.startswith("```"):
            inside = [] if inside is None else waiting.append(inside)
        elif inside is not None:
            inside.append("".join(line.split()))
        elif named:
            files = [ROOT / name for name in re.findall(r"`([^`]+)`", named[1])]
            text = [line for file in files if file.is_file() for line in file.read_text().splitlines()]
            for example in waiting:
                rest = iter("".join(line.split()) for line in text)
                lost = [line for line in example if line not in ("", "//..") and line not in rest]
                if lost:
                    yield f"{place}: does not stand in {named[1]}, from here on: {lost[0]}"
                if place.startswith("crates/") and len(list(filter(None, example))) > 12:
                    yield f"{place}: has an example of more than twelve lines"
            waiting = []
        elif line and waiting:
            yield f"{place}: names no file, for the example that begins: {waiting[0][0]}"
            waiting = []


def attributes(path):
    """The lemmas and words that tactic attributes of a source file name, and that do not stand there."""
    for crate, module, name in re.findall(r"\b(\w+)::((?:proofs|specs)(?:::\w+)+)::(\w+)", path.read_text()):
        home = path.relative_to(ROOT).parts[1] if crate == "crate" else crate
        file = ROOT / "crates" / home / (module.replace("::", "/") + ".antt")
        if not file.is_file() or not re.search(rf"^ *(?:abbrev |unfoldable )*pub\b.*\b{name}\b", file.read_text(), re.M):
            yield f"{path.relative_to(ROOT)}: {crate}::{module}::{name} is not there"


def links(page):
    """The dead links and paths of a page."""
    text = page.read_text()
    for target in re.findall(r"\]\(([^)\s]+)\)", text):
        file, _, heading = target.partition("#")
        other = page.parent / file if file else page
        headings = re.findall(r"^#+ (.*)$", other.read_text(), re.M) if other.suffix == ".md" and other.is_file() else []
        slugs = [re.sub(r"[^\w\- ]", "", name.lower()).replace(" ", "-") for name in headings]
        if not re.match(r"\w+:", target) and (not other.exists() or heading and heading not in slugs):
            yield f"{page.relative_to(ROOT)}: {target} is not there"
    for path in re.findall(r"(?<![\w/.])(?:docs|crates|scripts|examples)/[\w./-]*\w\.\w+", text):
        if "NAME" not in path and not (ROOT / path).exists():
            yield f"{page.relative_to(ROOT)}: {path} is not there"


def faults(library, pages):
    """All that is not as the sources are."""
    for name, text in pages.items():
        if not (ROOT / name).is_file() or (ROOT / name).read_text() != text:
            yield f"{name} is not as the sources are: run scripts/api.py"
        if len(text.encode()) > LIMITS[name]:
            yield f"{name} has {len(text.encode())} bytes, more than {LIMITS[name]}"
    for crate in [*CRATES, "rstar_base_vectors", "rstar_uses", "rstar_vectors"]:
        for item in [item for path in sources(crate) for item in items(path)]:
            yield from examples(f"{item.path.relative_to(ROOT)}: {item.name}", item.docs)
        for edit in edits(crate):
            yield from edit.faults
    for path in sorted(ROOT.glob("crates/*/src/**/*.rt")):
        yield from attributes(path)
    for item in library.lacking():
        yield f"{item.path.relative_to(ROOT)}: {item.name}: no wrong body turns it"
    yield from examples("docs/CALLING.md", (ROOT / "docs/CALLING.md").read_text().splitlines())
    for page in [ROOT / "README.md", ROOT / "CONTRIBUTING.md", *sorted((ROOT / "docs").glob("*.md"))]:
        yield from links(page)


def main():
    library = Library()
    pages = {"docs/API.md": api_page(library), "docs/DEFINITIONS.md": definitions_page(library)}
    if sys.argv[1:] == ["--check"]:
        found = list(faults(library, pages))
        print("\n".join(found) or "API.md, DEFINITIONS.md, examples, wrong bodies and links are as the sources are")
        return 1 if found else 0
    for name, text in pages.items():
        (ROOT / name).write_text(text)
        print(f"{name}: {len(text.encode())} bytes")
    return 0


if __name__ == "__main__":
    sys.exit(main())
