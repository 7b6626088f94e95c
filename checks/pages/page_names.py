"""The names that the sources have, and which of those that a page cites in its text are not there."""
import collections
import os
import pathlib
import re

ROOT = pathlib.Path(__file__).resolve().parents[2]
# Folders of what is built or drawn, and files that are no sources.
BUILT, PAGES = {"out", "target", ".git", "pictures"}, (".md", ".svg", ".gif")
# What stands for a name of the reader's, or is of no source.
OF_NO_SOURCE = re.compile(r"NAME|MODULE|\bInsideX\b|/out/|x86-|^(?:mawk|parallel|python3-minimal|CMAKE_PREFIX_PATH)$")
NAME = r"[A-Za-z_][\w'-]*"
PUBLIC = r"(?:pub(?:\([\w ]+\))? )?"
FUNCTION = re.compile(rf'^( *){PUBLIC}(?:const |final |unsafe |extern "C" )*fn (\w+)', re.M)
OWNER = re.compile(rf"^(?:unsafe )?{PUBLIC}(?:impl(?:<[^\n]*?>)? (?:[^\n]*? for )?|trait )(?:&?'?\w+ )?(\w+)", re.M)
CLAUSE = re.compile(r"(?:ensures|requires)\*? (\w+) \{")
TYPE = re.compile(rf"^{PUBLIC}(?:struct|enum|trait) (\w+)\b.*?(?:^\}}|;$)", re.M | re.S)
MEMBER = re.compile(rf"^ +{PUBLIC}(?:ghost |const )?(\w+)(?::|,$| \{{$| =|\()", re.M)
ITEM = re.compile(rf"^ *{PUBLIC}(?:const|type|mod) (\w+)\b", re.M)
DEFINED = re.compile(
    rf"^(?:abbrev |unfoldable |pub )*(?:(?:record|data) ({NAME})|({NAME}) :).*\n(?: .*\n|\n(?= ))*", re.M
)
PART = re.compile(rf"^ +(?:pub )?({NAME}) :", re.M)
# A lemma in a block of several, with what they share at its head.
IN_BLOCK = re.compile(rf"^ +(?:pub )?({NAME}) :.*\n(?: +unfolding .*\n)? +\1(?![\w'-])", re.M)
# Definitions that name one another stand indented.
MUTUAL = re.compile(r"^(?:abbrev |unfoldable )?mutual\n((?:  .*\n|\n)+)", re.M)

CODE = re.compile(r"^```.*?^```$|^    [^\n]*$", re.M | re.S)
SPAN = re.compile(r"`([^`]+)`")
CITED = re.compile(rf"{NAME}(?:(?:::|\.)\w+)*")
FILE = re.compile(r"(?:src|specs|proofs|checks|tools|docs|bench|bindings|crates|examples)/[\w./+-]*\w")
COMMAND = re.compile(rf"(?<![\w/])(?:\./\w+|{FILE.pattern})")


class Sources:
    """What stands in the sources: each thing with its parts, and all words."""

    def __init__(self):
        # By crate and name, and by file and name: the clauses of a function, the fields, variants and functions of a
        # type, the parts of a definition, what a module has.
        self.parts = collections.defaultdict(set)
        self.words = set()
        self.by_name = collections.defaultdict(list)
        for folder, below, names in os.walk(ROOT):
            below[:] = sorted(set(below) - BUILT)
            for name in names:
                if not name.endswith(PAGES):
                    path = pathlib.Path(folder, name)
                    self.read(path, path.relative_to(ROOT).parts)
        for (where, name), parts in self.parts.items():
            if not isinstance(where, pathlib.Path):
                self.by_name[name].append(parts)

    def read(self, path, place):
        """Reads a file: its words, and what it has if it is a source."""
        text = path.read_text(errors="replace")
        self.words |= {path.name, path.stem, *re.findall(r"\w+", text)}
        # The Rust crate counts as a crate.
        crate = place[1] if place[0] in ("crates", "bindings") else None
        for where in (crate, path) if crate else ():
            if path.suffix in (".rt", ".rs"):
                self.code(where, path.stem, text)
            elif path.suffix == ".antt":
                self.definitions(where, text)

    def code(self, where, module, text):
        """Reads the functions, types, constants and modules of a source."""
        text = re.sub(r"^ *//.*\n", "", text, flags=re.M)
        for found in FUNCTION.finditer(text):
            end = re.compile(rf"^{found[1]}(?:\{{|\}})|^(?! *\w+ = ).*;$", re.M).search(text, found.end())
            clauses = set(CLAUSE.findall(text[found.end() : end.end() if end else len(text)]))
            owners = OWNER.findall(text[: found.start()]) if found[1] else []
            for name in (found[2], f"{module}::{found[2]}", *(f"{owner}::{found[2]}" for owner in owners[-1:])):
                self.parts[where, name] |= clauses
            self.parts[where, owners[-1] if owners else module].add(found[2])
        for found in TYPE.finditer(text):
            self.parts[where, found[1]] |= set(MEMBER.findall(found[0]))
            self.parts[where, module].add(found[1])
        for name in ITEM.findall(text):
            self.parts[where, name] |= set()
            self.parts[where, module].add(name)

    def definitions(self, where, text):
        """Reads the definitions of specs/, and the lemmas of proofs/."""
        text = re.sub(r"^ *--.*\n", "", text, flags=re.M)
        text = MUTUAL.sub(lambda block: re.sub(r"^  ", "", block[1], flags=re.M), text)
        for found in DEFINED.finditer(text):
            self.parts[where, found[1] or found[2]] |= set(PART.findall(found[0])) if found[1] else set()
        for name in IN_BLOCK.findall(text) if isinstance(where, pathlib.Path) else ():
            self.parts[where, name] |= set()

    def parts_of(self, crate, name):
        """The parts of a thing, of this crate if it has one, or nothing."""
        if (crate, name) in self.parts:
            return self.parts[crate, name]
        found = self.by_name.get(name)
        return set().union(*found) if found else None


class Page:
    """What a page cites that is not there."""

    def __init__(self, page, sources):
        self.page, self.sources = page, sources
        place = page.relative_to(ROOT).parts
        self.crate = place[1] if place[0] == "crates" else None
        self.looked = 0
        self.missing = []

    def find(self, found, words):
        self.looked += 1
        if not found:
            self.missing.append(words)

    def file(self, name):
        """Looks for a file, of the repository, beside the page, or if that is no crate's of some crate."""
        tops = [ROOT, self.page.parent, *(() if self.crate else (ROOT / "crates").iterdir())]
        self.find(any((top / name).exists() for top in tops), name)

    def part(self, name, seen):
        """Looks for a part of what was named before, or an edit against it."""
        edit = ROOT / "crates" / (self.crate or "") / "must-fail" / f"{name}.edit"
        self.find(any(name in parts for parts in seen) or edit.exists(), f"{name}, of nothing that is named before it")

    def name(self, name, seen):
        """Looks for a name by itself, and adds its parts to those that were seen."""
        # A path of a crate ends by a thing of a module; a method of a value is one of any type.
        name = "::".join(name.split("::")[-2:])
        name = name.partition(".")[2] if "." in name and name[0].islower() else name
        owner, last = re.fullmatch(r"(?:(.*)(?:::|\.))?(.*)", name).groups()
        parts, of_owner = (of and self.sources.parts_of(self.crate, of) for of in (name, owner))
        if parts is not None or of_owner is not None:
            self.find(parts is not None or last in of_owner, name)
            seen.extend(found for found in (parts, of_owner) if found is not None)
        elif name not in self.sources.words and not any(name in of_one for of_one in seen):
            self.find(set(re.findall(r"\w+", last)) <= self.sources.words, name)

    def paragraph(self, text):
        """Looks for the names of a paragraph, or of a cell of a table. After a name and a colon come parts of it."""
        seen, end, is_name, are_parts = [], 0, False, False
        for found in SPAN.finditer(text):
            between, after = text[end : found.start()], text[found.end() :]
            follows = are_parts and re.fullmatch(r",\s+|,?\s(?:and|or)\s", between)
            are_parts = bool(follows) or is_name and between.strip() == ":"
            end, name = found.end(), found[1].removesuffix("()")
            is_name = bool(CITED.fullmatch(name)) and not OF_NO_SOURCE.search(name) and "_" not in (name[0], name[-1])
            if are_parts and re.fullmatch(r"[a-z]\w*", name) and not re.match(r":|\s\(", after):
                self.part(name, seen)
            elif is_name:
                self.name(name, seen)
        for name in FILE.findall(text):
            if not OF_NO_SOURCE.search(name):
                self.file(name)

    def read(self):
        text = self.page.read_text()
        # In a release a page has sums of sources.
        code = re.findall(r"^    (?![0-9a-f]{64} ).*$|`[^`\n]*`", text, re.M)
        for name in COMMAND.findall("\n".join(code)):
            if not OF_NO_SOURCE.search(name):
                self.file(name)
        # That page names what is gone, too.
        text = "" if self.page.name == "CHANGELOG.md" else CODE.sub("", text)
        for paragraph in re.split(r"\n\s*\n|\n(?=- |\d+\. |#)|\n?\|\n?", text):
            self.paragraph(paragraph)
        return self


def in_pages(sources):
    """What the pages of the repository cite."""
    for folder, below, names in os.walk(ROOT):
        below[:] = sorted(set(below) - BUILT)
        for name in names:
            if name.endswith(".md"):
                yield Page(pathlib.Path(folder, name), sources).read()
