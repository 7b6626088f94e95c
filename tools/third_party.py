"""Reads THIRD-PARTY, and prints what it says as SPDX.

    tools/third_party.py VERSION COMMIT KIT TIME > renamer.spdx

Each paragraph of others is a package that program, library or static program contain. TIME is in seconds since 1970.
"""
import dataclasses
import datetime
import pathlib
import re
import sys

FILE = pathlib.Path(__file__).resolve().parent.parent / "THIRD-PARTY"
HEAD = """SPDXVersion: SPDX-2.3
DataLicense: CC0-1.0
SPDXID: SPDXRef-DOCUMENT
DocumentName: renamer-{version}
DocumentNamespace: https://spdx.org/spdxdocs/renamer-{version}-{commit}
Creator: Tool: renamer-release
Created: {created}
"""
PACKAGE = """
PackageName: {name}
SPDXID: SPDXRef-{id}
PackageVersion: {version}
PackageDownloadLocation: NOASSERTION
FilesAnalyzed: false
PackageLicenseConcluded: NOASSERTION
PackageLicenseDeclared: {license}
PackageCopyrightText: {copyright}
"""
# What a release has of this repository, and what each of it is linked with.
PARTS = {"program": ("program",), "static-program": ("program", "static program"), "library": ("library",)}
# The names of licences in SPDX; nothing is said by any other.
LICENSES = {"Expat": "MIT"}


@dataclasses.dataclass(frozen=True)
class Paragraph:
    """What one paragraph says of some crates of the kit, or of a library."""

    names: tuple
    copyright: str
    license: str
    text: str
    linked_into: tuple


def field(name, paragraph):
    """The first line of a field, and the further ones without their indentation; a lone dot is an empty line."""
    found = re.search(rf"^{name}: (.*)\n((?: .*\n)*)", f"{paragraph}\n", re.M)
    return (found[1], re.sub(r"^ \.?", "", found[2], flags=re.M)) if found else ("", "")


def paragraphs():
    """The paragraphs of THIRD-PARTY that name files: of the sources, and then of others."""
    for paragraph in FILE.read_text().split("\n\n"):
        names = tuple(name.removesuffix("/*") for name in field("Files", paragraph)[0].split())
        if names:
            who, more = field("Copyright", paragraph)
            license, text = field("License", paragraph)
            linked = tuple(filter(None, field("Linked-Into", paragraph)[0].split(", ")))
            all_who = "\n".join([who, *(line.strip() for line in more.splitlines())])
            yield Paragraph(names, all_who, license, text, linked)


def package(name, identity, version, paragraph):
    """A package as SPDX has it."""
    stated = paragraph.copyright != "not stated"
    return PACKAGE.format(name=name, id=identity, version=version,
                          license=LICENSES.get(paragraph.license, "NOASSERTION"),
                          copyright=f"<text>{paragraph.copyright}</text>" if stated else "NOASSERTION")


def spdx(version, commit, kit, time):
    """The list as SPDX."""
    created = datetime.datetime.fromtimestamp(int(time), datetime.timezone.utc)
    yield HEAD.format(version=version, commit=commit, created=created.strftime("%Y-%m-%dT%H:%M:%SZ"))
    own, *others = paragraphs()
    for part in PARTS:
        yield package(f"renamer, {part}", part, version, own)
        yield f"Relationship: SPDXRef-DOCUMENT DESCRIBES SPDXRef-{part}\n"
    for paragraph in others:
        for name in paragraph.names:
            identity = name.replace("_", "-")
            yield package(name, identity, "NOASSERTION" if name == "musl" else kit, paragraph)
            for part, with_what in PARTS.items():
                if set(with_what) & set(paragraph.linked_into):
                    yield f"Relationship: SPDXRef-{part} STATIC_LINK SPDXRef-{identity}\n"


if __name__ == "__main__" and len(sys.argv) != 5:
    sys.exit(__doc__)
if __name__ == "__main__":
    sys.stdout.writelines(spdx(*sys.argv[1:]))
