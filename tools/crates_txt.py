"""Reads crates.txt, which lists the crates of a repository, lowest first: of each its name, whether it is a static
library, and what it stands on, of which some are of the kit."""
import dataclasses
import pathlib

ROOT = pathlib.Path(__file__).resolve().parent.parent


class Unknown(Exception):
    """A line with a word that is not known."""


@dataclasses.dataclass(frozen=True)
class Listed:
    """A crate, as its line says."""

    name: str
    is_static: bool
    uses: tuple

    @property
    def is_test(self):
        """Whether it has tests and nothing else."""
        return self.name.startswith("cn_tests")

    @property
    def is_library(self):
        """Whether others may stand on it."""
        return self.name.startswith("cn_") and not self.is_test

    @property
    def line(self):
        return f"{self.name}: {' '.join(self.uses)}"


def listed_in(text):
    """The crates that a text lists, by name."""
    crates = {}
    for line in (line.partition("#")[0].strip() for line in text.splitlines()):
        if line:
            head, _, uses = line.partition(":")
            name, *kind = head.split()
            if kind not in ([], ["staticlib"]):
                raise Unknown(f"crates.txt: {name} has words that are not known here: {' '.join(kind)}")
            crates[name] = Listed(name, bool(kind), tuple(uses.split()))
    return crates


def listed(top=ROOT):
    """The crates that a repository lists, by name."""
    return listed_in((top / "crates.txt").read_text())
