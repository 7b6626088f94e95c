"""Texts, line by line, and what is wrong in them."""
import dataclasses
import re


class Fault(Exception):
    """What keeps a picture from being made, in one line."""


@dataclasses.dataclass
class Lines:
    """The lines of a text, which are read one after another."""

    name: str
    texts: list[str]
    read: int = 0

    def next(self) -> str:
        """Returns the next line. A text that ends too early is refused."""
        self.read += 1
        if self.read > len(self.texts):
            raise Fault(f"{self.name}: line {self.read}: the text ends too early")
        return self.texts[self.read - 1]

    def match(self, form: re.Pattern, what: str) -> re.Match:
        """Reads a line that has to have this form."""
        line = self.next()
        found = form.fullmatch(line)
        if found is None:
            raise self.fault(f"this is no {what}: {line[:80]!r}")
        return found

    def end(self):
        """Refuses a text that has more lines."""
        if self.read < len(self.texts):
            self.read += 1
            raise self.fault("the text goes on after its end")

    def fault(self, what: str) -> Fault:
        """Returns a fault of the line that was read last."""
        return Fault(f"{self.name}: line {self.read}: {what}")
