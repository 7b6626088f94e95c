"""Reads a table of cases of a program, each with its words, its input, what stands on both streams, and the status.

checks/program/cases.table says at its head what each line means. checks/program/cases_test.py tries this reader.
"""
import dataclasses
import os
import pathlib
import re
import subprocess

from chosen import rows_of

ROOT = pathlib.Path(__file__).resolve().parents[2]
# What a stream of a case may be, beside open; the first is a file.
OUTPUTS = ("file", "full", "broken", "closed")
ERRORS = ("file", "full", "closed")
INPUTS = ("file", "folder", "closed", "terminal", "pipe")
# The status of a fault line of the program or of `number`, by how it begins behind the name.
STATUSES = {b"record ": 1, b"standard input": 1, b"../": 1, b"no such ": 2, b"a word with ": 2, b"write after ": 3,
            b"memory": 3, b"flaw: ": 4}
# What a case may limit.
LIMITS = ("growths", "bytes", "writes", "error_writes")
# A line that stands for many: for how many numbers of epochs, how often, by which form, and the line.
MANY = re.compile(r"(?:(\d+)x)?(\d+)([*#+])(.*)")


class NoCase(Exception):
    """A line that means nothing, or stands in no case."""


@dataclasses.dataclass
class Case:
    """What a case gives the program, and what it wants of it."""

    name: str
    words: list = dataclasses.field(default_factory=list)
    status: int = 0
    # How many threads it is to ask for, if that is said, and whether it gets none.
    threads: int | None = None
    refused: bool = False
    # How many growths of memory it may ask for, with how many bytes in all, and how many writes of its output and of
    # its errors, if that is said; and how many of its growths, each refused in a run of its own, it may do without.
    growths: int | None = None
    bytes: int | None = None
    writes: int | None = None
    error_writes: int | None = None
    spares: int | None = None
    # How large the stack of each of its threads may be, in kilobytes, if that is said.
    stack: int | None = None
    # How much address space it may have, in kilobytes, if that is said.
    space: int | None = None
    # Whether its first 1,000 reads and writes are interrupted.
    interrupted: bool = False
    by_script: bool = False
    # The tool of tools/ that is run, if that is said, by this program.
    tool: str | None = None
    input: str = "file"
    output: str = "file"
    errors: str = "file"
    given: bytearray = dataclasses.field(default_factory=bytearray)
    wanted_output: bytearray = dataclasses.field(default_factory=bytearray)
    wanted_errors: bytearray = dataclasses.field(default_factory=bytearray)
    # Whether a stream may have any bytes but none.
    open_output: bool = False
    open_errors: bool = False
    # What stands in a line of an open output, what in none, and whole lines of open errors.
    texts: list = dataclasses.field(default_factory=list)
    unwanted_texts: list = dataclasses.field(default_factory=list)
    error_lines: list = dataclasses.field(default_factory=list)


def unescaped(text):
    """The bytes of a text, with those that a backslash begins."""
    return text.encode().decode("unicode_escape").encode("latin-1") if "\\" in text else text.encode()


def reckoned(words, given):
    """What checks/program/reckon prints for the words of a case and this input."""
    said = dict(re.findall(r"--(\w+)[ =](\w+)", " ".join(words)))
    command = [words[0], *(said[name] for name in ("network", "width") if name in said)]
    command += [said.get("hand", "1"), *["carry"] * ("--carry" in words)] if words[0] == "run" else []
    reckon = ROOT / "checks" / "program" / "reckon"
    return subprocess.run([reckon, *command], input=given, stdout=subprocess.PIPE, check=True).stdout


def lines_of(text):
    """The bytes of a line, or of the lines for which it stands."""
    many = MANY.fullmatch(text)
    if not many:
        return unescaped(text) + b"\n"
    epochs, count, form, line = many.groups()
    if epochs:
        return b"".join(lines_of(f"{count}{form}{line}".replace("@", str(at))) for at in range(1, int(epochs) + 1))
    if form == "*":
        return (unescaped(line) + b"\n") * int(count)
    first, parts = int(form == "+"), unescaped(line + "\n").split(b"&")
    numbers = range(first, first + int(count))
    return b"".join(map(b"%d".join(parts).__mod__, zip(*[numbers] * (len(parts) - 1))))


def lines_without_blanks(text):
    """The bytes of lines that have no blanks, and of files of examples/."""
    return b"".join((ROOT / "examples" / word[1:]).read_bytes() if word[0] == "@" else lines_of(word)
                    for word in text.split())


def status_of(errors):
    """The status of a run that says this, if it is such a fault line."""
    name, _, said = errors.partition(b": ")
    is_known = name in (b"renamer", b"number")
    return next((status for line, status in STATUSES.items() if is_known and said.startswith(line)), 0)


class Reader:
    """Reads a table line by line; `case` is the one that stands open."""

    def __init__(self):
        self.case = None
        self.done = []

    def begin(self, name):
        self.end()
        self.case = Case(name)

    def end(self):
        if self.case:
            self.case.status = self.case.status or status_of(self.case.wanted_errors)
            self.done.append(self.case)

    def whole(self, mark, rest):
        """A line that is a case of its own. Whether it was one."""
        if mark == "refuses":
            self.begin(f"to refuse {rest}")
            self.refuses(rest)
        elif mark == "fails":
            self.begin(f"to fail at {rest}")
            self.fails(rest)
        elif mark == "unwritten":
            self.begin(f"to write {rest}")
            output, _, words = rest.partition(" ")
            self.fails(f"{words} ! write after 0 bytes")
            self.stream("output", output)
        elif mark == "ends":
            self.begin(f"to end with {rest}")
            status, output, errors, words = rest.split(" ", 3)
            self.given(words)
            self.case.status, self.case.output, self.case.errors = int(status), output, errors
        elif mark == "helps":
            self.begin(f"to help with {rest}")
            self.words(rest)
            self.text("? Usage: renamer")
        elif mark == "prints":
            self.begin(f"to print {rest}")
            self.given(rest)
            self.text(">@")
        else:
            return False
        return True

    def words(self, rest):
        """The words of the case, of which the first may name a tool."""
        self.case.words = [os.fsdecode(unescaped(word)) for word in rest.split()]
        if self.case.words[:1] == ["number"]:
            self.case.tool = self.case.words.pop(0)

    def given(self, rest):
        """Words, what the input is, and its lines, if there are any."""
        words, _, given = rest.partition(" <")
        how, _, lines = given.partition(" ")
        self.words(words)
        if not self.stream("input", how or "file"):
            raise NoCase(rest)
        self.case.given += lines_without_blanks(lines)

    def refuses(self, rest):
        """Words, and the line or the hint with which they are refused, if that is said."""
        words, says, line = rest.partition(" ! ")
        words, hints, hint = words.partition(" with ")
        self.words(words)
        self.case.status, self.case.open_errors = 2, not says
        self.case.error_lines += [hint] if hints else []
        self.case.wanted_errors += lines_of(line) if says else b""

    def fails(self, rest):
        """Words, the lines of the input, and the fault line."""
        given, _, fault = rest.rpartition(" ! ")
        self.given(given)
        self.case.wanted_errors += f"{self.case.tool or 'renamer'}: {fault}\n".encode()

    def setting(self, mark, rest):
        """A line that says one thing of the case that stands open. Whether it was one."""
        case = self.case
        if mark in ("status", "stack", "space", *LIMITS, "spares"):
            setattr(case, mark, int(rest))
        elif mark == "threads":
            count, _, refused = rest.partition(" ")
            case.threads, case.refused = int(count), refused == "refused"
        elif (mark, rest) == ("interrupted", ""):
            case.interrupted = True
        elif mark == "version" and not rest:
            case.wanted_output += f"renamer {(ROOT / 'VERSION').read_text().strip()}\n".encode()
        elif (mark, rest) == ("by", "the script"):
            case.by_script = True
        else:
            return self.stream(mark, rest)
        return True

    def stream(self, mark, rest):
        """A line that says what a stream of the case is. Whether it was one."""
        case = self.case
        if (mark, rest) == ("output", "open"):
            case.open_output = True
        elif mark == "output" and rest in OUTPUTS:
            case.output = rest
        elif mark == "errors" and (rest == "open" or rest.startswith("with ")):
            case.open_errors = True
            case.error_lines += [rest[5:]] if rest != "open" else []
        elif mark == "errors" and rest in ERRORS:
            case.errors = rest
        elif mark == "input" and rest in INPUTS:
            case.input = rest
        else:
            return False
        return True

    def text(self, line):
        """Lines of input, output or errors, or a text of an open output. Whether it was one."""
        case, (mark, _, rest) = self.case, line.partition(" ")
        stream = {"<": case.given, ">": case.wanted_output, "!": case.wanted_errors}.get(line[0])
        form = {"": lines_of, "-": unescaped, line[0]: lines_without_blanks}.get(mark[1:])
        if mark == "?":
            case.open_output = True
            case.texts.append(rest)
        elif mark == "lacks":
            case.open_output = True
            case.unwanted_texts.append(rest)
        elif line == ">@":
            stream += reckoned(case.words, bytes(case.given))
        elif stream is not None and form:
            stream += form(rest)
        else:
            return False
        return True

    def line(self, line):
        """A line of the table."""
        if not line or line.startswith("#"):
            return
        mark, _, rest = line.partition(" ")
        if mark == "case" and rest:
            name, _, words = rest.partition(":")
            self.begin(name)
            self.words(words)
        elif not self.whole(mark, rest) and not (self.case and (self.text(line) or self.setting(mark, rest))):
            raise NoCase(f"no line of a case: {line}")


def read(table):
    """The cases of a table."""
    reader = Reader()
    for row in table.splitlines():
        for line in rows_of(row):
            reader.line(line)
    reader.end()
    return reader.done
