"""What a text of help shows: examples, fault lines, causes, statuses, and all else as one line of prose."""
import dataclasses
import re

# The words that ask for the help of the program, and of each of its jobs.
WORDS = ["renamer --help", *(f"renamer {job} --help" for job in ("run", "check", "replay", "show"))]
HEADERS = ("epoch,client,entry", "epoch,client", "epoch,client,name", "op,client,wire")


@dataclasses.dataclass
class Example:
    """A command of the shell, its standard input, and the lines that it is to print."""

    command: str
    input: str
    output: list


@dataclasses.dataclass
class Shown:
    """What a text shows. `commands` are the blocks that begin with `$ `, `causes` the lines of its table of causes,
    `statuses` pairs of a number and its words, and `unknown` says which blocks are none of these."""

    examples: list = dataclasses.field(default_factory=list)
    commands: list = dataclasses.field(default_factory=list)
    faults: list = dataclasses.field(default_factory=list)
    causes: list = dataclasses.field(default_factory=list)
    statuses: list = dataclasses.field(default_factory=list)
    unknown: list = dataclasses.field(default_factory=list)
    prose: str = ""


class Reader:
    """Reads a text paragraph by paragraph: what a block is follows from it and the prose before it."""

    def __init__(self):
        self.shown = Shown()
        self.lead = ""
        self.command = None
        # The last input, and whether a command has read it.
        self.input, self.is_read = None, True

    def output(self, lines, command):
        """The output of a command that reads the last input; `show` reads none."""
        reads = command.split()[1] != "show"
        if reads and self.input is None:
            self.shown.unknown.append(f"no input is shown for: {command}")
            return
        self.command, self.is_read = command, self.is_read or reads
        self.shown.examples.append(Example(command, self.input if reads else "", lines))

    def block(self, lines):
        """A block is a command with its output, fault lines, the output of the command or of the last command with the
        options that the prose before it marks first, or an input."""
        marked = re.search(r"`([^`]*)`", self.lead)
        words = marked.group(1) if marked else ""
        if lines[0].startswith("$ "):
            self.shown.commands.append(lines)
        elif all(line.startswith("renamer: ") for line in lines):
            self.shown.faults += lines
        elif words.startswith("renamer ") or (words.startswith("--") and self.command):
            # What is run is no prose.
            self.shown.prose = self.shown.prose.replace(f"`{words}`", "``", 1)
            self.output(lines, words if words.startswith("renamer ") else f"{self.command} {words}")
        elif lines[0] in HEADERS and self.is_read:
            self.input, self.is_read = "".join(f"{line}\n" for line in lines), False
        else:
            self.shown.unknown.append(f"nobody runs the block that begins with: {lines[0]}")
        self.lead = ""

    def paragraph(self, lines):
        if re.match(r" +-|Options:$| {10}", lines[0]):
            # An option with what it is for, which is prose, as is its default in a paragraph of its own.
            self.shown.prose += " ".join(" ".join(lines).split()) + "\n"
        elif all(line.startswith("    ") for line in lines):
            self.block([line[4:] for line in lines])
        elif self.lead.startswith("Causes;"):
            self.shown.causes, self.lead = lines, ""
        elif lines[0] == "Status:":
            # A status may go on in the next line.
            lines = re.sub(r"\n {3,}", " ", "\n".join(lines)).splitlines()
            found = [re.fullmatch(r" +(\d+) +(.*)", line) for line in lines[1:]]
            self.shown.statuses += [(int(line.group(1)), line.group(2)) for line in found if line]
            self.shown.unknown += [f"no status: {line}" for line, is_one in zip(lines[1:], found) if not is_one]
        else:
            self.lead = " ".join(" ".join(lines).split())
            self.shown.prose += self.lead + "\n"


def read(text):
    """What a text of help shows."""
    reader = Reader()
    for paragraph in re.split(r"\n(?: *\n)+", text):
        lines = paragraph.strip("\n").splitlines()
        if lines:
            reader.paragraph(lines)
    if not reader.is_read:
        reader.shown.unknown.append("no command reads the last input")
    return reader.shown
