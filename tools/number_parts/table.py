"""Reads a CSV block by block, as bytes: rows without quotes are cut at once, and others by the module csv."""
import csv
import gzip
import io
import itertools
import os
import sys

# So many bytes are read at a time, which caches hold with what is made of them.
BLOCK = 1 << 14
# So many signs of a text are shown of a fault.
LONGEST = 60
MARK = b"\xef\xbb\xbf"


class Fault(Exception):
    """Why nothing comes of it, with the status."""

    def __init__(self, status: int, said: str):
        super().__init__(said)
        self.status = status


def shown(text: bytes) -> str:
    """Returns a text in quotes, on one line, and cut off if it is long."""
    said = text.decode("utf-8", "backslashreplace")
    return repr(said[:LONGEST]) + ".." * (len(said) > LONGEST)


def listed(words: list[str]) -> str:
    """Returns words with commas, and `and` before the last."""
    return " and ".join(part for part in (", ".join(words[:-1]), words[-1]) if part)


class Plain:
    """Rows without quotes, which all have as many fields and the same end, and no blank lines."""

    def __init__(self, text: bytes, end: bytes, lines: range, delimiter: bytes, width: int):
        self.text, self.end, self.lines, self.delimiter, self.width = text, end, lines, delimiter, width

    def columns(self, places: list[int]) -> list[list[bytes]]:
        """Returns the fields of each column."""
        fields = self.text.replace(self.end, self.delimiter).split(self.delimiter)
        return [fields[place:-1:self.width] for place in places]

    def template(self, mark: bytes) -> bytes:
        """Returns the rows with a mark at the end of each, as `%` reads them."""
        return self.text.replace(b"%", b"%%").replace(self.end, mark + self.end)


class Parsed:
    """Rows of any kind: what stands before the first, and each with the blank lines that follow it."""

    def __init__(self):
        self.before, self.texts, self.lines, self.rows = b"", [], [], []

    def add(self, row: list[str], text: bytes, line: int):
        """Adds a row, or a blank line, which has no fields."""
        if row:
            self.rows.append(row)
            self.texts.append(text)
            self.lines.append(line)
        elif self.texts:
            self.texts[-1] += text
        else:
            self.before += text

    def columns(self, places: list[int]) -> list[list[bytes]]:
        """Returns the fields of each column, as bytes."""
        return [[row[place].encode("latin-1") for row in self.rows] for place in places]

    def template(self, mark: bytes) -> bytes:
        """Returns the rows with a mark at the end of each, as `%` reads them."""
        parts = [self.before]
        for text in self.texts:
            body = text.rstrip(b"\r\n")
            parts += body.replace(b"%", b"%%"), mark, text[len(body):]
        return b"".join(parts)


class Table:
    """A CSV in a file, which is read from its beginning more than once."""

    def __init__(self, file: io.BufferedIOBase, name: str, delimiter: bytes):
        # A field may have any size.
        csv.field_size_limit(sys.maxsize)
        self.file, self.name, self.delimiter, self.line, self.width = file, name, delimiter, 1, 0
        # Without these bytes a text has nothing but what sets its fields and rows apart.
        self.others = bytes(set(range(256)).difference(delimiter + b'"\r\n\0'))

    def header(self) -> Parsed:
        """Goes to the beginning, and reads the first row."""
        self.file.seek(0)
        before = self.file.read(len(MARK))
        if before != MARK:
            self.file.seek(0)
            before = b""
        self.line = 1
        while text := self.file.readline():
            rows = self.parsed(text)
            before += rows.before
            if rows.texts:
                rows.before, self.width = before, len(rows.rows[0])
                return rows
        raise Fault(1, f"{self.name} is empty: its first row is to name the columns, as customer_id,amount")

    def blocks(self):
        """Yields the rows after the header."""
        while text := self.file.read(BLOCK) + self.file.readline():
            yield self.plain(text) or self.parsed(text)

    def plain(self, text: bytes) -> Plain | None:
        """Returns the rows of a text if they are plain."""
        marks = text.translate(None, self.others)
        end = b"\r\n" if text.endswith(b"\r\n") else b"\n"
        row = self.delimiter * (self.width - 1) + end
        count = len(marks) // len(row)
        if marks != row * count or not text.endswith(end) or end == b"\r\n" and text.count(end) != count:
            return None
        # In rows of one field nothing else sets a blank line apart.
        if self.width == 1 and end * 2 in end + text:
            return None
        lines = range(self.line, self.line + count)
        self.line = lines.stop
        return Plain(text, end, lines, self.delimiter, self.width)

    def parsed(self, text: bytes) -> Parsed:
        """Reads the rows that begin in a text, of which the last may go on in what follows."""
        self.refuse_zeros(text)
        lines, done, rows = io.BytesIO(text).readlines(), 0, Parsed()

        def wanted():
            for at in itertools.count():
                if at == len(lines) and at > done:
                    lines.append(self.file.readline())
                if at == len(lines) or not lines[at]:
                    return
                self.refuse_zeros(lines[at])
                yield lines[at].decode("latin-1")

        reader = csv.reader(wanted(), delimiter=self.delimiter.decode(), strict=True)
        try:
            for row in reader:
                first, done = done, reader.line_num
                rows.add(row, b"".join(lines[first:done]), self.line + first)
        except csv.Error as fault:
            raise self.unreadable(self.line + done, str(fault)) from fault
        self.line += done
        return rows

    def refuse_odd(self, rows: Parsed):
        """Refuses a row that has not as many fields as the header."""
        for line, text, row in zip(rows.lines, rows.texts, rows.rows):
            if len(row) != self.width:
                what = f"{len(row)} field{'s' * (len(row) > 1)}, and the header has {self.width}"
                body = text.rstrip(b"\r\n")
                raise Fault(1, f"{self.name}: the row on line {line}, {shown(body)}, has {what}: give it as many, and "
                               f"put a field that has {shown(self.delimiter)} in it in quotes")

    def refuse_zeros(self, text: bytes):
        """Refuses a byte 0."""
        if b"\0" in text:
            raise Fault(1, f"{self.name} has a byte 0, on line {self.line} or after it, as texts in UTF-16 have: write "
                           "it in UTF-8, as by iconv -f UTF-16 -t UTF-8")

    def unreadable(self, line: int, said: str) -> Fault:
        """Returns the fault of a row that the module csv does not read."""
        if "end of data" in said:
            why = "a quote opens a field and none closes it: close it, and write a quote within such a field twice"
        elif "expected after" in said:
            why = "text follows the quote that closes a field: write a quote within a quoted field twice"
        else:
            why = "a carriage return stands within a field: put the field in quotes, or end lines by line feeds"
        return Fault(1, f"{self.name}: in the row on line {line} {why}")


def opened(path: str) -> io.BufferedIOBase:
    """Opens a file, or standard input by -, so that it can be read twice: what cannot is taken into memory. What gzip
    packed is unpacked as it is read."""
    file = open(0 if path == "-" else path, "rb", 8 * BLOCK, closefd=path != "-")
    if not file.seekable() or os.lseek(file.fileno(), 0, os.SEEK_CUR):
        file = io.BytesIO(file.read())
    is_packed = file.read(2) == b"\x1f\x8b"
    file.seek(0)
    if is_packed:
        file = gzip.GzipFile(fileobj=file)
    return file
