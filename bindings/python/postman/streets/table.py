"""Tables with a header row, as spreadsheets write them.

Columns go by their names, in any order; columns that nobody asks for are passed over. Cells are parted by commas, by
semicolons (as spreadsheets write them where the comma is the decimal sign) or by tabs. Rows are numbered as the
spreadsheet numbers them: the first is row 1, blank rows count, and a quoted cell may hold line breaks.
"""

from __future__ import annotations

import csv
import io
from typing import Iterable, NamedTuple

from .errors import ListError, clipped
from .numerals import whole_of


MOST_BYTES = 100_000_000
"""The most bytes of a file that are read. No list is near it, and a disk's image would take all memory."""

FARTHEST = 1_000_000_000
"""The farthest that a coordinate may lie from 0: no grid of the earth has more metres."""


class Row(NamedTuple):
    """One row: where it stands, and its cells by the columns' names."""

    file: str
    number: int
    cells: dict[str, str]

    def text(self, column: str) -> str:
        """The cell's text, "" where the table has no such column."""
        return self.cells.get(column, "")

    def error(self, column: str | None, message: str) -> ListError:
        return ListError(message, self.file, self.number, column, self.text("street"))

    def needed(self, column: str) -> str:
        """The cell's text, which must not be empty."""
        text = self.text(column)
        if not text:
            raise self.error(column, f"{column} is empty")
        return text

    def whole(self, column: str, highest: int) -> int:
        """The cell's number, a whole one from 0 to `highest`. Tables of decimals write it as 30.0 or 30.00; what has
        three digits behind its point may be thousands, and is not taken."""
        text = self.needed(column)
        digits, point, zeros = (text[1:] if text[0] in "+-" else text).replace(",", ".").partition(".")
        number = whole_of(digits) if not point or zeros in ("0", "00") else None
        if number is None:
            raise self.error(column, f"{column} {clipped(text)} is not a whole number")
        if text[0] == "-" and number > 0:
            raise self.error(column, f"{column} {clipped(text)} is below 0")
        if number > highest:
            raise self.error(column, f"{column} {clipped(text)} is above {highest}")
        return number

    def decimal(self, column: str) -> float | None:
        """The cell's number, or None where it is empty. The decimal sign may be a comma."""
        text = self.text(column)
        if not text:
            return None
        try:
            number = float(text.replace(",", ".") if "." not in text else text)
        except ValueError:
            raise self.error(column, f"{column} {clipped(text)} is not a number") from None
        if number != number:
            raise self.error(column, f"{column} {text} is not a number")
        if abs(number) > FARTHEST:
            raise self.error(column, f"{column} {clipped(text)} is not between -{FARTHEST} and {FARTHEST}")
        return number


class Table(NamedTuple):
    """A header's columns, and the rows that are not blank."""

    file: str
    header: tuple[str, ...]
    rows: tuple[Row, ...]


def name_of(text: str) -> str:
    """A name as it is compared: without spaces around it, one space for any run of them, and accents composed.

    What is no letter that can be shown or written counts as a space: a terminal would obey it, and no table hold it.
    """
    text = " ".join(text.split())
    if not (text.isascii() and text.isprintable()):
        from unicodedata import category, normalize

        shown = (" " if category(letter) in ("Cc", "Cs") else letter for letter in text)
        text = normalize("NFC", " ".join("".join(shown).split()))
    return text


def read_bytes(path: str) -> bytes:
    """A file's bytes, those of standard input for "-"; or an error that names the file."""
    try:
        if path == "-":
            import sys

            data = sys.stdin.buffer.read(MOST_BYTES + 1)
        else:
            with open(path, "rb") as file:
                data = file.read(MOST_BYTES + 1)
    except OSError as error:
        raise ListError(f"cannot be read: {error.strerror}", path) from None
    if len(data) > MOST_BYTES:
        raise ListError(f"has more than {MOST_BYTES:,} bytes, and is no list of streets", path)
    return data


def decoded(data: bytes, file: str) -> str:
    """The text of a file: UTF-8 with or without a byte order mark, or UTF-16 with one."""
    if data[:2] in (b"\xff\xfe", b"\xfe\xff"):
        encoding = "utf-16"
    else:
        encoding = "utf-8-sig"
    if data.startswith(b"PK\x03\x04"):
        raise ListError("is a spreadsheet's own file; save it as CSV UTF-8", file)
    try:
        text = data.decode(encoding)
        if "\0" in text:
            raise ListError("is no text; save it as CSV UTF-8", file, text.count("\n", 0, text.index("\0")) + 1)
        return text
    except UnicodeDecodeError as error:
        if encoding == "utf-16":
            raise ListError("is not UTF-16 text, as its first bytes say; save it as CSV UTF-8", file) from None
        row = data.count(b"\n", 0, error.start) + 1
        message = f"a letter is not UTF-8 (byte 0x{data[error.start]:02X}); save the file as CSV UTF-8"
        raise ListError(message, file, row) from None


def separator_of(line: str) -> str:
    """What parts the cells of a header: the comma, the semicolon or the tab, whichever it has most of."""
    return max(",;\t", key=line.count)


def read_table(path: str, needed: Iterable[str], optional: Iterable[str] = (), data: bytes | None = None) -> Table:
    """Reads a table whose header must have the columns `needed` and may have those of `optional`."""
    needed = tuple(needed)
    text = decoded(read_bytes(path) if data is None else data, path)
    first = next((line for line in text.splitlines() if line.strip(" ,;\t")), "")
    records = csv.reader(io.StringIO(text, newline=""), delimiter=separator_of(first), strict=True)
    header: tuple[str, ...] = ()
    rows: list[Row] = []
    number = 0
    try:
        for number, record in enumerate(records, 1):
            cells = [name_of(cell) for cell in record]
            if not any(cells):
                continue
            if not header:
                header = header_of(path, number, cells, needed, (*needed, *optional))
                continue
            if any(cells[len(header) :]):
                street = dict(zip(header, cells)).get("street")
                message = f"{len(cells)} cells under {len(header)} columns; put a cell that holds a comma in quotes"
                raise ListError(message, path, number, None, street)
            rows.append(Row(path, number, {column: cell for column, cell in zip(header, cells) if column}))
    except csv.Error as error:
        what = "a cell is too long" if "limit" in str(error) else "the quotes do not pair up"
        raise ListError(f"{what} ({error})", path, number + 1) from None
    if not header:
        raise ListError(f"is empty; its first row names the columns {', '.join(needed)}", path)
    return Table(path, header, tuple(rows))


def header_of(
    path: str, number: int, cells: list[str], needed: tuple[str, ...], known: tuple[str, ...]
) -> tuple[str, ...]:
    """The columns' names in small letters; each that is needed must be there, and none that is known twice."""
    header = tuple(cell.lower() for cell in cells)
    for column in needed:
        if column not in header:
            found = ", ".join(cell for cell in cells if cell)
            raise ListError(f"no column is named {column}; the header has: {found}", path, number, column)
    for column in known:
        if header.count(column) > 1:
            raise ListError(f"two columns are named {column}", path, number, column)
    return header


def written(header: Iterable[str], rows: Iterable[Iterable[object]]) -> str:
    """The text of a table; None is an empty cell."""
    text = io.StringIO(newline="")
    writer = csv.writer(text, lineterminator="\n")
    writer.writerow(header)
    writer.writerows(["" if cell is None else cell for cell in row] for row in rows)
    return text.getvalue()


def encoded(text: str) -> bytes:
    """A table's bytes: UTF-8, with a byte order mark where letters beyond ASCII need one for spreadsheets to see it."""
    return text.encode("ascii" if text.isascii() else "utf-8-sig")
