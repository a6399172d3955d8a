"""Tables of texts whose columns line up, drawn by the library papergrid, which is proved.

>>> import papergrid
>>> print(papergrid.draw([["name", "age"], ["Ada", 3], ["Bo", 12]]))
╭──────┬─────╮
│ name │ age │
├──────┼─────┤
│ Ada  │   3 │
│ Bo   │  12 │
╰──────┴─────╯

A `Table` takes rows of values, and draws them. Widths are in columns of a terminal, and heights in lines.
"""

import itertools
import re
from typing import Any, Iterable, Iterator, NamedTuple, Optional, Sequence, Tuple, Union

from . import _library
from ._library import (
    BadSetting,
    Hidden,
    NotTiled,
    OutOfMemory,
    OutOfTable,
    PapergridError,
    TooLarge,
)
from ._styles import STYLES

__all__ = [
    "BadSetting",
    "Hidden",
    "NotTiled",
    "OutOfMemory",
    "OutOfTable",
    "PapergridError",
    "Place",
    "STYLES",
    "Table",
    "TooLarge",
    "draw",
]

# What ends a cell and a row on the way to the library, and how many rows go there at once.
_CELL_END, _ROW_END = "\x1f", "\x1e"
_PORTION = 1000

# Characters that would break the lines of a table: control characters but a line feed, and those that turn the direction of a text.
_BREAKING = re.compile("[\x00-\x09\x0b-\x1f\x7f-\x9f\u202a-\u202e\u2066-\u2069]")
# The same of ASCII, as bytes, and the others.
_ASCII_BREAKING = bytes([*range(0x0a), *range(0x0b, 0x20), 0x7f])
_OTHER_BREAKING = re.compile("[\x80-\x9f\u202a-\u202e\u2066-\u2069]")
_NAMED = {"\t": "\\t", "\r": "\\r"}

# A sign, digits with groups of three or without, a fraction and an exponent.
_NUMBER = re.compile(r"[+-]?(?:[0-9]{1,3}(?:,[0-9]{3})+|[0-9]+|(?=\.[0-9]))(?:\.[0-9]*)?(?:[eE][+-]?[0-9]+)?")

_ALIGNMENTS = ("left", "center", "right")

Align = Union[str, Sequence[str]]


class Place(NamedTuple):
    """Where a cell stands: its first column of the terminal, its first line, and how many of each it takes."""

    column: int
    line: int
    width: int
    height: int


def _spelled(text: str) -> str:
    """A text whose control characters are spelled."""

    def spell(found: "re.Match[str]") -> str:
        character = found[0]
        code = ord(character)
        return _NAMED.get(character) or (f"\\x{code:02x}" if code < 0x80 else f"\\u{{{code:x}}}")

    return _BREAKING.sub(spell, text)


def _text(value: Any) -> str:
    return value if isinstance(value, str) else "" if value is None else str(value)


def _texts_of(rows: Sequence[Iterable[Any]]) -> Tuple[Sequence[Sequence[str]], Sequence[int], str]:
    """The texts of rows of values, how many each row has, and all of them as one text, with an end behind each row."""
    try:
        # So where each row has a length and each value is a text no list is made anew.
        lengths = list(map(len, rows))
        return rows, lengths, _ROW_END.join([*map(_CELL_END.join, rows), ""])
    except TypeError:
        texts = [[_text(value) for value in row] for row in rows]
        return texts, list(map(len, texts)), _ROW_END.join([*map(_CELL_END.join, texts), ""])


def _column(texts: Sequence[Sequence[str]], heads: int, column: int) -> Iterator[str]:
    """The texts of a column below the heads."""
    for row in itertools.islice(texts, heads, None):
        if column < len(row):
            yield row[column] if isinstance(row, (list, tuple)) else list(row)[column]


def _is_numeric(column: Iterable[str]) -> bool:
    """Whether each text is a number or empty, and one at least is a number."""
    some = False
    for text in column:
        if text:
            if not _NUMBER.fullmatch(text):
                return False
            some = True
    return some


class Table:
    """A table of rows of values, as their texts.

    rows: a list of rows, each a list of values; a value that is no text is shown as `str` has it, and None as an empty text.
        Rows may be of unlike length: the table has as many columns as the longest one.
    header: whether the first row is a head. In styles that have one a line stands below it, and `auto` passes it over.
    style: one of `STYLES`.
    align: `left`, `center`, `right`, or `auto`, by which columns of numbers stand on the right and others on the left;
        or a list of these, one a column.
    least: whether the widths and heights are those of the least total where cells span several columns or rows.

    Control characters in texts are spelled, as `\\t` and `\\x1b`. A line feed begins a new line of its cell.
    Raises ValueError for a style or an alignment that is none, and OutOfMemory.
    """

    def __init__(
        self,
        rows: Iterable[Iterable[Any]],
        header: bool = True,
        style: str = "rounded",
        align: Align = "auto",
        least: bool = False,
    ) -> None:
        if style not in STYLES:
            raise ValueError(f"no style is named {style!r}; there are {', '.join(STYLES)}")
        self._least = least
        self._is_estimated = False
        self._handle = _library.Handle()
        self._columns = 0
        texts = self._push(rows if isinstance(rows, (list, tuple)) else list(rows))
        self._rows = len(texts)
        self._set_style(style, header)
        self._set_alignments(texts, 1 if header else 0, align)

    def _push(self, rows: Sequence[Iterable[Any]]) -> Sequence[Sequence[str]]:
        """Hands all rows on, and answers their texts. Where no row has a cell nothing is handed on."""
        texts, waiting = rows, 0
        for start in range(0, len(rows), _PORTION):
            portion = rows[start : start + _PORTION]
            told, lengths, joined = _texts_of(portion)
            if told is not portion:
                texts = list(texts)
                texts[start : start + _PORTION] = told
            self._columns = max(self._columns, *lengths)
            if self._columns == 0:
                waiting += len(told)
                continue
            data = (waiting * _ROW_END).encode() + self._checked(told, lengths, joined)
            waiting = 0
            self._handle.push_rows(data, ord(_CELL_END), ord(_ROW_END))
        return texts

    def _checked(self, texts: Sequence[Sequence[str]], lengths: Sequence[int], joined: str) -> bytes:
        """All texts as one, whose control characters are spelled. Only where there are such is each text looked at alone."""
        data = joined.encode()
        # Between cells, and behind rows; a row without cells ends as one with one.
        ends = sum(lengths) + lengths.count(0)
        breaking = len(data) - len(data.translate(None, _ASCII_BREAKING))
        if breaking == ends and (joined.isascii() or not _OTHER_BREAKING.search(joined)):
            return data
        return _ROW_END.join([*(_CELL_END.join(map(_spelled, row)) for row in texts), ""]).encode()

    def _set_style(self, style: str, header: bool) -> None:
        it = STYLES[style]
        self._handle.set_borders([ord(c) if c else 0 for c in it.frame])
        line = it.head if header else it.line
        if line and self._rows > 1:
            self._handle.insert_horizontal_line(1, [ord(c) if c else 0 for c in line])
        self._handle.set_padding(_library.ALL, it.padding, it.padding, 0, 0)

    def _set_alignments(self, texts: Sequence[Sequence[str]], heads: int, align: Align) -> None:
        if isinstance(align, str):
            each, common = [], align
        else:
            each, common = list(align), "left"
        for name in [*each, common]:
            if name not in _ALIGNMENTS and name != "auto":
                raise ValueError(f"no alignment is named {name!r}; there are left, center, right and auto")
        base = "left" if common == "auto" else common
        self._handle.set_alignment(_library.ALL, _ALIGNMENTS.index(base))
        for column in range(self._columns):
            name = each[column] if column < len(each) else common
            if name == "auto":
                name = "right" if _is_numeric(_column(texts, heads, column)) else "left"
            if name != base:
                self._handle.set_alignment(_library.column(column), _ALIGNMENTS.index(name))

    def span(self, row: int, column: int, rows: int = 1, columns: int = 1) -> "Table":
        """Lets a cell span so many rows and columns. The cells under it are not drawn."""
        self._is_estimated = False
        self._handle.set_column_span(row, column, columns)
        self._handle.set_row_span(row, column, rows)
        return self

    def set(self, name: str, *values: Any) -> "Table":
        """Any setting by its name and values, as a JSON document has it: `set("SetPadding", ["Column", 0], ...)`.

        Raises BadSetting where it is none.
        """
        self._is_estimated = False
        self._handle.set(name, *values)
        return self

    def _drawn(self) -> bytearray:
        picture = self._handle.draw(self._least)
        del picture[-1:]
        return picture

    def __str__(self) -> str:
        """The picture, without a line feed at its end. Raises OutOfTable, NotTiled, TooLarge or OutOfMemory."""
        return self._drawn().decode()

    def _estimate(self) -> Tuple[int, int]:
        if not self._is_estimated:
            self._totals = self._handle.estimate(self._least)
            self._is_estimated = True
        return self._totals

    @property
    def width(self) -> int:
        """How many columns of a terminal the table takes, with its lines."""
        return self._estimate()[0]

    @property
    def height(self) -> int:
        """How many lines it takes."""
        return self._estimate()[1]

    @property
    def widths(self) -> Sequence[int]:
        """The width of each column, in columns of a terminal, without the lines between."""
        self._estimate()
        return self._handle.sizes("widths")

    @property
    def heights(self) -> Sequence[int]:
        """The height of each row, in lines."""
        self._estimate()
        return self._handle.sizes("heights")

    @property
    def width_certificate(self) -> Optional[Sequence[Tuple[int, int]]]:
        """The rows and columns of cells that show that no widths with room for all cells have a smaller sum.

        No two of them share a column, and what each needs, less the lines inside of it, adds up to the widths. None where sizes are not
        asked to be `least` and two cells over several columns overlap in part.
        """
        self._estimate()
        return self._handle.certificate("width_certificate")

    @property
    def height_certificate(self) -> Optional[Sequence[Tuple[int, int]]]:
        """The same of the heights: no two of the cells share a row."""
        self._estimate()
        return self._handle.certificate("height_certificate")

    def place(self, row: int, column: int) -> Place:
        """Where a cell stands. Raises Hidden for a position under a span, and OutOfTable."""
        self._estimate()
        return Place(*self._handle.place(row, column))

    def cell_at(self, column: int, line: int) -> Optional[Tuple[int, int]]:
        """The row and the column of the cell at a column of the terminal in a line, both counted from 0; None on a line of the table."""
        self._estimate()
        return self._handle.cell_at(column, line)


def draw(
    rows: Iterable[Iterable[Any]],
    header: bool = True,
    style: str = "rounded",
    align: Align = "auto",
    least: bool = False,
) -> str:
    """The picture of a `Table` of these."""
    # The table is gone before its picture is decoded, which then has its memory.
    return Table(rows, header, style, align, least)._drawn().decode()
