"""The functions of the shared library, and what its numbers mean."""

import ctypes
import ctypes.util
import json
import os
import pathlib
from typing import Any, Optional, Sequence, Tuple


class PapergridError(Exception):
    """A call of the library was refused."""


class OutOfMemory(PapergridError, MemoryError):
    """An allocation failed."""


class BadSetting(PapergridError, ValueError):
    """No setting is written so, or its values are out of range."""


class OutOfTable(PapergridError):
    """A cell ends past the last column or the last row; `position` is its row and column."""

    position: Optional[Tuple[int, int]] = None


class NotTiled(PapergridError):
    """No cell, or more than one, covers a position; `position` is its row and column."""

    position: Optional[Tuple[int, int]] = None


class TooLarge(PapergridError):
    """A size is past 64 bits."""


class Hidden(PapergridError, LookupError):
    """The position is under the span of another cell."""


_ERRORS = {
    1: (OutOfMemory, "out of memory"),
    2: (PapergridError, "there is no table"),
    3: (PapergridError, "a text is not UTF-8"),
    4: (BadSetting, "no setting is told so"),
    5: (BadSetting, "a setting is out of range"),
    6: (OutOfTable, "a cell ends out of the table"),
    7: (NotTiled, "not exactly one cell covers a position"),
    8: (TooLarge, "a size is past 64 bits"),
    9: (PapergridError, "no sizes were found"),
    10: (Hidden, "the position is under the span of another cell"),
    11: (PapergridError, "there is no room for the answer"),
    12: (BadSetting, "a value is none of those that are wanted"),
}
_NO_CELL, _NO_CERTIFICATE, _NO_ROOM = 13, 14, 11


class _Handle(ctypes.Structure):
    _fields_ = [("at", ctypes.c_void_p)]


class Entity(ctypes.Structure):
    """All cells, those of a column or of a row, or one."""

    _fields_ = [("kind", ctypes.c_uint32), ("row", ctypes.c_size_t), ("column", ctypes.c_size_t)]


class _Position(ctypes.Structure):
    _fields_ = [("row", ctypes.c_size_t), ("column", ctypes.c_size_t)]


class _Place(ctypes.Structure):
    _fields_ = [
        ("column", ctypes.c_size_t), ("line", ctypes.c_size_t), ("width", ctypes.c_size_t), ("height", ctypes.c_size_t),
    ]


ALL = Entity(0, 0, 0)


def column(number: int) -> Entity:
    return Entity(1, 0, number)


def _path() -> str:
    """Where the shared library is: as PAPERGRID_LIBRARY says, beside this file, or where the system has it."""
    told = os.environ.get("PAPERGRID_LIBRARY")
    beside = pathlib.Path(__file__).with_name("libpapergrid.so")
    found = told or (str(beside) if beside.exists() else ctypes.util.find_library("papergrid"))
    if not found:
        raise ImportError("libpapergrid.so is not found: bindings/c/build makes it, and PAPERGRID_LIBRARY tells where it is")
    return found


_IT = ctypes.CDLL(_path())
_SIZE, _BYTES, _NUMBER = ctypes.c_size_t, ctypes.c_char_p, ctypes.c_uint32
_HANDLE, _SIZES, _CHARACTERS = ctypes.POINTER(_Handle), ctypes.POINTER(_SIZE), ctypes.POINTER(_NUMBER)
_FUNCTIONS = {
    "new": [],
    "free": [],
    "push_rows": [_BYTES, _SIZE, ctypes.c_uint8, ctypes.c_uint8],
    "set": [_BYTES, _SIZE],
    "set_padding": [Entity, _SIZE, _SIZE, _SIZE, _SIZE],
    "set_alignment": [Entity, _NUMBER],
    "set_borders": [_CHARACTERS, _SIZE],
    "insert_horizontal_line": [_SIZE, _CHARACTERS, _SIZE],
    "set_column_span": [_SIZE, _SIZE, _SIZE],
    "set_row_span": [_SIZE, _SIZE, _SIZE],
    "estimate": [_NUMBER, _SIZES, _SIZES],
    "place": [_SIZE, _SIZE, ctypes.POINTER(_Place)],
    "cell_at": [_SIZE, _SIZE, ctypes.POINTER(_Position)],
    "widths": [_SIZES, _SIZE, _SIZES],
    "heights": [_SIZES, _SIZE, _SIZES],
    "width_certificate": [ctypes.POINTER(_Position), _SIZE, _SIZES],
    "height_certificate": [ctypes.POINTER(_Position), _SIZE, _SIZES],
    "draw": [_NUMBER, _SIZES, ctypes.POINTER(_Position)],
    "picture": [ctypes.c_void_p, _SIZE],
}
for _name, _arguments in _FUNCTIONS.items():
    _function = getattr(_IT, f"papergrid_{_name}")
    _function.argtypes = [_HANDLE, *_arguments]
    _function.restype = None if _name == "free" else ctypes.c_int32


def _check(number: int, position: Optional[_Position] = None) -> None:
    if number == 0:
        return
    kind, words = _ERRORS.get(number, (PapergridError, f"refused by number {number}"))
    if position is not None and kind in (OutOfTable, NotTiled):
        error = kind(f"{words}: row {position.row}, column {position.column}")
        error.position = (position.row, position.column)
        raise error
    raise kind(words)


def _characters(codes: Sequence[int]) -> Any:
    return (_NUMBER * len(codes))(*codes)


class Handle:
    """A table of the library, which is freed with this."""

    def __init__(self) -> None:
        self._it = _Handle(None)
        _check(_IT.papergrid_new(self._it))

    def __del__(self) -> None:
        if getattr(self, "_it", None) is not None:
            _IT.papergrid_free(self._it)

    def push_rows(self, text: bytes, cell_end: int, row_end: int) -> None:
        _check(_IT.papergrid_push_rows(self._it, text, len(text), cell_end, row_end))

    def set(self, name: str, *values: Any) -> None:
        text = json.dumps([name, *values]).encode()
        _check(_IT.papergrid_set(self._it, text, len(text)))

    def set_padding(self, entity: Entity, left: int, right: int, top: int, bottom: int) -> None:
        _check(_IT.papergrid_set_padding(self._it, entity, left, right, top, bottom))

    def set_alignment(self, entity: Entity, alignment: int) -> None:
        _check(_IT.papergrid_set_alignment(self._it, entity, alignment))

    def set_borders(self, codes: Sequence[int]) -> None:
        _check(_IT.papergrid_set_borders(self._it, _characters(codes), len(codes)))

    def insert_horizontal_line(self, row: int, codes: Sequence[int]) -> None:
        _check(_IT.papergrid_insert_horizontal_line(self._it, row, _characters(codes), len(codes)))

    def set_column_span(self, row: int, column: int, columns: int) -> None:
        _check(_IT.papergrid_set_column_span(self._it, row, column, columns))

    def set_row_span(self, row: int, column: int, rows: int) -> None:
        _check(_IT.papergrid_set_row_span(self._it, row, column, rows))

    def estimate(self, least: bool) -> Tuple[int, int]:
        width, height = _SIZE(), _SIZE()
        _check(_IT.papergrid_estimate(self._it, int(least), width, height))
        return width.value, height.value

    def place(self, row: int, column: int) -> Tuple[int, int, int, int]:
        place = _Place()
        number = _IT.papergrid_place(self._it, row, column, place)
        _check(number, _Position(row, column))
        return place.column, place.line, place.width, place.height

    def cell_at(self, column: int, line: int) -> Optional[Tuple[int, int]]:
        position = _Position()
        number = _IT.papergrid_cell_at(self._it, column, line, position)
        if number == _NO_CELL:
            return None
        _check(number)
        return position.row, position.column

    def _listed(self, name: str, item: Any) -> Optional[Sequence[Any]]:
        """What the function lists, asked for its count first; None where it has no list."""
        ask, count = getattr(_IT, f"papergrid_{name}"), _SIZE()
        number = ask(self._it, None, 0, count)
        if number == _NO_CERTIFICATE:
            return None
        if number != _NO_ROOM:
            _check(number)
        items = (item * count.value)()
        _check(ask(self._it, items, count.value, count))
        return items

    def sizes(self, name: str) -> Sequence[int]:
        return list(self._listed(name, _SIZE) or ())

    def certificate(self, name: str) -> Optional[Sequence[Tuple[int, int]]]:
        cells = self._listed(name, _Position)
        return None if cells is None else [(cell.row, cell.column) for cell in cells]

    def draw(self, least: bool) -> bytearray:
        length, position = _SIZE(), _Position()
        _check(_IT.papergrid_draw(self._it, int(least), length, position), position)
        picture = bytearray(length.value)
        if picture:
            _check(_IT.papergrid_picture(self._it, (ctypes.c_char * len(picture)).from_buffer(picture), len(picture)))
        return picture
