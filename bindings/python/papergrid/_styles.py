"""The styles of a table: its lines and its padding."""

from typing import Dict, NamedTuple, Optional, Sequence


class Style(NamedTuple):
    """The parts of a frame, in the order of the library, the line below a head, the one that stays where there is none, and the blanks
    on both sides of a text."""

    frame: Sequence[str]
    head: Optional[Sequence[str]]
    line: Optional[Sequence[str]]
    padding: int


def _frame(**parts: str) -> Sequence[str]:
    names = (
        "top", "top_left", "top_right", "top_intersection", "bottom", "bottom_left", "bottom_right", "bottom_intersection",
        "horizontal", "vertical", "intersection", "left", "left_intersection", "right", "right_intersection",
    )
    return [parts.get(name, "") for name in names]


def _box(lines: str, top: str, bottom: str, rows: str = "") -> Sequence[str]:
    """A frame by its lines across and down, its characters at the top and at the bottom, and those of the lines between rows."""
    parts = dict(zip(("horizontal", "left_intersection", "intersection", "right_intersection"), rows))
    return _frame(
        top=lines[0], bottom=lines[0], left=lines[1], right=lines[1], vertical=lines[1], top_left=top[0], top_intersection=top[1],
        top_right=top[2], bottom_left=bottom[0], bottom_intersection=bottom[1], bottom_right=bottom[2], **parts,
    )


# The line itself, where a line between columns crosses it, its left end and its right end.
_THIN = "─┼├┤"

STYLES: Dict[str, Style] = {
    "rounded": Style(_box("─│", "╭┬╮", "╰┴╯"), _THIN, None, 1),
    "ascii": Style(_box("-|", "+++", "+++", "-+++"), None, None, 1),
    "modern": Style(_box("─│", "┌┬┐", "└┴┘", "─├┼┤"), None, None, 1),
    "sharp": Style(_box("─│", "┌┬┐", "└┴┘"), _THIN, None, 1),
    "extended": Style(_box("═║", "╔╦╗", "╚╩╝", "═╠╬╣"), None, None, 1),
    "psql": Style(_frame(vertical="|"), ("-", "+", "", ""), ("-", "+", "", ""), 1),
    "markdown": Style(_frame(vertical="|", left="|", right="|"), "-|||", "-|||", 1),
    "rst": Style(
        _frame(vertical=" ", top="=", top_intersection=" ", bottom="=", bottom_intersection=" "), ("=", " ", "", ""), ("=", " ", "", ""), 0,
    ),
    "dots": Style(_box(".:", "...", ":::", ".:::"), None, None, 1),
    "blank": Style(_frame(vertical=" "), None, None, 0),
    "none": Style(_frame(), None, None, 0),
}
