"""The text of a file as one editor has it, kept up with its changes. Positions are in UTF-16 code
units.
"""
import re
from typing import Any

_LINE = re.compile(r"[^\r\n]*(?:\r\n|\n|\r)|[^\r\n]+")


class NoChange(ValueError):
    """The value is no change of a text."""


def _units(line: str, units: int) -> int:
    """How many characters of a line, without its end, so many code units are."""
    line = line.rstrip("\r\n")
    if line.isascii():
        return min(units, len(line))
    for place, character in enumerate(line):
        if units <= 0:
            return place
        units -= 2 if ord(character) > 0xffff else 1
    return len(line)


class Text:
    """A text as its lines, each with its end, so that a change costs what the lines cost that it is
    about.
    """

    def __init__(self, text: str) -> None:
        self._lines: list[str] = _LINE.findall(text)

    def whole(self) -> str:
        """The text."""
        return "".join(self._lines)

    def is_same(self, other: "Text") -> bool:
        """Whether both texts are equal. Equal lines are kept once."""
        if self._lines != other._lines:
            return False
        self._lines[:] = other._lines
        return True

    def change(self, changes: list[Any]) -> None:
        """Takes changes, in their order. One that is none leaves the text as it is."""
        for change in changes:
            try:
                self._take(change)
            except NoChange:
                pass

    def _take(self, change: Any) -> None:
        """Takes one change: the whole text, or a range of it and what stands there from now on."""
        try:
            if change.get("range") is None:
                self._lines = _LINE.findall(change["text"])
                return
            start, end = change["range"]["start"], change["range"]["end"]
            self._splice((start["line"], start["character"]), (end["line"], end["character"]), change["text"])
        except (AttributeError, KeyError, TypeError) as why:
            raise NoChange(repr(why)) from None

    def _splice(self, start: tuple[int, int], end: tuple[int, int], text: str) -> None:
        """Puts a text in the place of what stands from start to end. The lines before and after are
        cut anew as well, since a line end may begin in one and end in the other.
        """
        above = min(max(start[0] - 1, 0), len(self._lines))
        below = max(start[0], end[0]) + 2
        region = "".join(self._lines[above:below])
        first = self._offset(above, start)
        last = max(first, self._offset(above, end))
        self._lines[above:below] = _LINE.findall(region[:first] + text + region[last:])

    def _offset(self, above: int, position: tuple[int, int]) -> int:
        """Where a position stands after the beginning of a line. One past an end is that end."""
        line, units = position
        before = sum(map(len, self._lines[above:line]))
        return before + _units(self._lines[line], units) if line < len(self._lines) else before
