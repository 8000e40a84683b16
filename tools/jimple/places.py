"""Faults of texts, and how a place of a text is shown: its line and column, and the line with a mark below."""

import re
from typing import NamedTuple

WIDTH = 120
BEFORE = 60
UNSHOWN = re.compile(rb"[^ -~]")


class Fault(Exception):
    """Why a text isn't of the profile, and the byte where that shows, counted from 0."""

    def __init__(self, at: int, reason: str) -> None:
        super().__init__(at, reason)
        self.at = at
        self.reason = reason


class Place(NamedTuple):
    """A byte of a text as its line and column, each counted from 1, and the line's text without its end."""

    line: int
    column: int
    text: bytes

    def shown(self) -> str:
        """The line, cut to what stands near the place, and a mark below the place."""
        first = max(0, self.column - 1 - BEFORE)
        text = UNSHOWN.sub(b"?", self.text[first:first + WIDTH].replace(b"\t", b" "))
        return "%s\n%s^" % (text.decode("ascii"), " " * (self.column - 1 - first))


def place_of(text: bytes, at: int) -> Place:
    first = text.rfind(b"\n", 0, at) + 1
    end = text.find(b"\n", at)
    return Place(text.count(b"\n", 0, at) + 1, at - first + 1, text[first:] if end < 0 else text[first:end])
