"""Why a call gave no answer."""

from __future__ import annotations

import enum

from ._library import library


class Refusal(enum.IntEnum):
    """Every refusal by its name. `tools/dev generated` writes them; the number of each stays the same for ever."""

    TOO_LONG = 1
    EMPTY_DEFINITION = 2
    NO_PREFIX = 3
    NO_NAME = 4
    NO_BASES = 5
    LINE_BASES = 6
    LINE_WIDTH = 7
    TABLE_FULL = 8
    EMPTY_INDEX_LINE = 9
    FIELD_ABSENT = 10
    NOT_A_NUMBER = 11
    ZERO_FIELD = 12
    NAME_SPLIT = 13
    NO_ROOM = 14
    NAME_UNKNOWN = 15
    BAD_BOUNDS = 16
    PAST_LENGTH = 17
    NOT_IN_FILE = 18
    LINE_ABSENT = 19
    BYTES_LEFT = 20
    NAME_DIFFERS = 21
    LENGTH_DIFFERS = 22
    BASE_ELSEWHERE = 23
    NO_COMPLEMENT = 24
    BAD_ROW = 25
    ALREADY_ENDED = 26
    ZERO_WIDTH = 27
    NAME_UNFIT = 28
    DESCRIPTION_UNFIT = 29
    BASE_UNFIT = 30
    MALFORMED_EXERCISE = 31
    UNKNOWN_NEEDED_TAG = 32
    UNKNOWN_EDITION = 33
    NOT_IN_WINDOW = 34
    WINDOW_PAST_END = 35
    PRIMER_LENGTH = 36
    PRIMER_LETTER = 37
    NO_PLUS_LINE = 38
    QUALITY_LINE = 39
    TOO_MANY_REGIONS = 40
    TOO_FEW_STARTS = 41
    NO_INDEX_FITS = 42

    @property
    def words(self) -> str:
        """What it means, without its places."""
        return words(int(self))


#: What the two numbers of a refusal say, from the same table; a call may give fewer.
_PLACES: dict[int, tuple[str, ...]] = {
    2: ("record", "offset"),
    3: ("record", "offset"),
    4: ("record", "offset"),
    5: ("offset",),
    6: ("found", "expected"),
    7: ("found", "expected"),
    8: ("rows",),
    9: ("line",),
    10: ("line", "field"),
    11: ("line", "field"),
    12: ("line", "field"),
    13: ("place",),
    14: ("needed",),
    17: ("length",),
    18: ("base",),
    19: ("record",),
    20: ("records",),
    21: ("record",),
    22: ("record",),
    23: ("record", "base"),
    24: ("place", "byte"),
    25: ("row",),
    31: ("offset",),
    32: ("offset",),
    33: ("offset",),
    34: ("base",),
    37: ("place",),
    39: ("found", "expected"),
    42: ("offset", "base"),
}


def words(number: int) -> str:
    """A refusal's number in words, as the library has them.

    >>> words(15)
    'no record has that name'
    """
    said: bytes = library.wakeluri_words(number)
    return said.decode()


class Refused(ValueError):
    """A call gave no answer: why (`reason`, `number`), where (`places`), and about what (`about`)."""

    #: The refusal's number.
    number: int
    #: Its numbers by their names, as ``{"record": 1, "base": 5}``.
    places: dict[str, int]
    #: The record or the file that was asked about.
    about: str

    def __init__(self, number: int, first: int = 0, second: int = 0, about: str = "") -> None:
        self.number = number
        self.about = about
        told = (first, second) if number not in (2, 3, 4) or second else (0, first)
        named = zip(_PLACES.get(number, ()), told)
        self.places = {name: value for name, value in named if name != "record" or value != 0}
        super().__init__(str(self))

    @property
    def reason(self) -> Refusal | None:
        """The refusal by its name; none if this version has no name for its number."""
        try:
            return Refusal(self.number)
        except ValueError:
            return None

    def __str__(self) -> str:
        where = ", ".join(f"{name} {value}" for name, value in self.places.items())
        about = f"{self.about}: " if self.about else ""
        return f"{about}{words(self.number)}: refused {self.number}{f' ({where})' if where else ''}"


class PastLength(Refused, IndexError):
    """A region goes past its record: `length` is how many bases the record has."""

    @property
    def length(self) -> int:
        """How many bases the record has."""
        return self.places["length"]


class NameUnknown(Refused, KeyError):
    """No record has that name."""


class Changed(OSError):
    """The file is not what it was when it was opened."""


def refused(number: int, first: int = 0, second: int = 0, about: str = "") -> Refused:
    """The error of a refusal."""
    kinds: dict[int, type[Refused]] = {Refusal.PAST_LENGTH: PastLength, Refusal.NAME_UNKNOWN: NameUnknown}
    return kinds.get(number, Refused)(number, first, second, about)
