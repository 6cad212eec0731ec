"""The shared library: where it is, what its calls take, and whether it fits this package."""

from __future__ import annotations

import ctypes
import ctypes.util
import os
import platform
from pathlib import Path

#: The version of the library that this package speaks to, and the form of its rows and answers (include/wakeluri_host.h).
VERSION = 100
FORM = 2

#: The bytes of a row of a table, which is eight numbers of eight bytes, low byte first.
ROW_BYTES = 64

_u64 = ctypes.c_uint64
_pointer = ctypes.c_void_p
_size = ctypes.c_size_t


class Answer(ctypes.Structure):
    """A refusal, 0 if there is none, with its two numbers; a count, and the place where a read stopped."""

    _fields_ = [(name, _u64) for name in ("refusal", "first", "second", "count", "next")]

    refusal: int
    first: int
    second: int
    count: int
    next: int


class Definition(ctypes.Structure):
    """A name and a description by their places in a definition line."""

    _fields_ = [
        (name, _u64)
        for name in ("refusal", "first", "second", "name_start", "name_length", "description_start", "description_length")
    ]

    refusal: int
    description_start: int
    description_length: int
    name_start: int
    name_length: int


class Rows(ctypes.Structure):
    """A file, and a table of its rows."""

    _fields_ = [("file", _pointer), ("file_length", _size), ("table", _pointer), ("table_length", _size), ("in_use", _u64)]


class OneRow(ctypes.Structure):
    """A row of them: a record to read from. Then what makes a `str` of bases, and where the time stands at which a look at the file is due."""

    _fields_ = [("of", _pointer), ("row", _u64), ("make", _pointer), ("due", _pointer)]


_BYTES: list[type] = [_pointer, _size]
_CALLS: dict[str, tuple[list[type], type]] = {
    "wakeluri_check": ([*_BYTES, *_BYTES], Answer),
    "wakeluri_index_complete": ([*_BYTES, *_BYTES], Answer),
    "wakeluri_read_index": ([*_BYTES, *_BYTES], Answer),
    "wakeluri_write_index_line": ([*_BYTES, *_BYTES, _u64, _u64, *_BYTES], Answer),
    "wakeluri_find": ([*_BYTES, *_BYTES, _u64, *_BYTES], Answer),
    "wakeluri_read_exact": ([*_BYTES, *_BYTES, _u64, _u64, _u64, _u64, _u64, _u64, *_BYTES], Answer),
    "wakeluri_complement": ([*_BYTES, *_BYTES], Answer),
    "wakeluri_reverse_complement": ([*_BYTES, *_BYTES], Answer),
    "wakeluri_definition_content": (_BYTES, Definition),
    "wakeluri_read_bases": ([_pointer, _u64, _u64, _pointer], ctypes.c_int),
    "wakeluri_words": ([_u64], ctypes.c_char_p),
    "wakeluri_version": ([], _u64),
    "wakeluri_form": ([], _u64),
}


def places() -> list[str]:
    """Where the library is looked for, in this order: where WAKELURI_LIBRARY says; beside this file, as in a wheel; where the tools of this
    repository put it; where the system keeps libraries."""
    here = Path(__file__).resolve().parent
    target = f"{platform.machine()}-unknown-linux-gnu"
    named = os.environ.get("WAKELURI_LIBRARY")
    if named:
        return [named]
    found = ctypes.util.find_library("wakeluri")
    built = [str(folder / "target" / target / "c" / "libwakeluri.so") for folder in here.parents[2:3]]
    return [str(here / "libwakeluri.so"), *built, *([found] if found else [])]


def _load() -> tuple[ctypes.CDLL, ctypes.PyDLL]:
    looked = places()
    for path in looked:
        if os.path.sep in path and not os.path.exists(path):
            continue
        # two doors to one library: by the first other threads go on meanwhile, the second is quicker to go through
        library, held = ctypes.CDLL(path), ctypes.PyDLL(path)
        for name, (takes, gives) in _CALLS.items():
            for door in (library, held):
                call = getattr(door, name)
                call.argtypes, call.restype = takes, gives
        version, form = int(library.wakeluri_version()), int(library.wakeluri_form())
        if version // 100 != VERSION // 100 or form != FORM:
            raise ImportError(f"{path} has version {version} and form {form}; this package needs {VERSION} and {FORM}")
        return library, held
    raise ImportError(f"there is no libwakeluri.so: looked at {', '.join(looked)}; `tools/dev clibs` makes it")


#: The library, whose calls let other threads go on; and the same, for calls that are so short that this would cost more.
library, held = _load()

#: What makes a `str` of bytes, for the library to call.
MAKE = ctypes.cast(ctypes.pythonapi.PyUnicode_DecodeLatin1, _pointer).value

#: The quickest call, which gives the bases as a `str`, an empty one where it has no answer. What it takes is not declared, so a number is handed
#: over as an int of C, and must be less than `NEAR`.
read_text = held["wakeluri_read_text"]
read_text.restype = ctypes.py_object
NEAR = 1 << 31


def address(bytes_: bytes) -> int:
    """Where some bytes are. They must be kept as long as this is used."""
    return ctypes.cast(ctypes.c_char_p(bytes_), _pointer).value or 0
