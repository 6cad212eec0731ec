"""A FASTA file with its index: opened and checked once, read as often as you like."""

from __future__ import annotations

import ctypes
import mmap
import os
import struct
from time import monotonic_ns
from typing import Iterator, Union, overload

from ._library import MAKE, NEAR, ROW_BYTES, OneRow, Rows, address, held, library, read_text
from ._refusal import Changed, Refusal, refused

Path = Union[str, "os.PathLike[str]"]
Source = Union[bytes, str, "os.PathLike[str]"]

#: Files of so many bytes or more are mapped; a shorter one is read into memory.
MAPPED_FROM = 16 << 20

#: Up to so many bases a read is so short that to let other threads go on would cost more than it.
_SHORT = 1 << 16

#: A read looks whether the file has changed if the last look is so many nanoseconds old.
_DUE = 10_000_000

#: What the quickest call raises if it is not given numbers: the slower way says why, or takes them.
_NO_NUMBERS = (TypeError, ctypes.ArgumentError)

_row = struct.Struct("<8Q")
_read_short = held.wakeluri_read_bases


def _bytes_of(source: Source) -> bytes:
    if isinstance(source, bytes):
        return source
    with open(source, "rb") as file:
        return file.read()


def check(fasta: Source, index: Source) -> None:
    """Accepts a FASTA file and an index of any program exactly if the index leads to every base of every record, and else raises `Refused`
    with the first record and base that is off. Bytes are taken as they are; anything else is the path of a file.

    >>> check(b">s\\nACGT\\nAC\\n", b"s\\t6\\t3\\t4\\t5\\n")
    >>> check(b">s\\nACGT\\nAC\\n", b"s\\t6\\t3\\t4\\t6\\n")
    Traceback (most recent call last):
    wakeluri._refusal.Refused: a base is not where its index line says: refused 23 (record 1, base 5)
    """
    file = fasta if isinstance(fasta, bytes) else None
    if file is None:
        opened = _File(fasta)  # type: ignore[arg-type]
        try:
            _check(opened.address, opened.length, _bytes_of(index), "")
        finally:
            opened.close()
    else:
        _check(address(file), len(file), _bytes_of(index), "")


def _check(at: int, length: int, index: bytes, about: str) -> None:
    told = library.wakeluri_check(at, length, address(index), len(index))
    if told.refusal:
        raise refused(told.refusal, told.first, told.second, about)


def _turned(call: ctypes._NamedFuncPointer, bases: str | bytes) -> str | bytes:
    given = bases.encode("latin-1") if isinstance(bases, str) else bases
    out = ctypes.create_string_buffer(len(given))
    told = call(address(given), len(given), ctypes.addressof(out), len(given))
    if told.refusal:
        raise refused(told.refusal, told.first, told.second)
    return out.raw.decode("latin-1") if isinstance(bases, str) else out.raw


@overload
def complement(bases: str) -> str: ...
@overload
def complement(bases: bytes) -> bytes: ...
def complement(bases: str | bytes) -> str | bytes:
    """The complement of some bases.

    >>> complement("ACGTNryk")
    'TGCANyrm'
    """
    return _turned(library.wakeluri_complement, bases)


@overload
def reverse_complement(bases: str) -> str: ...
@overload
def reverse_complement(bases: bytes) -> bytes: ...
def reverse_complement(bases: str | bytes) -> str | bytes:
    """The reverse complement of some bases.

    >>> reverse_complement("AACG")
    'CGTT'
    """
    return _turned(library.wakeluri_reverse_complement, bases)


class _File:
    """The bytes of a file, mapped or held."""

    def __init__(self, path: Path, hold: bool = False) -> None:
        self.path = os.fspath(path)
        self._map: mmap.mmap | None = None
        self._view: ctypes.Array[ctypes.c_char] | None = None
        with open(path, "rb") as file:
            self.seen = self._look(os.fstat(file.fileno()))
            self.length = self.seen[0]
            if self.length >= MAPPED_FROM and not hold:
                # a private map can be written to, which nobody does: only of such a one the address can be had
                self._map = mmap.mmap(file.fileno(), self.length, access=mmap.ACCESS_COPY)
                self._view = (ctypes.c_char * self.length).from_buffer(self._map)
                self.address = ctypes.addressof(self._view)
            else:
                self.held = file.read()
                self.length = len(self.held)
                self.address = address(self.held)

    @staticmethod
    def _look(meta: os.stat_result) -> tuple[int, int, int, int]:
        return (meta.st_size, meta.st_mtime_ns, meta.st_ino, meta.st_dev)

    def changed(self) -> bool:
        try:
            return self._look(os.stat(self.path)) != self.seen
        except OSError:
            return True

    def part(self, start: int, length: int) -> bytes:
        if start + length > self.length:
            return b""
        return ctypes.string_at(self.address + start, length)

    def rfind(self, of: bytes, end: int) -> int:
        """The last place of a byte before an end, or -1."""
        if self._map is not None:
            return self._map.rfind(of, 0, end)
        return self.held.rfind(of, 0, end)

    def close(self) -> None:
        self._view = None
        if self._map is not None:
            self._map.close()
            self._map = None


class Record:
    """A record of a `Fasta`. Slices count from 0, as everywhere in Python, and are exact: they give all that was asked for, or raise."""

    __slots__ = ("_fasta", "_row", "_one", "_at", "_length", "name")

    #: Its name.
    name: str

    def __init__(self, fasta: Fasta, row: int, name: str, length: int) -> None:
        self._fasta = fasta
        self._row = row
        row_of = OneRow(fasta._rows_at, row, MAKE, fasta._due_at)
        self._at = ctypes.addressof(row_of)
        # this keeps it, and is handed over as it is
        self._one = ctypes.byref(row_of)
        self._length = length
        self.name = name

    def __len__(self) -> int:
        return self._length

    def __repr__(self) -> str:
        return f"<wakeluri.Record {self.name}, {self._length} bases>"

    def __str__(self) -> str:
        """All bases."""
        return self[:]

    def __getitem__(self, key: int | slice) -> str:
        """A base, or the bases of a slice. Nothing is clipped: a slice past the end raises `PastLength`, which has the record's length.

        >>> record = Fasta("samples/two.fa")["sq1"]
        >>> record[4:6], record[-2:]
        ('NN', 'NN')
        >>> record[4:100]
        Traceback (most recent call last):
        wakeluri._refusal.PastLength: sq1: the region goes past the record's bases: refused 17 (length 10)
        """
        if type(key) is slice and key.step is None:
            # most reads: both bounds are given, and there are few bases
            try:
                start, stop = key.start, key.stop
                if 0 <= start < stop < NEAR:
                    bases: str = read_text(self._one, start + 1, stop)
                    if bases:
                        return bases
            except _NO_NUMBERS:
                pass
        if isinstance(key, slice):
            return self._slice(key).decode("latin-1")
        at = self._place(key)
        return self.read(at + 1, at + 1).decode("latin-1")

    def _place(self, at: int) -> int:
        """A place that may be counted from the end; one before the first base is refused as one past the last."""
        place = at + self._length if at < 0 else at
        if place < 0:
            raise refused(Refusal.PAST_LENGTH, self._length, 0, self.name)
        return place

    def _slice(self, key: slice) -> bytes:
        step = 1 if key.step is None else key.step
        if step != 1:
            raise ValueError("a slice of a record has no step: take it of the bases, as record[4:9][::2]")
        start = 0 if key.start is None else self._place(key.start)
        stop = self._length if key.stop is None else self._place(key.stop)
        if start == stop:
            if stop > self._length:
                raise refused(Refusal.PAST_LENGTH, self._length, 0, self.name)
            self._fasta._open()
            return b""
        return self.read(start + 1, stop)

    def read(self, start: int | None = None, end: int | None = None) -> bytes:
        """Exactly the bases from `start` to `end`, counted from 1, both included, as bytes: what `chr1:5-9` says. An absent bound is the
        first base, or the last.

        >>> Fasta("samples/two.fa")["sq0"].read(2, 3)
        b'CG'
        """
        first = 1 if start is None else start
        last = self._length if end is None else end
        if not 0 < first <= last <= self._length:
            # what is asked for is no region of the record: the library says why
            raise self._refused(start, end)
        count = last - first + 1
        out = ctypes.create_string_buffer(count)
        read = library.wakeluri_read_bases if count > _SHORT else _read_short
        self._fasta._open()
        if read(self._at, first, last, out):
            raise self._refused(first, last)
        if monotonic_ns() >= self._fasta._due.value:
            self._fasta.unchanged()
        return out.raw

    def _refused(self, start: int | None, end: int | None) -> Exception:
        """Why a read is refused: the library says, of a read with no room."""
        fasta = self._fasta
        fasta._open()
        if any(bound is not None and bound < 0 for bound in (start, end)):
            return refused(Refusal.BAD_BOUNDS, 0, 0, self.name)
        most = (1 << 64) - 1
        if any(bound is not None and bound > most for bound in (start, end)):
            return refused(Refusal.PAST_LENGTH, self._length, 0, self.name)
        bounds = (start is not None, start or 0, end is not None, end or 0)
        rows, file = fasta._rows, fasta._file
        told = library.wakeluri_read_exact(
            file.address, file.length, rows.table, rows.table_length, rows.in_use, self._row, *bounds, None, 0
        )
        if told.refusal == Refusal.NO_ROOM:
            # the region is good by the record's numbers, so it is a base that is not there
            out = ctypes.create_string_buffer(told.first)
            told = library.wakeluri_read_exact(
                file.address, file.length, rows.table, rows.table_length, rows.in_use, self._row, *bounds, out, len(out)
            )
        return refused(told.refusal, told.first, told.second, self.name)

    @property
    def position(self) -> int:
        """The offset of its first base in the file."""
        return self._fasta._numbers(self._row)[3]

    @property
    def description(self) -> str | None:
        """The text behind its name in the definition line, if there is one."""
        return self._fasta._description(self._row, self.name)


class Fasta:
    """A FASTA file with its index, by the names of its records.

    The index is the file's name with ``.fai`` behind it, if that is there, or the one that is named; it is checked against every base, and
    refused if it does not lead to each. Where there is none, one is made in memory. `trust` says which: ``"checked"``, ``"made"``, or
    ``"unchecked"`` if it was asked not to check.

    >>> fasta = Fasta("samples/two.fa")
    >>> fasta["sq0"][1:3], len(fasta["sq1"]), fasta.keys()
    ('CG', 10, ['sq0', 'sq1'])

    It may be used by several threads; long reads and the check let the others go on. A file of 16 MiB or more is mapped: if another program
    cuts it shorter meanwhile, the system ends this one, as with every map; ``hold=True`` reads it into memory instead. That the file has
    changed is noticed by its length, time, inode and device: by `unchanged`, and by a read if the last look is ten milliseconds old.
    """

    #: What the rows rest on: ``"checked"``, ``"made"`` or ``"unchecked"``.
    trust: str

    def __init__(self, path: Path, index: Path | None = None, *, check: bool = True, hold: bool = False) -> None:
        self.path = os.fspath(path)
        self._closed = False
        self._changed = False
        self._file = _File(path, hold)
        try:
            text = self._found(index)
            if text is None:
                self.trust = "made"
                self._table = self._filled(library.wakeluri_index_complete, self._file.address, self._file.length, self.path)
                self._names_at, self._names_length = self._file.address, self._file.length
            else:
                where = str(index) if index is not None else f"{self.path}.fai"
                if check:
                    _check(self._file.address, self._file.length, text, where)
                self.trust = "checked" if check else "unchecked"
                self._table = self._filled(library.wakeluri_read_index, address(text), len(text), where)
                self._names_at, self._names_length = address(text), len(text)
        except BaseException:
            self._file.close()
            raise
        self._text = text
        self._kept: dict[str, Record] = {}
        self._due = ctypes.c_uint64(0)
        self._due_at = ctypes.addressof(self._due)
        self._described: ctypes.Array[ctypes.c_char] | None = None
        table_at = ctypes.addressof(self._table)
        in_use = len(self._table) // ROW_BYTES
        self._rows = Rows(self._file.address, self._file.length, table_at, len(self._table), in_use)
        self._rows_at = ctypes.addressof(self._rows)
        self._by_name: dict[str, int] = {}
        for row, (start, length, *_) in enumerate(_row.iter_unpack(self._table)):
            name = ctypes.string_at(self._names_at + start, length).decode("utf-8", "surrogateescape")
            self._by_name.setdefault(name, row)
        self.unchanged()

    def _found(self, index: Path | None) -> bytes | None:
        try:
            return _bytes_of(f"{self.path}.fai" if index is None else index)
        except FileNotFoundError:
            if index is not None:
                raise
            return None

    @staticmethod
    def _filled(call: ctypes._NamedFuncPointer, at: int, length: int, about: str) -> ctypes.Array[ctypes.c_char]:
        """A table of all rows: a longer one is tried while it is too short."""
        rows, most = 1024, length // 3 + 1
        while True:
            rows = min(rows, most)
            table = ctypes.create_string_buffer(rows * ROW_BYTES)
            told = call(at, length, ctypes.addressof(table), len(table))
            if told.refusal == Refusal.TABLE_FULL and rows < most:
                rows *= 8
                continue
            if told.refusal:
                raise refused(told.refusal, told.first, told.second, about)
            size = told.count * ROW_BYTES
            exact: ctypes.Array[ctypes.c_char] = (ctypes.c_char * size)()
            ctypes.memmove(exact, table, size)
            return exact

    def _open(self) -> None:
        if self._closed:
            raise ValueError("the file is closed")
        if self._changed:
            raise Changed(f"{self.path}: the file was changed since it was opened")

    def unchanged(self) -> None:
        """Raises `Changed` if the file is not what it was when it was opened: looks at it now."""
        self._open()
        if self._file.changed():
            self._changed = True
            # every read looks from now on
            self._due.value = 0
            self._open()
        self._due.value = monotonic_ns() + _DUE

    def __getitem__(self, name: str) -> Record:
        """The first record of a name; raises `NameUnknown`, a `KeyError`, if there is none."""
        try:
            return self._kept[name]
        except KeyError:
            record = self._kept[name] = self._record(name)
            return record

    def _record(self, name: str) -> Record:
        self._open()
        row = self._by_name.get(name)
        wanted = name.encode("utf-8", "surrogateescape")
        # the map says which row; the proved look-up has to find the name in it, or says why there is none
        at, rows = (0, len(self)) if row is None else (row * ROW_BYTES, 1)
        told = library.wakeluri_find(
            self._names_at, self._names_length, self._rows.table + at, rows * ROW_BYTES, rows, address(wanted), len(wanted)
        )
        if told.refusal or row is None:
            raise refused(told.refusal or Refusal.NAME_UNKNOWN, told.first, told.second, name)
        return Record(self, row, name, self._numbers(row)[2])

    def _numbers(self, row: int) -> tuple[int, ...]:
        self._open()
        return _row.unpack_from(self._table, row * ROW_BYTES)

    def _description(self, row: int, name: str) -> str | None:
        numbers = self._numbers(row)
        if self._text is None:
            told = self._file.part(numbers[6], numbers[7])
            return told.decode("utf-8", "surrogateescape") if told else None
        # an index has none: it stands in the line before the first base, blank lines apart
        end = numbers[3]
        if not numbers[2]:
            return self._description_by_number(row, name)
        if not 0 < end <= self._file.length:
            return None
        while end and self._file.part(end - 1, 1) in (b"\n", b"\r"):
            end -= 1
        start = self._file.rfind(b"\n", end) + 1
        line = self._file.part(start, end - start)
        told_of = library.wakeluri_definition_content(address(line), len(line))
        named = line[told_of.name_start : told_of.name_start + told_of.name_length]
        if told_of.refusal or named != name.encode("utf-8", "surrogateescape") or not told_of.description_length:
            return None
        start = told_of.description_start
        return line[start : start + told_of.description_length].decode("utf-8", "surrogateescape")

    def _description_by_number(self, row: int, name: str) -> str | None:
        """The same for a record without bases, whose index line may say anything: by its number, in rows that are made from the file once."""
        if self._described is None:
            self._described = self._filled(library.wakeluri_index_complete, self._file.address, self._file.length, self.path)
        if row >= len(self._described) // ROW_BYTES:
            return None
        numbers = _row.unpack_from(self._described, row * ROW_BYTES)
        if self._file.part(numbers[0], numbers[1]) != name.encode("utf-8", "surrogateescape") or not numbers[7]:
            return None
        return self._file.part(numbers[6], numbers[7]).decode("utf-8", "surrogateescape")

    def __len__(self) -> int:
        """How many records there are."""
        return int(self._rows.in_use)

    def __contains__(self, name: object) -> bool:
        return name in self._by_name

    def __iter__(self) -> Iterator[Record]:
        """The records in the file's order, each by the first row of its name."""
        return iter(self.values())

    def keys(self) -> list[str]:
        """The names in the file's order."""
        return list(self._by_name)

    def values(self) -> list[Record]:
        """The records in the file's order."""
        return [self[name] for name in self._by_name]

    def items(self) -> list[tuple[str, Record]]:
        """Names and records in the file's order."""
        return [(name, self[name]) for name in self._by_name]

    def fetch(self, name: str, start: int | None = None, end: int | None = None) -> str:
        """The bases of a record, from `start` on and before `end`, counted from 0: pysam's call, but exact.

        >>> Fasta("samples/two.fa").fetch("sq0", 1, 3)
        'CG'
        """
        return self[name][start:end]

    def index_text(self) -> bytes:
        """The index as samtools writes it: the text that was found, or one of the rows that were made."""
        self._open()
        if self._text is not None:
            return self._text
        lines = []
        room = ctypes.create_string_buffer(1 << 10)
        for row in range(len(self)):
            while True:
                told = library.wakeluri_write_index_line(
                    self._names_at, self._names_length, self._rows.table, self._rows.table_length, len(self), row,
                    ctypes.addressof(room), len(room),
                )  # fmt: skip
                if told.refusal != Refusal.NO_ROOM:
                    break
                room = ctypes.create_string_buffer(told.first)
            if told.refusal:
                raise refused(told.refusal, told.first, told.second, self.path)
            lines.append(room.raw[: told.count])
        return b"".join(lines)

    def close(self) -> None:
        """Lets the file go; nothing can be read after it. No other thread may read meanwhile."""
        if not self._closed:
            self._closed = True
            # a read of a record finds no row from now on
            self._rows.in_use = 0
            self._rows.file_length = 0
            self._due.value = 0
            self._file.close()

    def __enter__(self) -> Fasta:
        return self

    def __exit__(self, *_: object) -> None:
        self.close()

    def __repr__(self) -> str:
        return f"<wakeluri.Fasta {self.path}, {self.trust}>"
