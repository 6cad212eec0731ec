"""The package beside pyfaidx and pysam on the same files, and what it does otherwise: never a clipped read, never a stale index."""

from __future__ import annotations

import doctest
import importlib
import os
import random
import re
import subprocess
import sys
import threading
import time
from pathlib import Path

import pyfaidx
import pysam
import pytest

import wakeluri
from wakeluri import Changed, Fasta, NameUnknown, PastLength, Refusal, Refused, check, complement, reverse_complement, words
from wakeluri import _fasta

ROOT = Path(__file__).resolve().parents[3]
TWO = b">s one\nACGT\nAC\n>t\nGG\n"


def wrapped(name: str, bases: str, width: int) -> str:
    lines = [bases[at : at + width] for at in range(0, len(bases), width)]
    return "".join(f"{line}\n" for line in [f">{name}", *lines])


@pytest.fixture()
def genome(tmp_path: Path) -> tuple[Path, dict[str, str]]:
    """A file of some records, with CR in one, and what bases each has."""
    chance = random.Random(29)
    records = {f"chr{n}": "".join(chance.choice("ACGTNacgtn") for _ in range(chance.randrange(1, 3000))) for n in range(20)}
    text = "".join(wrapped(f"{name} number {name[3:]}", bases, chance.choice([1, 7, 60, 80, 5000])) for name, bases in records.items())
    path = tmp_path / "genome.fa"
    path.write_text(text)
    return path, records


def test_it_reads_what_pyfaidx_and_pysam_read(genome: tuple[Path, dict[str, str]]) -> None:
    path, records = genome
    pysam.faidx(str(path))
    ours, theirs, his = Fasta(path), pyfaidx.Fasta(str(path)), pysam.FastaFile(str(path))
    assert ours.trust == "checked"
    assert ours.keys() == list(theirs.keys()) == list(his.references) == list(records)
    chance = random.Random(1)
    for _ in range(2000):
        name = chance.choice(list(records))
        bases = records[name]
        start = chance.randrange(len(bases))
        stop = chance.randrange(start + 1, len(bases) + 1)
        read = ours[name][start:stop]
        assert read == bases[start:stop] == theirs[name][start:stop].seq == his.fetch(name, start, stop)
        assert ours.fetch(name, start, stop) == read
        assert ours[name].read(start + 1, stop) == read.encode() == theirs.get_seq(name, start + 1, stop).seq.encode()
    for record, other in zip(ours, theirs):
        assert (record.name, len(record), str(record)) == (other.name, len(other), str(other))
        assert f"{record.name} {record.description}" == other.long_name
        assert (record[0], record[-1], record[:], record[-1:]) == (str(record)[0], str(record)[-1], str(record), str(record)[-1])


def test_it_makes_the_index_that_samtools_makes(genome: tuple[Path, dict[str, str]]) -> None:
    path, _ = genome
    made = Fasta(path)
    assert made.trust == "made"
    text = made.index_text()
    pysam.faidx(str(path))
    assert Path(f"{path}.fai").read_bytes() == text
    assert Fasta(path).index_text() == text
    check(path, f"{path}.fai")
    check(path.read_bytes(), text)


def test_nothing_is_clipped(tmp_path: Path) -> None:
    path = tmp_path / "two.fa"
    path.write_bytes(TWO)
    record = Fasta(path)["s"]
    # pyfaidx and pysam give two bases here, and say nothing
    assert pyfaidx.Fasta(str(path))["s"][4:100].seq == pysam.FastaFile(str(path)).fetch("s", 4, 100) == "AC"
    for start, stop in [(4, 100), (4, 7), (6, 7), (100, 101), (0, 1 << 70), (None, 7), (7, 7), (5, 1 << 17)]:
        with pytest.raises(PastLength) as told:
            record[start:stop]
        assert (told.value.length, told.value.number, told.value.reason) == (6, 17, Refusal.PAST_LENGTH)
        assert str(told.value) == "s: the region goes past the record's bases: refused 17 (length 6)"
        assert isinstance(told.value, IndexError) and isinstance(told.value, ValueError)
    for place in [6, -7, 1 << 70]:
        with pytest.raises(IndexError):
            record[place]
    with pytest.raises(IndexError):
        record[-7:]
    for start, end in [(0, 3), (3, 2), (-1, 3), (7, 6)]:
        with pytest.raises(Refused) as no:
            record.read(start, end)
        assert no.value.reason is Refusal.BAD_BOUNDS, (start, end)
    with pytest.raises(Refused):
        record[3:2]
    with pytest.raises(ValueError):
        record[::2]
    assert (record[2:2], record[6:6], record[6:], record[-6:-1], record.read(), record.read(5), record.read(None, 2)) == (
        "",
        "",
        "",
        "ACGTA",
        b"ACGTAC",
        b"AC",
        b"AC",
    )


def test_a_wrong_index_is_refused(tmp_path: Path) -> None:
    path = tmp_path / "two.fa"
    path.write_bytes(TWO)
    index = tmp_path / "two.fa.fai"
    index.write_text("s\t6\t7\t4\t6\nt\t2\t18\t2\t3\n")
    with pytest.raises(Refused) as told:
        Fasta(path)
    assert (told.value.reason, told.value.places) == (Refusal.BASE_ELSEWHERE, {"record": 1, "base": 5})
    assert "two.fa.fai: a base is not where its index line says" in str(told.value)
    believed = Fasta(path, check=False)
    assert (believed.trust, believed["s"][0:4], believed["t"][:]) == ("unchecked", "ACGT", "GG")
    # an index that lies about a length leads out of the file
    index.write_text("s\t600\t7\t4\t5\n")
    with pytest.raises(Refused) as out:
        Fasta(path, check=False)["s"][0:100]
    assert (out.value.reason, out.value.places) == (Refusal.NOT_IN_FILE, {"base": 13})
    for text, reason in [("nonsense", Refusal.FIELD_ABSENT), ("s\tx\t7\t4\t5\n", Refusal.NOT_A_NUMBER)]:
        with pytest.raises(Refused) as no:
            check(TWO, text.encode())
        assert no.value.reason is reason
    with pytest.raises(FileNotFoundError):
        Fasta(path, tmp_path / "none.fai")
    with pytest.raises(FileNotFoundError):
        Fasta(tmp_path / "none.fa")
    path.write_bytes(b"no FASTA\n")
    index.unlink()
    with pytest.raises(Refused) as bad:
        Fasta(path)
    assert (bad.value.reason, bad.value.places) == (Refusal.NO_PREFIX, {"offset": 0})


def test_names(tmp_path: Path) -> None:
    path = tmp_path / "names.fa"
    path.write_bytes(b">a one\nAC\n>\xff\xfe\nGG\n>a two\nTT\n>\xc3\xa9\nCC\n>none  \n\n>blank x\n\nA\n")
    for fasta in (Fasta(path), Fasta(path, _saved(path, tmp_path / "names.fai"))):
        assert len(fasta) == 6
        assert fasta["a"][:] == "AC" and fasta["é"][:] == "CC"
        assert fasta[b"\xff\xfe".decode("utf-8", "surrogateescape")][:] == "GG"
        assert [record.description for record in fasta] == ["one", None, None, None, "x"]
        assert "a" in fasta and "b" not in fasta and dict(fasta.items())["a"] is fasta["a"]
        with pytest.raises(NameUnknown) as told:
            fasta["b"]
        assert str(told.value) == "b: no record has that name: refused 15" and isinstance(told.value, KeyError)
        with pytest.raises(KeyError):
            fasta.fetch("b", 0, 1)
        assert len(fasta["none"]) == 0 and fasta["none"][:] == "" and fasta["blank"].position == 53


def _saved(path: Path, index: Path) -> Path:
    index.write_bytes(Fasta(path).index_text())
    return index


def test_many_records(tmp_path: Path) -> None:
    path = tmp_path / "many.fa"
    path.write_text("".join(f">r{n}\n{'ACGT'[n % 4]}\n" for n in range(30_000)))
    fasta = Fasta(path)
    assert len(fasta) == 30_000 and fasta["r29999"][0] == "T" and fasta["r0"][0] == "A"


def test_complements() -> None:
    assert complement("ACGTNryk") == "TGCANyrm" and complement(b"ACGU") == b"TGCA"
    assert reverse_complement("ACGU") == "ACGT" and reverse_complement("") == ""
    bases = "ACGTACGGTTNN"
    assert reverse_complement(bases) == (-pyfaidx.Sequence("s", bases)).seq
    with pytest.raises(Refused) as told:
        complement("AC-T")
    assert (told.value.reason, told.value.places) == (Refusal.NO_COMPLEMENT, {"place": 2, "byte": 45})


def test_a_change_is_noticed(tmp_path: Path) -> None:
    path = tmp_path / "two.fa"
    path.write_bytes(TWO)
    fasta = Fasta(path)
    record = fasta["s"]
    assert record[0:2] == "AC"
    other = tmp_path / "other.fa"
    other.write_bytes(TWO)
    os.utime(other, ns=(0, path.stat().st_mtime_ns))
    other.rename(path)
    time.sleep(0.03)
    with pytest.raises(Changed):
        record[0:2]
    for again in (fasta.unchanged, lambda: record[0:2], lambda: record.read(1, 2), lambda: fasta["t"]):
        with pytest.raises(Changed):
            again()
    Fasta(path).unchanged()


def test_closing(tmp_path: Path) -> None:
    for size in (6, _fasta.MAPPED_FROM + 60):
        path = tmp_path / f"{size}.fa"
        path.write_text(wrapped("s", "ACGTAC" * (size // 6), 60))
        with Fasta(path) as fasta:
            record = fasta["s"]
            assert record[0:6] == "ACGTAC" and len(record) == size // 6 * 6
        for after in (lambda: record[0:6], lambda: record.read(), lambda: fasta["s"][0], fasta.unchanged, lambda: record.position):
            with pytest.raises(ValueError, match="closed"):
                after()
        fasta.close()


def test_a_long_file_is_mapped_and_threads_go_on(tmp_path: Path) -> None:
    path = tmp_path / "long.fa"
    bases = "".join(random.Random(3).choice("ACGT") for _ in range(100_003))
    path.write_text(wrapped("s", bases * 200, 60))
    fasta, held = Fasta(path), Fasta(path, hold=True)
    assert fasta._file._map is not None and held._file._map is None
    assert fasta["s"][99_999:200_010] == held["s"][99_999:200_010] == (bases * 3)[99_999:200_010]
    # while a thread reads much, this one goes on
    ticks, done = 0, threading.Event()

    def reads() -> None:
        for _ in range(5):
            assert len(fasta["s"].read()) == len(bases) * 200
        done.set()

    thread = threading.Thread(target=reads)
    thread.start()
    while not done.is_set():
        ticks += 1
        time.sleep(0)
    thread.join()
    assert ticks > 20
    # and many threads read the right bases
    wrong = []

    def some(seed: int) -> None:
        chance = random.Random(seed)
        for _ in range(500):
            at = chance.randrange(len(bases) * 200 - 50)
            if fasta["s"][at : at + 50] != (bases * 2)[at % len(bases) : at % len(bases) + 50]:
                wrong.append(at)

    threads = [threading.Thread(target=some, args=(seed,)) for seed in range(4)]
    for thread in threads:
        thread.start()
    for thread in threads:
        thread.join()
    assert not wrong


def test_refusals_are_those_of_the_header() -> None:
    header = (ROOT / "include/wakeluri_host.h").read_text()
    constants = {name: int(number) for name, number in re.findall(r"^    WAKELURI_(\w+) = (\d+),", header, re.M)}
    assert constants.pop("FINE") == 0
    assert constants == {refusal.name: refusal.value for refusal in Refusal}
    assert all(refusal.words == words(refusal) and "no words" not in refusal.words for refusal in Refusal)
    unknown = Refused(99, 1, 2)
    assert unknown.reason is None and "no words for" in str(unknown)
    version = re.search(r'WAKELURI_VERSION_TEXT "(.*)"', header)
    assert version and version.group(1) == wakeluri.__version__
    # the names of places are those of Rust
    rust = (ROOT / "host/wakeluri/src/reason.rs").read_text()
    for number, fields in re.findall(r"^    (\d+) \w+ \{([^}]*)\}", rust, re.M):
        named = tuple(field.split(":")[0].strip() for field in fields.split(",") if field.strip())
        assert importlib.import_module("wakeluri._refusal")._PLACES.get(int(number), ()) == named


def test_examples(monkeypatch: pytest.MonkeyPatch) -> None:
    monkeypatch.chdir(ROOT)
    for name in ("wakeluri", "wakeluri._fasta", "wakeluri._refusal"):
        told = doctest.testmod(importlib.import_module(name), optionflags=doctest.ELLIPSIS)
        assert told.failed == 0, name


def test_another_library_is_refused(tmp_path: Path) -> None:
    for named, says in [(str(tmp_path / "none.so"), "there is no libwakeluri.so")]:
        env = {**os.environ, "WAKELURI_LIBRARY": named, "PYTHONPATH": str(ROOT / "host/python")}
        run = subprocess.run([sys.executable, "-c", "import wakeluri"], env=env, capture_output=True, text=True)
        assert run.returncode != 0 and says in run.stderr


def test_an_empty_file(tmp_path: Path) -> None:
    path = tmp_path / "empty.fa"
    path.write_bytes(b"")
    for index in (None, b""):
        if index is not None:
            (tmp_path / "empty.fa.fai").write_bytes(index)
        fasta = Fasta(path)
        assert (len(fasta), fasta.keys(), list(fasta), fasta.index_text()) == (0, [], [], b"")
        with pytest.raises(NameUnknown):
            fasta["s"]
    check(b"", b"")
