"""What the package costs, beside pysam and pyfaidx: the files and the lines of host/seams. `tools/dev seams` runs it."""

from __future__ import annotations

import sys
import time
from typing import Callable

import pyfaidx
import pysam

import wakeluri


def fastest(what: str, rounds: int, turns: int, works: dict[str, Callable[[int], object]]) -> None:
    """Prints for each work the nanoseconds of a turn, in the fastest of some rounds: the time of the thread on its processor. The works go in
    turns, round by round."""
    best = {by: float("inf") for by in works}
    for _ in range(rounds):
        for by, work in works.items():
            begun = time.thread_time_ns()
            for turn in range(turns):
                work(turn)
            best[by] = min(best[by], (time.thread_time_ns() - begun) / turns)
    for by, took in best.items():
        print(f"{what}\t{by}\t{took:.0f}")


def main(folder: str) -> None:
    long, many = f"{folder}/long.fa", f"{folder}/many.fa"
    fastest("open and check 64 MB", 7, 1, {"Python, Fasta": lambda _: wakeluri.Fasta(long).close()})
    ours, theirs, his = wakeluri.Fasta(long), pysam.FastaFile(long), pyfaidx.Fasta(long)
    record, most = ours["chr1"], len(ours["chr1"]) - 10_000
    for count, turns in ((10_000, 100), (100, 300)):
        starts = [turn * 7_919_000_021 % most for turn in range(turns)]
        assert record[starts[1] : starts[1] + count] == theirs.fetch("chr1", starts[1], starts[1] + count)
        works: dict[str, Callable[[int], object]] = {
            "Python, record[a:b]": lambda turn: record[starts[turn] : starts[turn] + count],
            "Python, fasta[name][a:b]": lambda turn: ours["chr1"][starts[turn] : starts[turn] + count],
            "pysam, fetch": lambda turn: theirs.fetch("chr1", starts[turn], starts[turn] + count),
            "pyfaidx": lambda turn: his["chr1"][starts[turn] : starts[turn] + count].seq,
        }
        fastest(f"a read of {count:,} bases", 30, turns, works)
        works = {
            "Python, fasta[name][a:b], one behind the other": lambda turn: ours["chr1"][turn : turn + count],
            "pysam, fetch, one behind the other": lambda turn: theirs.fetch("chr1", turn, turn + count),
        }
        fastest(f"a read of {count:,} bases", 60, turns, works)
    fastest("open and check 100,000 records", 3, 1, {"Python, Fasta": lambda _: wakeluri.Fasta(many).close()})
    ours, theirs = wakeluri.Fasta(many), pysam.FastaFile(many)
    names = [f"record{turn * 7_919 % 100_000}" for turn in range(1000)]
    assert ours[names[1]][2:3] == "G"
    works = {
        "Python, fasta[name][2:3]": lambda turn: ours[names[turn]][2:3],
        "pysam, fetch": lambda turn: theirs.fetch(names[turn], 2, 3),
    }
    fastest("one base by name among 100,000 records", 20, len(names), works)


main(sys.argv[1])
