#!/usr/bin/python3
"""large.py PAGE [ENGINE [WHOLE [PARTS [FASTQ]]]]: files of more than 2 GiB in an engine (chromium). One of WHOLE GiB (2.25) is kept in memory: accepted, read
before, across and behind 2 GiB; then one base is put elsewhere at its end, and the index is refused there. One of PARTS GiB (4.5), more than any
page's memory has, is read in parts: accepted, read before and behind 4 GiB, and no index fits once a line is longer; of Chromium it is told what memory
that took. One of FASTQ GiB (2.25) has reads of 150 bases, and is read in parts too. A size of 0 leaves one out. They need as much of the disk, the first as much
memory."""
import os
import sys
import tempfile
import time

from engines import ENGINES, Failed
from person import Person

page, engine = (sys.argv[1:3] + ["chromium"])[:2]
sizes = [float(word) for word in sys.argv[3:]] + [2.25, 4.5, 2.25][max(0, len(sys.argv) - 3):]
BLOCK = (b"ACGTTGCAAC" * 6 + b"\n") * 10000
HEAD = b">chr a large one\n"


def written(room, gib):
    """A file of so many GiB and its index, and how many lines it has."""
    fasta = os.path.join(room, "large.fa")
    lines = int(gib * (1 << 30)) // len(BLOCK) * 10000
    with open(fasta, "wb") as file:
        file.write(HEAD)
        for _ in range(lines // 10000):
            file.write(BLOCK)
    with open(fasta + ".fai", "w", encoding="ascii") as file:
        file.write(f"chr\t{60 * lines}\t{len(HEAD)}\t60\t61\n")
    return fasta, lines


def memory():
    """The most memory that the page's own process had so far, in MB."""
    most = 0
    for process in filter(str.isdigit, os.listdir("/proc")):
        try:
            with open(f"/proc/{process}/cmdline", "rb") as words, open(f"/proc/{process}/status", encoding="ascii") as status:
                # a browser's processes belong to its group, which is this program's own
                if b"--type=renderer" in words.read() and os.getpgid(int(process)) == os.getpgid(0):
                    most = max(most, next(int(line.split()[1]) for line in status if line.startswith("VmHWM")))
        except OSError:
            pass
    return most // 1000


def chosen(person, which, path):
    """What the page says of a file that is chosen."""
    person.engine.run("document.body.dataset.round = '0'; document.getElementById(arguments[0]).value = ''", which)
    person.engine.choose(which, path)
    person.engine.wait_for("return Number(document.body.dataset.round) >= 1 && document.getElementById('working').hidden ? 1 : null", what="a verdict", seconds=900)
    return " | ".join((person.text("verdict"), person.text("lines")))


def accepted(person, path, *wanted):
    """A file and its index are chosen in a fresh page; the memory before."""
    person.fresh()
    before = memory()
    person.engine.choose("fai", path + ".fai")
    start = time.monotonic()
    person.expect(f"{os.path.getsize(path):,} bytes, {person.memory}, accepted", chosen(person, "fasta", path), "Accepted", *wanted)
    print(f"    in {time.monotonic() - start:.0f} s; thousandths of a second: {person.engine.run('return document.body.dataset.times')}")
    return before


def tried_fastq(room, gib):
    fastq, reads, lines = os.path.join(room, "large.fq"), int(gib * (1 << 30)) // 318, (b"ACGTTGCAAC" * 15, b"@+IIIIIIII" * 15)
    with open(fastq, "wb") as file, open(fastq + ".fai", "w", encoding="ascii") as index:
        for read in range(reads):
            name = b"r%07d" % read
            index.write(f"{name.decode()}\t150\t{318 * read + 14}\t150\t151\t{318 * read + 167}\n")
            file.write(b"@%s x 1\n%s\n+\n%s\n" % (name, *lines))
    person = Person(ENGINES[engine](), page, "parts")
    try:
        before = accepted(person, fastq, f"{reads:,} records")
        person.fill(search=f"r{reads - 1:07d}")
        person.engine.wait_for("return document.getElementById('matches').textContent.startsWith('1 of') ? 1 : null", what="a search")
        person.expect("its last read", person.read("141", "150"), "10 bases", "ACGTTGCAAC", "@+IIIIIIII")
        if engine == "chromium":
            print(f"    memory of the page's process: {before} MB before, {memory()} MB at most")
        os.truncate(fastq, 318 * reads - 2)
        person.expect("a quality less at the end", chosen(person, "fasta", fastq), "No index can be made", "has 149 qualities", f"line {4 * reads:,}")
        return person.passed
    finally:
        person.engine.close()
        os.remove(fastq)


def tried(room, gib, kind):
    fasta, lines = written(room, gib)
    browser = ENGINES[engine]()
    person = Person(browser, page, kind)
    try:
        before = accepted(person, fasta, "1 record")
        last = 60 * lines
        for first in (1, *((border // 61 * 60 + more) for border in (2 << 30, 4 << 30) for more in (-5, 0)), last - 9):
            if first + 9 > last:
                continue
            wanted = "".join("ACGTTGCAAC"[(first - 1 + k) % 10] for k in range(10))
            person.expect(f"bases {first:,} on", person.read(str(first), str(first + 9)), "10 bases", wanted)
        person.expect("past its end", person.read(str(last), str(last + 1)), "Refused", "refused 17")
        if engine == "chromium":
            print(f"    memory of the page's process: {before} MB before, {memory()} MB at most")
        with open(fasta, "r+b") as file:
            file.seek(len(HEAD) + 61 * (lines - 2) + 60)
            file.write(b"A\n")
        told = chosen(person, "fasta", fasta)
        person.expect("a line is longer at the end", told, *(("Refused", f"line {lines:,}") if kind == "whole" else ("No index can be made", f"line {lines:,}")))
        return person.passed
    finally:
        browser.close()
        os.remove(fasta)


with tempfile.TemporaryDirectory() as room:
    try:
        passed = sum(tried(room, gib, kind) for gib, kind in zip(sizes, ("whole", "parts")) if gib > 0)
        passed += tried_fastq(room, sizes[2]) if sizes[2] > 0 else 0
        print(f"large, {engine}: {passed} passed, 0 failed")
    except Failed as failed:
        sys.exit(f"FAILED: {failed}")
