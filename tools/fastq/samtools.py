"""samtools' reader of FASTQ, said again in lines, and the kinds of its differences from the rules.

It follows fai_build_core in htslib's faidx.c, version 1.16, and notes each place at which the rules (docs/RULES.md, R80 to R84) say something
else. `tools/dev fastq-samtools` holds its index against that of samtools itself, so that no reason is a guess.
"""
import re

# kind: its smallest example; what is answered here where samtools takes such a file, a refusal or 0 for an index; and whether samtools
# refuses some that are taken here
KINDS = {
    "no bytes": (b"", set(), True),
    "a FASTA file": (b">s\nA\n", {3}, False),
    "a blank line before a record or behind it": (b"@s\nA\n+\nI\n\n", {2, 3}, False),
    "a line of bytes that are not printed behind a record": (b"@s\nA\n+\nI\n \n", {3}, False),
    "a last line that is '@' alone": (b"@s\nA\n+\nI\n@", {4}, False),
    "no name, or a blank before it": (b"@ s\nA\n+\nI\n", {4}, False),
    "a vertical tab in a name": (b"@a\x0bb\nA\n+\nI\n", {0}, False),
    "a NUL in a name": (b"@a\0b\nA\n+\nI\n", {0}, False),
    "two records of one name": (b"@s\nA\n+\nI\n@s\nC\n+\nI\n", {0}, False),
    "a byte that is not printed, in bases or qualities": (b"@s\nA C\n+\nI I\n", {0, 3, 4, 6, 7, 38, 39}, True),
    "a first sequence line that is a CR": (b"@s\n\r\nA\n+\nI\n", {5}, False),
    "another sequence line that is a CR": (b"@s\nACGT\n\r\n+\nIIII\n", {6}, False),
    "sequence lines of one width and other bases": (b"@s\nAC\r\nACG\n+\nII\r\nIII\n", {6, 7}, False),
    "a quality line that is a CR": (b"@s\nA\n+\n\r\nI\n", {39}, False),
    "a quality line of another end than its partner's": (b"@s\nA\r\n+\r\nI\n", {39}, False),
    "a CR at the end of an unterminated file": (b"@s\nA\n+\nI\r", set(), True),
}
# these change a line of the index, and not how the rest of the file is read
ASIDE = {"a vertical tab in a name", "a NUL in a name", "two records of one name"}


# ---- samtools' reader, in lines ----


def printed(line):
    """What samtools counts of a line: the bytes that are printed, of ASCII."""
    return sum(33 <= byte <= 126 for byte in line)


def width(line):
    """What samtools takes for a line's width: an unterminated line counts as if it had its LF."""
    return len(line) + (not line.endswith(b"\n"))


def bases(line):
    """The bases of a line by the rules (R8)."""
    line = line.removesuffix(b"\n")
    return len(line) - line.endswith(b"\r")


class Refused(Exception):
    """samtools gives no index."""


class Read:
    """samtools' reader over one file: its index, and the kinds of places at which the rules say something else."""

    def __init__(self, file):
        self.lines = re.findall(rb"[^\n]*\n|[^\n]+", file)
        self.at, self.done, self.rows, self.kinds, self.fasta = 0, False, {}, [], False
        self.name, self.numbers = None, None
        try:
            if not file:
                self.kinds.append("no bytes")
            while self.line() is not None and not self.fasta:
                self.outside()
            self.keep()
            if not self.rows:
                raise Refused
            self.index = b"".join(name + b"\t%d\t%d\t%d\t%d\t%d\n" % numbers for name, numbers in self.rows.items())
        except Refused:
            self.index = None

    def line(self):
        return self.lines[self.at] if self.at < len(self.lines) else None

    def next(self):
        self.at += 1

    def offset(self):
        return sum(map(len, self.lines[: self.at]))

    def keep(self):
        """The record before is over: of two with one name the first is kept."""
        if self.done:
            if self.name in self.rows:
                self.kinds.append("two records of one name")
            self.rows.setdefault(self.name, self.numbers)
        elif self.numbers:
            raise Refused
        self.done, self.numbers = False, None

    def outside(self):
        """A line where a record may begin."""
        line = self.line()
        if line in (b"\n", b"\r\n"):
            self.kinds.append("a blank line before a record or behind it")
            self.next()
        elif line[:1] == b">" and not self.rows and not self.done:
            self.kinds.append("a FASTA file")
            self.fasta = True
        elif line[:1] == b"@":
            self.record()
        else:
            raise Refused

    def record(self):
        line = self.line()
        if line == b"@" and self.done:
            self.kinds.append("a last line that is '@' alone")
            return self.next()
        self.keep()
        if not line.endswith(b"\n"):
            raise Refused
        self.name = self.name_of(line[1:])
        self.next()
        position = self.offset()
        sequence = self.sequence()
        self.next()
        if not sequence:
            raise Refused
        total = sum(map(printed, sequence))
        self.numbers = (total, position, printed(sequence[0]), width(sequence[0]), self.offset())
        self.qualities(sequence, total)

    def name_of(self, text):
        name = re.match(rb"[ \t\r\x0b\x0c]*([^ \t\r\n\x0b\x0c]*)", text)[1].partition(b"\0")[0]
        ruled = re.match(rb"[^ \t\r\n\x0c]*", text)[0]
        if not ruled:
            self.kinds.append("no name, or a blank before it")
        elif name != ruled:
            self.kinds.append("a vertical tab in a name" if b"\x0b" in ruled else "a NUL in a name")
        return name

    def sequence(self):
        """The lines up to one that begins with '+': of the first one's width, but for a shorter last one."""
        lines, ended = [], False
        while self.line() is not None and self.line()[:1] != b"+":
            line = self.line()
            if ended or line == b"\n" or lines and width(line) > width(lines[0]):
                raise Refused
            ended = bool(lines) and width(line) < width(lines[0])
            lines.append(line)
            self.next()
            self.judge_sequence(lines, self.line() is None or self.line()[:1] == b"+")
        if self.line() is None:
            raise Refused
        return lines

    def judge_sequence(self, lines, last):
        """Whether the rules take the last of these lines (R81)."""
        first, line = lines[0], lines[-1]
        short = last and 0 < bases(line) <= bases(first) and len(line) <= len(first)
        if printed(line) != bases(line):
            self.kinds.append("a byte that is not printed, in bases or qualities")
        elif bases(line) == 0:
            self.kinds.append(("another" if lines[1:] else "a first") + " sequence line that is a CR")
        elif (bases(line), len(line)) != (bases(first), len(first)) and not short:
            self.kinds.append("sequence lines of one width and other bases")

    def qualities(self, sequence, total):
        """Lines until there are as many qualities as bases, each of the first line's width but for the last; then lines that hold none."""
        found = 0
        for number in range(len(self.lines)):
            line = self.line()
            if line is None or self.done and line[:1] == b"@":
                return
            if line == b"\n":
                if not self.done:
                    raise Refused
                return
            found += printed(line)
            over = width(line) > width(sequence[0]) or found > total or found < total and width(line) < width(sequence[0])
            self.judge_quality(line, sequence[number] if number < len(sequence) else None, over)
            if over:
                raise Refused
            self.done = found == total
            self.next()

    def judge_quality(self, line, partner, refused):
        """Whether the rules say of this line what samtools says (R83)."""
        if self.done and not refused:
            blank = line in (b"\r\n", b"\r")
            what = "a blank line before a record or behind it" if blank else "a line of bytes that are not printed behind a record"
            return self.kinds.append(what)
        if self.done or partner is None:
            return None
        fits = bases(line) == bases(partner) and (len(line) == len(partner) or not line.endswith(b"\n"))
        if printed(line) != bases(line):
            self.kinds.append("a byte that is not printed, in bases or qualities")
        elif fits and refused:
            self.kinds.append("a CR at the end of an unterminated file")
        elif not fits and not refused:
            self.kinds.append("a quality line " + ("that is a CR" if bases(line) == 0 else "of another end than its partner's"))
        return None


def kinds_of(read):
    """The kinds that tell of a difference: those that stand beside others, and the first of the rest, with which the readers part."""
    rest = [kind for kind in read.kinds if kind not in ASIDE][:1]
    before = read.kinds[: read.kinds.index(rest[0])] if rest else read.kinds
    return [*dict.fromkeys(before), *rest]
