"""FASTQ files of many shapes, the same for the same seed; half of them damaged."""
import random

NAMES = [b"r%d", b"r%d/1", b"read.%d", b"SRR001.%d", b"HWI:1:%d", b"r|%d|", b"\xc3\xa9%d", b"@%d", b"+%d", b">%d"]
BEHIND = [b"", b"", b"", b" about it", b"\tx y ", b" ", b" @s", b"\x0cz", b" 1:N:0:ACGT"]
QUALITIES = [b"I", b"!\"#$%&'()*+,-./0123456789:;<=>?@ABCDEFGHIJ", b"@+", b"@I", b"+I", b"@+>;I"]
ODD = [b" ", b"\t", b"\r", b"\0", b"\x0b", b"\x0c", b"\x7f", b"\x80", b"\xff", b"+", b"@", b">", b"-", b"*"]


def text_of(numbers, alphabet, length):
    return bytes(numbers.choice(alphabet) for _ in range(length))


def well_formed(numbers):
    """A FASTQ file, as its lines."""
    end = numbers.choice([b"\n", b"\n", b"\r\n"])
    mixed = numbers.random() < 0.04
    records = numbers.choice([1, 1, 1, 2, 2, 3, 5, 8]) if numbers.random() < 0.99 else 200
    shared = numbers.choice([None, None, (151, 150), (50, 100)])
    lines = []
    for record in range(records):
        name = numbers.choice(NAMES) % (record if numbers.random() < 0.99 else 0)
        wrap = numbers.choice([1, 2, 3, 10, 60, 70, 10_000]) if not shared else shared[0]
        length = numbers.choice([1, 2, 3, 5, 10, 59, 60, 61, 120, 150, 300]) if not shared else shared[1]
        letters = numbers.choice([b"ACGT", b"ACGTN", b"acgtnACGTN", b"ACGU", b"ACGTRYKM.*-"])
        sequence, quality = text_of(numbers, letters, length), text_of(numbers, numbers.choice(QUALITIES), length)
        plus = numbers.choice([b"", b"", name, b"+", b"@", b" x", b"\r", b"other"])
        wrapped = [[text[i : i + wrap] for i in range(0, length, wrap)] for text in (sequence, quality)]
        for line in [b"@" + name + numbers.choice(BEHIND), *wrapped[0], b"+" + plus, *wrapped[1]]:
            lines.append(line + (numbers.choice([b"\n", b"\r\n"]) if mixed else end))
    return lines


def damaged(numbers, lines):
    """One of the ways in which a file is not as it should be."""
    at = numbers.randrange(len(lines))
    line = lines[at]
    place = numbers.randrange(len(line) + 1)
    blank = numbers.choice([b"\n", b"\r\n", b" \n", b"\t\n", b"\r\n"])
    ways = [
        lambda: lines[:at] + [blank] + lines[at:],
        lambda: lines + [blank],
        lambda: lines[:at] + lines[at + 1 :],
        lambda: lines[:at] + [line] + lines[at:],
        lambda: lines[:at] + [line[:place] + numbers.choice(ODD) + line[place:]] + lines[at + 1 :],
        lambda: lines[:at] + [line[:place] + numbers.choice(ODD) + line[place + 1 :]] + lines[at + 1 :],
        lambda: lines[:at] + [line[1:]] + lines[at + 1 :],
        lambda: lines[:at] + [numbers.choice([b"I", b"@", b"+", b"A"]) + line] + lines[at + 1 :],
        lambda: lines[:at] + [line.replace(b"\r", b"") if b"\r" in line else line.replace(b"\n", b"\r\n")] + lines[at + 1 :],
        lambda: lines[:at] + [line[:place]],
        lambda: lines[:at] + [line.removesuffix(b"\n")] + lines[at + 1 :],
        lambda: [lines[0][:1] + numbers.choice([b" ", b"\x0b", b"\0", b"\t"]) + lines[0][1:]] + lines[1:],
        lambda: [lines[0][:2] + numbers.choice([b"\x0b", b"\0"]) + lines[0][2:]] + lines[1:],
        lambda: [b"@\n"] + lines[1:],
        lambda: [lines[0], b"\r\n"] + lines[1:],
        lambda: [b">" + lines[0][1:]] + lines[1:],
        lambda: lines[:at] + [line.replace(b"\r\n", b"A\n") if b"\r" in line else line[:-2] + b"\r\n"] + lines[at + 1 :],
        lambda: lines + lines,
        lambda: lines + [numbers.choice([b"@", b"\r", b"+", b"@s", b">", b" \n"])],
        lambda: [numbers.choice([b"\n", b"\r\n", b">", b"\r", b" ", b"\xef\xbb\xbf"])] + lines,
        lambda: [] if numbers.random() < 0.2 else lines,
    ]
    return [line for line in numbers.choice(ways)() if line]


def made(numbers):
    lines = well_formed(numbers)
    if numbers.random() < 0.2:
        lines[-1] = lines[-1][: numbers.choice([-1, -1, -2])] or b"\n"
    for _ in range(numbers.choice([0, 0, 0, 1, 1, 2])):
        lines = damaged(numbers, lines) or []
        if not lines:
            break
    return b"".join(lines)


def files(count, seed):
    """Different files, the same for the same seed."""
    numbers, seen = random.Random(seed), set()
    while len(seen) < count:
        file = made(numbers)
        if file not in seen:
            seen.add(file)
            yield file
