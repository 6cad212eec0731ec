// Where in a file a fault lies, for what is shown. It judges nothing: the proved code has refused by then. As host/command/src/place.rs.

export const LF = 10;
const CR = 13;
export const DEFINES = 62; // '>'
export const PLUS = 43;
const CUT = 60; // letters of a line that are shown

// The offset behind the line that begins at an offset.
export function behind(bytes, at) {
    const end = bytes.indexOf(LF, at);
    return end < 0 ? bytes.length : end + 1;
}

// How many bases the line from `at` to `next` has: its bytes without LF and one CR.
export function basesIn(bytes, at, next) {
    let end = next;
    if (end > at && bytes[end - 1] === LF) end--;
    if (end > at && bytes[end - 1] === CR) end--;
    return end - at;
}

// The line that an offset lies in, where lines are counted from 1; at the end of the file the last line.
export function lineAt(bytes, offset) {
    let [number, start] = [1, 0];
    for (;;) {
        const next = behind(bytes, start);
        if (offset < next || next >= bytes.length) return { number, start, next };
        start = next;
        number++;
    }
}

// The so-manieth line, from 1; undefined where there are fewer.
export function lineOf(bytes, number) {
    let start = 0;
    for (let k = 1; start < bytes.length; k++) {
        const next = behind(bytes, start);
        if (k === number) return { number, start, next };
        start = next;
    }
    return undefined;
}

// The definition line of a record, from 1: the first line of the file, and each later one that begins with '>'.
export function definitionOf(bytes, record) {
    let [start, number, met] = [0, 1, 0];
    while (start < bytes.length) {
        const next = behind(bytes, start);
        if (start === 0 || bytes[start] === DEFINES) {
            met++;
            if (met === record) return { number, start, next };
        }
        start = next;
        number++;
    }
    return undefined;
}

// The line and the offset of a base of a record, from 1, by the line rule.
export function baseOf(bytes, definition, base) {
    let { next: start, number } = definition;
    let left = base - 1;
    while (start < bytes.length && bytes[start] !== DEFINES) {
        number++;
        const next = behind(bytes, start);
        const bases = basesIn(bytes, start, next);
        if (left < bases) return { line: { number, start, next }, offset: start + left };
        left -= bases;
        start = next;
    }
    return undefined;
}

// What is shown of a line: its text, cut about a byte, and how many letters stand before that byte.
export function about(bytes, line, offset) {
    const length = basesIn(bytes, line.start, line.next);
    const at = Math.min(Math.max((offset ?? line.start) - line.start, 0), length);
    const from = length <= CUT ? 0 : Math.max(0, Math.min(at - CUT / 2, length - CUT));
    const to = Math.min(length, from + CUT);
    const part = (a, b) => shown(bytes.subarray(line.start + a, line.start + b));
    const front = (from > 0 ? ".." : "") + part(from, at);
    return {
        line: line.number,
        byte: line.start + at,
        text: front + part(at, to) + (to < length ? ".." : ""),
        before: offset === undefined ? undefined : Array.from(front).length,
    };
}

// Bytes as text: a tab as an arrow; those that are no UTF-8, and control characters, as escapes.
export function shown(bytes) {
    try {
        const text = new TextDecoder("utf-8", { fatal: true, ignoreBOM: true }).decode(bytes).replace(/\t/g, "→");
        if (!/[\p{Cc}\p{Cf}\p{Zl}\p{Zp}]/u.test(text)) return text;
    } catch {
        // not UTF-8
    }
    return Array.from(bytes, (b) => (b >= 0x20 && b < 0x7f ? String.fromCharCode(b) : `\\x${b.toString(16).padStart(2, "0")}`)).join("");
}

// What the first bytes of a file say that it is, where it is no FASTA: the key of a text.
export function kindOf(bytes) {
    const begins = (...wanted) => wanted.every((byte, k) => bytes[k] === byte);
    if (begins(0x1f, 0x8b) || begins(0x42, 0x5a, 0x68) || begins(0xfd, 0x37, 0x7a) || begins(0x28, 0xb5, 0x2f, 0xfd) || begins(0x50, 0x4b, 3, 4)) return "packed";
    if (begins(0xef, 0xbb, 0xbf)) return "mark";
    if (begins(0xff, 0xfe) || begins(0xfe, 0xff)) return "wide";
    return undefined;
}
