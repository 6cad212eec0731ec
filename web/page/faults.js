// The lines that a refusal is about, with what stands there, for what is shown. It judges nothing: the proved code has refused by then.
import { DEFINES, LF, PLUS, about, baseOf, basesIn, behind, definitionOf, lineAt, lineOf, shown } from "./places.js";

const ofFasta = (bytes, line, offset) => (line ? [{ file: "fasta", ...about(bytes, line, offset) }] : []);
const ofIndex = (bytes, number) => {
    const line = bytes && lineOf(bytes, number);
    return line ? [{ file: "index", ...about(bytes, line) }] : [];
};

// Of a refusal of the indexer or of the checker, where the whole file is at hand.
export function linesOf(told, fasta, index) {
    const [number, first, second] = [Number(told.refusal), Number(told.first), Number(told.second)];
    const at = (offset) => (fasta.length === 0 ? [] : ofFasta(fasta, lineAt(fasta, offset), offset));
    const checking = told.call === "check";
    if (number >= 2 && number <= 4) return at(checking ? second : first);
    if (!checking) {
        if (number === 5 || number === 42) return at(number === 5 ? Math.max(0, first - 1) : first);
        if (number === 6 || number === 7) return uneven(fasta, Number(told.count));
        return [];
    }
    if (number === 19) return ofFasta(fasta, definitionOf(fasta, first));
    if (number === 20) return ofIndex(index, first + 1);
    if (number >= 9 && number <= 12) return ofIndex(index, first);
    if (number === 21 || number === 22) return [...ofIndex(index, first), ...ofFasta(fasta, definitionOf(fasta, first))];
    if (number === 23) {
        const definition = definitionOf(fasta, first);
        const base = definition && baseOf(fasta, definition, second);
        return [...ofIndex(index, first), ...(base ? ofFasta(fasta, base.line, base.offset) : [])];
    }
    return [];
}

// Of a refusal of a file in parts. The bytes about it are wanted from the page.
export function linesNear(told, file) {
    if (file.length === 0 || ![2, 3, 4, 5, 6, 7, 38, 39, 42].includes(Number(told.refusal))) return [];
    return [lineNear(file, file.faultAt(told))];
}
function lineNear(file, { offset, ofLine }) {
    const { at, lineEnds, bytes } = file.near(offset);
    const line = lineAt(bytes, offset - at);
    const { byte, ...said } = about(bytes, line, ofLine ? line.start : offset - at);
    return { file: "fasta", ...said, line: said.line + lineEnds, byte: byte + at };
}

// Of a refusal of an index beside the rows of its file in parts: its line, the file's line with the base that it doesn't lead to, and the line of the index that the
// file gives, as bytes.
export function linesBeside(told, file, index, at, given) {
    const [number, first] = [Number(told.refusal), Number(told.first)];
    if (number === 20) return ofIndex(index, first + 1);
    return [...(number === 19 ? [] : ofIndex(index, first)), ...(at ? [lineNear(file, at)] : []), { file: "made", line: first, text: given }];
}

// Of a refusal of FASTQ's checker that is about a record, `at` being where in the file it shows; else of the indexer, `begin` being where the refused
// record begins.
export function fastqLines(told, fastq, index, { at, begin }) {
    const [number, first] = [Number(told.refusal), Number(told.first)];
    if (number === 20) return ofIndex(index, first + 1);
    if (isOfRecord(told)) return [...(number === 19 ? [] : ofIndex(index, first)), ...(at ? ofFasta(fastq, lineAt(fastq, at.offset), at.ofLine ? undefined : at.offset) : [])];
    if (![2, 3, 4, 5, 6, 7, 38, 39].includes(number)) return [];
    const { offset } = refusedPlace(told, fastq, begin);
    return ofFasta(fastq, lineAt(fastq, offset), offset);
}

// Where a base of a record lies by the numbers of its row, or of its line in an index.
export function placeBy({ position, lineBases, lineWidth }, base) {
    return position + (base - 1n) / lineBases * lineWidth + (base - 1n) % lineBases;
}

// Where the fault lies that FASTQ's indexer refused a record for, which begins at an offset of some bytes: a letter, or a line, as host/command/src/fastq_faults.rs
// has it.
export function refusedPlace(told, bytes, begin) {
    const [number, first] = [Number(told.refusal), Number(told.first)];
    if (number <= 5) return { offset: Math.max(0, number === 5 ? first - 1 : first), ofLine: false };
    const lines = [];
    let [last, at] = [begin, behind(bytes, begin)];
    for (; at < bytes.length && bytes[at] !== PLUS; at = behind(bytes, at)) {
        lines.push([at, behind(bytes, at)]);
        last = at;
    }
    const like = ([from, to]) => `${basesIn(bytes, from, to)} ${to - from}`;
    if (number === 6 || number === 7) {
        const [bases, width] = [basesIn(bytes, ...lines[0]), lines[0][1] - lines[0][0]];
        const isGoodLast = ([from, to], k) => k === lines.length - 1 && basesIn(bytes, from, to) > 0 && basesIn(bytes, from, to) <= bases && to - from <= width;
        const bad = lines.find((line, k) => like(line) !== like(lines[0]) && !isGoodLast(line, k));
        return { offset: bad?.[0] ?? begin, ofLine: true };
    }
    if (number === 39) {
        // the '+' line, and then a line for each
        last = at;
        at = behind(bytes, at);
        for (const line of lines) {
            if (at >= bytes.length) break;
            last = at;
            const next = behind(bytes, at);
            const isUnended = bytes[next - 1] !== LF && basesIn(bytes, at, next) === basesIn(bytes, ...line);
            if (!isUnended && like([at, next]) !== like(line)) break;
            at = next;
        }
    }
    return { offset: last, ofLine: true };
}

// Whether a refusal of a checker is about a record, by its number.
export function isOfRecord({ call, refusal }) {
    return ["check", "fastq_check"].includes(call) && [9, 10, 11, 12, 19, 21, 22, 23].includes(Number(refusal));
}

// The line of the record behind so many good ones that is not like its first line.
function uneven(fasta, good) {
    const definition = definitionOf(fasta, good + 1);
    let start = definition?.next ?? fasta.length;
    let [like, number] = [undefined, definition?.number];
    while (start < fasta.length && fasta[start] !== DEFINES) {
        number++;
        const next = behind(fasta, start);
        const found = `${basesIn(fasta, start, next)} ${next - start}`;
        like ??= found;
        if (like !== found) return ofFasta(fasta, { number, start, next }, start);
        start = next;
    }
    return [];
}

// The name of the record that a refusal of the checker is about, where it has one.
export function recordName(told, proved, fasta) {
    if (!isOfRecord(told)) return undefined;
    const line = definitionOf(proved.bytes(fasta), Number(told.first));
    if (!line) return undefined;
    return proved.using(() => {
        const lent = fasta.part(line.start, line.next - line.start);
        const said = proved.call("definition_line", lent);
        return said.refusal === 0n ? shown(proved.bytes(lent.part(Number(said.name_start), Number(said.name_length)))) : undefined;
    });
}
