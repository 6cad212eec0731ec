// The worker: holds the files and asks the proved calls, away from the page's own thread. It says nothing in words: a refusal goes out as its
// numbers, and the page has the texts.
//
// A message is { id, ask, .. }, its answer { id, .. }. Files come as bytes, part by part: the page reads them, since WebKit lets no worker
// read a file of a page that was itself opened as a file. For the same reason no Blob is made here. Of a file in parts an answer may be
// { id, wanted }: then the page asks again with these bytes as `windows`.
import { NoRoom, ROW, Wakeluri } from "./wakeluri.js";
import { FastaParts, FastqParts, Wanted, Whole, WholeFastq } from "./held.js";
import { lineWriter, qualityNumbers, sixColumns } from "./fastq.js";
import { checkedBeside } from "./beside.js";
import { fastqLines, isOfRecord, linesBeside, linesNear, linesOf, placeBy, recordName } from "./faults.js";
import { kindOf, shown } from "./places.js";
import { NOT_OPEN, READS, nameOf, now, refused, rowOf, span, utf8 } from "./reads.js";

// The rows that an index tells.
function rowsIn(index) {
    const { proved, file } = now;
    if (file.fastq) return sixColumns(proved, index);
    const told = proved.table("read_index", index);
    return [told, { names: index, table: told.table, count: Number(told.count) }];
}

// The rows of the file by a rule, or why it has none.
function rowsOf(strict) {
    const [told, rows] = now.file.rows(strict);
    if (told.refusal === 0n) return { rows };
    return refused(told, { about: "index", before: rows.count, lines: linesAt(told, rows) });
}
function linesAt(told, rows) {
    const { proved, file } = now;
    if (file.inParts) return linesNear(told, file);
    const bytes = proved.bytes(file.room);
    return file.fastq ? fastqLines(told, bytes, undefined, rows) : linesOf(told, bytes);
}

// The lines that a refusal of a checker is about, and the name of its record, where it is about one.
function placesOf(told) {
    const { proved, file, index } = now;
    if (!file.fastq) return { lines: linesOf(told, proved.bytes(file.room), proved.bytes(index)), name: recordName(told, proved, file.room) };
    return proved.using(() => {
        const [, rows] = file.rows();
        const number = Number(told.first) - 1;
        if (!isOfRecord(told) || number >= rows.count) return { lines: fastqLines(told, proved.bytes(file.room), proved.bytes(index), rows) };
        const at = shownOf(told, rows, number);
        return { lines: fastqLines(told, proved.bytes(file.room), proved.bytes(index), { at }), name: shown(nameOf(rows, number)) };
    });
}

// Where in a FASTQ file a fault of an index shows: at the base that its line doesn't lead to, or where it leads there at its quality; of another fault at the
// record.
function shownOf(told, rows, record) {
    const own = rowOf(rows, record);
    if (told.refusal !== 23n) return { offset: Number(placeBy(own, 1n)) - 1, ofLine: true };
    const isQuality = placeBy(own, told.second) === placeBy(rowOf(rowsIn(now.index)[1], record), told.second);
    return { offset: Number(placeBy(isQuality ? qualityNumbers(now.proved, rows, record) : own, told.second)), ofLine: false };
}

// What the checker says of an index of a file in parts, with the lines that it is about.
function checkedInParts() {
    const { proved, index, own, file } = now;
    return proved.using(() => {
        const told = checkedBeside(proved, own, index, rowsIn);
        if (told.refusal === 0n) return {};
        const record = Number(told.first) - 1;
        if (told.refusal === 20n) return refused(told, { about: "check", lines: linesBeside(told, file, proved.bytes(index)) });
        const at = told.place === undefined ? undefined : { offset: Number(told.place), ofLine: false };
        const write = lineWriter(proved, own);
        const line = proved.output((out) => write(record, out));
        const made = line.refusal === 0n ? shown(proved.bytes(line.out.part(0, line.out.length - 1))) : "";
        return refused(told, { about: "check", name: shown(nameOf(own, record)), lines: linesBeside(told, file, proved.bytes(index), at, made) });
    });
}

// A test of whether a part of some bytes, as it is shown, has a text in either case. Plain letters are looked for byte by byte: there may be
// a million names.
function textTest(text) {
    const wanted = text.toLowerCase();
    if (!/^[ -~]*$/.test(wanted)) return (bytes, from, to) => shown(bytes.subarray(from, to)).toLowerCase().includes(wanted);
    const plain = Uint8Array.from(wanted, (letter) => letter.charCodeAt(0));
    const small = (byte) => (byte >= 65 && byte <= 90 ? byte + 32 : byte);
    return (bytes, from, to) => {
        for (let at = from; at + plain.length <= to; at++) {
            let k = 0;
            while (k < plain.length && small(bytes[at + k]) === plain[k]) k++;
            if (k === plain.length) return true;
        }
        return false;
    };
}

const FILES = {
    // Of two modules the first that this browser takes: the same proved code, with SIMD and without.
    start({ modules, calls }) {
        const taken = modules.findIndex((bytes) => WebAssembly.validate(bytes));
        if (taken < 0) return { tooOld: true };
        now.proved = new Wakeluri(new WebAssembly.Module(modules[taken]), calls);
        now.bottom = now.proved.room(0);
        return { simd: taken === 0 };
    },

    // Lets the browser compile the long loops well before a file comes: some run a loop until its end as they compiled it at first, in haste. Files of
    // 4 MiB and more have loops of their own (`lines::abreast`), so there are two files.
    warm() {
        const { proved } = now;
        return proved.using(() => {
            for (const lines of [17_000, 70_000]) {
                const text = new Uint8Array(3 + 61 * lines).fill(65);
                text.set([62, 115, 10]);
                for (let k = 1; k <= lines; k++) text[2 + 61 * k] = 10;
                const [file, index] = [proved.lend(text), proved.lend(utf8.encode(`s\t${60 * lines}\t3\t60\t61\n`))];
                const table = proved.room(ROW);
                const until = performance.now() + 150;
                for (let k = 0; k < 20 && performance.now() < until; k++) {
                    proved.call("check", file, index);
                    proved.call("index_complete", file, table);
                    proved.call("feed_piece", proved.call("feed_start", 1n), file, table);
                }
            }
            return {};
        });
    },

    // Room for a FASTA file, whole or in parts, and, if there is one, its index. The memory is used again, and grows where it must.
    begin({ round, fasta, index, fastq, inParts, strict }) {
        const { proved, bottom } = now;
        Object.assign(now, { own: undefined, kept: undefined, file: undefined, index: undefined, round });
        proved.giveBack(bottom);
        if (index !== undefined) now.index = proved.room(index);
        const [InParts, Held] = fastq ? [FastqParts, WholeFastq] : [FastaParts, Whole];
        now.file = inParts ? new InParts(proved, fasta, strict && index === undefined) : new Held(proved, fasta);
        return {};
    },

    // Some bytes of a file, in their order.
    take({ round, file, at, bytes }) {
        if (round !== now.round) return {};
        const taken = new Uint8Array(bytes);
        if (at === 0 && file === "fasta") now.kind = kindOf(taken);
        if (file === "fasta") return now.file.take(at, taken);
        now.proved.bytes(now.index.part(at, taken.length)).set(taken);
        return {};
    },

    // What is there: whether the index leads to every base, or whether the file can be indexed.
    judge({ strict }) {
        const { proved, index, file } = now;
        const from = performance.now();
        const answer = { kind: file.length > 0 ? now.kind : undefined, inParts: file.inParts, fastq: file.fastq };
        if (index && !answer.inParts) {
            const told = proved.call(file.fastq ? "fastq_check" : "check", file.room, index);
            answer.checking = performance.now() - from;
            if (told.refusal !== 0n) return { ...answer, ...refused(told, { about: "check", ...placesOf(told) }) };
            [, now.kept] = rowsIn(index);
        }
        const since = performance.now();
        const made = rowsOf(strict && !index);
        answer.indexing = performance.now() - since;
        if (made.refused) {
            now.kept = undefined;
            return { ...answer, ...made };
        }
        now.own = made.rows;
        if (index && answer.inParts) {
            const checked = checkedInParts();
            if (checked.refused) return { ...answer, ...checked };
        }
        now.kept ??= now.own;
        return { ...answer, accepted: index !== undefined, records: now.own.count };
    },

    // The records whose name or description has some text: how many of some rows, the first of them, and the row to go on from. The page asks
    // again, so that another search need not wait for this one.
    list({ search, most, at }) {
        const { own } = now;
        if (!now.kept) return NOT_OPEN;
        const has = textTest(search);
        const [names, spans] = [now.proved.bytes(own.names), now.proved.spans(own.table)];
        const until = performance.now() + 100;
        const rows = [];
        let [matches, row] = [0, at];
        for (; row < own.count && (row % 1000 > 0 || performance.now() < until); row++) {
            if (search === "" && rows.length >= most) return { rows, matches: own.count, records: own.count };
            const [name, nameLength, text, textLength] = spans(row);
            if (!has(names, name, name + nameLength) && !has(names, text, text + textLength)) continue;
            matches++;
            if (rows.length >= most) continue;
            const { length, description, name: named } = rowOf(own, row);
            rows.push({ row, name: shown(span(own, named)), length, description: shown(span(own, description)) });
        }
        return { rows, matches, records: own.count, next: row < own.count ? row : undefined };
    },

    // The index of the file, as a list of bytes.
    index({ strict }) {
        const { proved } = now;
        return proved.using(() => {
            const made = rowsOf(strict);
            if (made.refused) return made;
            const { rows } = made;
            const parts = [];
            const write = lineWriter(proved, rows);
            let [room, used] = [proved.room(1 << 16), 0];
            for (let row = 0; row < rows.count; row++) {
                let line;
                for (;;) {
                    line = write(row, room.part(used, room.length - used));
                    if (line.refusal !== 14n) break;
                    // full: keep what is there, and have room for this line at least
                    parts.push(proved.bytes(room.part(0, used)).slice());
                    used = 0;
                    if (line.first > BigInt(room.length)) room = proved.room(Number(line.first));
                }
                if (line.refusal !== 0n) return refused(line, { about: "index", before: row, lines: [] });
                used += Number(line.count);
            }
            parts.push(proved.bytes(room.part(0, used)).slice());
            return { parts, records: rows.count };
        });
    },

    // Goes by rows that are made of the file now, and not by an index that was refused.
    anew() {
        const made = rowsOf(false);
        if (made.refused) return made;
        now.own = now.kept = made.rows;
        return { records: made.rows.count };
    },
};

const ASKED = { ...FILES, ...READS };

// Each message is answered before the next is looked at: nothing here waits.
self.onmessage = ({ data }) => {
    const { id, ask } = data;
    try {
        if (now.file) now.file.windows = data.windows ?? [];
        self.postMessage({ id, ...ASKED[ask](data) });
    } catch (e) {
        if (e instanceof Wanted) self.postMessage({ id, wanted: e.parts });
        else self.postMessage({ id, ...(e instanceof NoRoom ? { noRoom: true } : { failed: String(e.message ?? e) }) });
    } finally {
        if (now.file) now.file.windows = [];
    }
};
