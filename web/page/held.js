// A file that is open, in one of two ways. Whole, it lies in the module's memory. In parts, none of it is kept: the rows are made while the parts pass
// by, and a read wants the bytes of its region alone (K7), which the page hands over. Both answer alike; what is asked of them is asked inside
// `using`, where it gives rooms.
import { FASTQ_ROW, ROW, bounds } from "./wakeluri.js";
import { Definitions, Gathered, Reads, asEight, endOf, qualityNumbers } from "./fastq.js";
import { refusedPlace } from "./faults.js";

const FED = 1 << 20; // bytes that are fed at a time: so much room for rows is made before
const NAMED = 1 << 16; // rows of FASTQ that are given names at a time
const LARGEST = 2n ** 64n - 1n;

// Bytes of a file that are not at hand: the page reads them, and asks again with them.
export class Wanted extends Error {
    constructor(parts) {
        super("bytes of the file are wanted");
        this.parts = parts;
    }
}

// Does all of some works, or tells all bytes that they want.
export function allOf(works) {
    const wanted = [];
    const done = works.map((work) => {
        try {
            return work();
        } catch (e) {
            if (!(e instanceof Wanted)) throw e;
            wanted.push(...e.parts);
            return undefined;
        }
    });
    if (wanted.length > 0) throw new Wanted(wanted);
    return done;
}

// The numbers of some regions as a room, as wakeluri_read_sheet takes them: a row and two bounds, five numbers each.
function listed(proved, regions) {
    const numbers = regions.flatMap(({ row, first, last }) => [BigInt(row), ...bounds(first, last)]);
    return proved.lend(new Uint8Array(BigUint64Array.from(numbers).buffer));
}

export class Whole {
    fastq = false;
    inParts = false;

    constructor(proved, length) {
        this.proved = proved;
        this.length = length;
        this.room = proved.room(length);
    }

    // Some bytes of it, at their place. What is asked later sees the bytes alone, and not how they came.
    take(at, bytes) {
        this.proved.bytes(this.room.part(at, bytes.length)).set(bytes);
        return {};
    }

    // Its rows by the complete rule, or by the original's: what was told, and the rows.
    rows(strict) {
        const told = this.proved.table(strict ? "index_file" : "index_complete", this.room);
        return [told, { names: this.room, table: told.table, count: Number(told.count) }];
    }

    // Exactly the bases of a region, as `out`, or a refusal.
    exact({ table, count }, row, first, last) {
        return this.proved.output((out) => this.proved.call("read_exact", this.room, table, BigInt(count), BigInt(row), ...bounds(first, last), out));
    }

    // The keys of up to 200 regions in one call, or the first refused one's refusal, with its place as `next`.
    sheet({ table, count }, regions) {
        const { proved } = this;
        const list = listed(proved, regions);
        const starts = proved.room(8 * regions.length);
        const ask = (room) => proved.call("read_sheet", this.room, table, BigInt(count), list, room, starts);
        let out = proved.room(1 << 16);
        let told = ask(out);
        while (told.refusal === 14n) {
            proved.giveBack(out);
            out = proved.room(Number(told.first));
            told = ask(out);
        }
        if (told.refusal !== 0n) return told;
        const view = new DataView(proved.memory.buffer, starts.start, starts.length);
        const begins = regions.map((_, k) => Number(view.getBigUint64(8 * k, true)));
        begins.push(Number(told.count));
        return { ...told, keys: regions.map((_, k) => out.part(begins[k], begins[k + 1] - begins[k])) };
    }

    // The score of what was typed, from an exercise's bytes on, in one call; and the key, as a room.
    score({ names, table, count }, exercise, typed) {
        const { proved } = this;
        const ask = (room) => proved.call("score_exercise", exercise, typed, this.room, names, table, BigInt(count), room);
        let room = proved.room(0);
        let told = ask(room);
        if (told.refusal === 14n) {
            room = proved.room(Number(told.first));
            told = ask(room);
        }
        return told.refusal === 0n ? { ...told, key: room.part(0, Number(told.right + told.wrong + told.missing)) } : told;
    }
}

// A FASTQ file that lies in the memory. Its rows lead to the bases, and `qualities` of them to the qualities (fastq.js).
export class WholeFastq extends Whole {
    fastq = true;

    // Its rows, or of a file that is refused where the record begins that is.
    rows() {
        const { proved, room } = this;
        const { table: seven, ...told } = proved.table("fastq_index", room, FASTQ_ROW);
        const rows = asEight(proved, seven);
        if (told.refusal !== 0n) {
            const begin = rows.count === 0 ? 0 : endOf(qualityNumbers(proved, rows, rows.count - 1), proved.bytes(room));
            proved.giveBack(rows.table);
            return [told, { count: rows.count, begin }];
        }
        const definitions = new Definitions();
        for (let row = 0; row < rows.count; row += NAMED) definitions.put(proved, rows.table, row, Math.min(row + NAMED, rows.count), proved.bytes(room));
        return [told, { ...rows, names: proved.lend(definitions.lines.bytes) }];
    }
}

// A file of which nothing is kept but its rows, their names, and where its lines end.
class Parts {
    inParts = true;

    constructor(proved, length) {
        this.proved = proved;
        this.length = length;
        this.windows = [];
        this.passed = 0;
        this.lineEnds = 0;
        this.marks = []; // where each part began, and how many lines ended before it
    }

    // The next bytes of it pass by.
    pass(at, bytes) {
        if (at !== this.passed) throw new RangeError("a part out of its turn");
        this.passed += bytes.length;
        this.marks.push({ at, lineEnds: this.lineEnds });
        for (let k = bytes.indexOf(10); k >= 0; k = bytes.indexOf(10, k + 1)) this.lineEnds++;
    }

    // Some bytes of the file, which the page has handed over with what is asked.
    bytes(from, to) {
        if (from === to) return new Uint8Array(0);
        const found = this.windows.find((window) => window.from <= from && to <= window.from + window.bytes.byteLength);
        if (!found) throw new Wanted([{ from, to }]);
        return new Uint8Array(found.bytes, from - found.from, to - from);
    }

    // The bytes about an offset, with its line, or much of it; where they begin, and how many lines ended before.
    near(offset) {
        const mark = this.marks.filter(({ at }) => at <= Math.max(0, offset - 4096)).pop() ?? { at: 0, lineEnds: 0 };
        return { ...mark, bytes: this.bytes(mark.at, Math.min(this.length, offset + 4096)) };
    }

    // The part of the file that a region needs, or a refusal. No byte is looked at.
    needed({ table, count }, row, first, last) {
        return this.proved.call("needed_bytes", BigInt(this.length), LARGEST, table, BigInt(count), BigInt(row), ...bounds(first, last));
    }

    exact(rows, row, first, last) {
        const { proved } = this;
        const needed = this.needed(rows, row, first, last);
        if (needed.refusal !== 0n) return needed;
        const window = proved.lend(this.bytes(Number(needed.from), Number(needed.to)));
        return proved.output((out) => proved.call("read_window", BigInt(this.length), window, needed.from, rows.table, BigInt(rows.count), BigInt(row), ...bounds(first, last), out));
    }

    // As of a whole file, by single calls: all are judged before any is read.
    sheet(rows, regions) {
        for (const [place, { row, first, last }] of regions.entries()) {
            const told = this.needed(rows, row, first, last);
            if (told.refusal !== 0n) return { ...told, next: BigInt(place) };
        }
        const read = allOf(regions.map(({ row, first, last }) => () => this.exact(rows, row, first, last)));
        const bad = read.findIndex(({ refusal }) => refusal !== 0n);
        return bad < 0 ? { refusal: 0n, keys: read.map(({ out }) => out) } : { ...read[bad], next: BigInt(bad) };
    }

    score(rows, exercise, typed) {
        const { proved } = this;
        const said = proved.call("read_exercise", exercise);
        if (said.refusal !== 0n) return said;
        const name = exercise.part(Number(said.name_start), Number(said.name_length));
        const found = proved.call("find", rows.names, rows.table, BigInt(rows.count), name);
        if (found.refusal !== 0n) return found;
        const read = this.exact(rows, Number(found.count), said.start, said.end);
        return read.refusal === 0n ? { ...proved.call("score_typed", read.out, typed, said.edition), key: read.out } : read;
    }
}

// FASTA in parts: the proved feeder (K1) makes the rows.
export class FastaParts extends Parts {
    fastq = false;

    // Nothing may be given room behind it until it has ended: its table grows.
    constructor(proved, length, strict) {
        super(proved, length);
        this.feed = proved.call("feed_start", strict ? 0n : 1n);
        this.piece = proved.room(FED);
        this.table = proved.room(0);
        this.kept = new Gathered(); // names and descriptions
        this.named = 0; // rows whose names are kept
        this.far = []; // rows whose names passed by before they were written
    }

    // The next bytes of it. Tells whether it is refused: then the rest is not wanted.
    take(at, bytes) {
        this.pass(at, bytes);
        for (let from = 0; from < bytes.length && this.feed.refusal === 0n; from += FED) {
            const some = bytes.subarray(from, from + FED);
            // no record has fewer than three bytes, but the first and the last may lie outside of the piece in part
            this.makeRoom(Math.floor(some.length / 3) + 2);
            const piece = this.piece.part(0, some.length);
            this.proved.bytes(piece).set(some);
            const before = this.feed;
            this.feed = this.proved.call("feed_piece", before, piece, this.table);
            if (this.feed.refusal !== 0n) this.stopped = at + from + this.until(before, piece);
        }
        this.nameRows(at, bytes);
        return { refused: this.feed.refusal !== 0n };
    }

    makeRoom(more) {
        const wanted = (Number(this.feed.rows) + more) * ROW;
        if (this.table.length < wanted) this.table = this.proved.resized(this.table, wanted);
    }

    // How many bytes of a piece were taken when it was refused. The refusal is the same for every way of splitting, so halving finds it.
    until(before, piece) {
        let [good, bad] = [0, piece.length];
        while (bad - good > 1) {
            const middle = Math.floor((good + bad) / 2);
            const told = this.proved.call("feed_piece", before, piece.part(0, middle), this.table);
            if (told.refusal === 0n) good = middle;
            else bad = middle;
        }
        return bad;
    }

    // Keeps the names of the rows that were written, which are spans of the file until then. There may be a million.
    nameRows(at, bytes) {
        const numbers = this.proved.halves(this.table);
        const place = (number) => numbers[number] + 2 ** 32 * numbers[number + 1];
        for (; this.named < Number(this.feed.rows); this.named++) {
            const row = 16 * this.named;
            const from = place(row);
            const to = numbers[row + 14] > 0 ? place(row + 12) + numbers[row + 14] : from + numbers[row + 2];
            if (from >= at && to <= at + bytes.length) this.keep(numbers, this.named, from, bytes, from - at, to - at);
            else this.far.push({ row: this.named, from, to });
        }
    }

    // Keeps the name and the description of a row, which begin at an offset of the file, and puts them there.
    keep(numbers, row, from, ...bytes) {
        const [name, description] = [16 * row, 16 * row + 12];
        const at = this.kept.length;
        this.kept.add(...bytes);
        if (numbers[description + 2] > 0) numbers.set([at + numbers[description] + 2 ** 32 * numbers[description + 1] - from, 0], description);
        numbers.set([at, 0], name);
    }

    // What was told of the whole file, and its rows. The names that passed by early are wanted then.
    rows() {
        if (!this.ended) {
            this.makeRoom(1);
            const { refusal } = this.feed;
            this.feed = this.proved.call("feed_end", this.feed, this.table);
            if (refusal === 0n && this.feed.refusal !== 0n) this.stopped = this.length + 1;
            this.nameRows(0, new Uint8Array(0));
            this.table = this.proved.resized(this.table, Number(this.feed.rows) * ROW);
            this.ended = true;
        }
        const told = { ...this.feed, call: "feed_end" };
        if (told.refusal !== 0n) return [told, { count: Number(told.rows) }];
        if (!this.own) {
            const found = allOf(this.far.map(({ from, to }) => () => this.bytes(from, to)));
            this.far.forEach(({ row, from }, k) => this.keep(this.proved.halves(this.table), row, from, found[k]));
            const names = this.proved.lend(this.kept.bytes);
            this.own = { names, table: this.table, count: Number(told.rows) };
            this.kept = this.far = undefined;
        }
        return [told, this.own];
    }

    // Where the fault lies that it was refused for. A line is judged with the byte behind its end, or with the end of the file.
    faultAt({ refusal, first }) {
        if (refusal === 6n || refusal === 7n) return { offset: Math.max(0, this.stopped - 2), ofLine: true };
        return { offset: Math.max(0, Number(first) - (refusal === 5n ? 1 : 0)), ofLine: false };
    }
}

// FASTQ in parts: a part is handed over as whole lines, from the begin of a record on, and the proved indexer takes the records that it has whole. With
// what is left the next part begins. docs/DECISIONS.md says why rows and refusal are those of the whole file.
export class FastqParts extends Parts {
    fastq = true;

    // As with FASTA, its table grows until it has ended.
    constructor(proved, length) {
        super(proved, length);
        this.left = new Gathered(); // the bytes from the first record on that is not taken yet
        this.begin = 0; // where they begin
        this.wanted = 0; // how many there should be before they are looked at again
        this.reads = new Reads(proved);
        this.told = { call: "fastq_index", refusal: 0n, first: 0n, second: 0n };
        // the call with the file's length alone: a file over the limit is refused before any byte of it is read
        if (proved.call("needed_bytes", BigInt(length), 0n, this.reads.table, 0n, 0n, 0n, 0n, 0n, 0n).refusal === 1n) this.told.refusal = 1n;
    }

    // As above.
    take(at, bytes) {
        this.pass(at, bytes);
        this.left.add(bytes);
        const isEnd = this.passed === this.length;
        if (this.told.refusal === 0n && (isEnd || this.left.length >= this.wanted)) this.look(isEnd);
        return { refused: this.told.refusal !== 0n };
    }

    // Takes the records that are there. Of a file that goes on whole lines alone are looked at.
    look(isEnd) {
        const { proved, left, begin } = this;
        const bytes = isEnd ? left.bytes : left.bytes.subarray(0, left.bytes.lastIndexOf(10) + 1);
        const { seven, ...told } = proved.using(() => {
            const { table, ...said } = proved.table("fastq_index", proved.lend(bytes), FASTQ_ROW, this.rowsBefore);
            return { ...said, seven: proved.bytes(table).slice() };
        });
        const end = this.reads.add(seven, bytes, begin);
        this.rowsBefore = 1024 + Number(told.count);
        if (told.refusal !== 0n && (isEnd || !this.isCutOff(told, bytes, end))) this.refuse(told, bytes, end);
        this.begin += end;
        left.drop(end);
        // a record that is longer than a part is looked at again where there is twice as much of it, so that each byte is read but a few times
        this.wanted = end > 0 ? 0 : 2 * left.length;
    }

    // Whether a refusal may come of it that the record's lines end with the part. Where there is no '+' line yet, or no line of bases, it may; where a
    // line of qualities has none, it is missing or blank: behind the part a line is put that is one letter too long, and where that is found in its
    // place the line is missing.
    isCutOff({ refusal, first, second }, bytes, end) {
        if (refusal === 38n) return true;
        if (refusal === 5n) return first === BigInt(bytes.length);
        if (refusal !== 39n || first !== 0n) return false;
        const { proved } = this;
        return proved.using(() => {
            const longer = new Uint8Array(bytes.length - end + Number(second) + 2).fill(33);
            longer.set(bytes.subarray(end));
            longer[longer.length - 1] = 10;
            return proved.call("fastq_index", proved.lend(longer), proved.room(FASTQ_ROW)).first === second + 1n;
        });
    }

    // The first refusal is the file's own: its offset counts from the file's begin.
    refuse(told, bytes, end) {
        const { offset, ofLine } = refusedPlace(told, bytes, end);
        this.fault = { offset: this.begin + offset, ofLine };
        const isOffset = told.refusal >= 2n && told.refusal <= 5n;
        this.told = { ...told, first: isOffset ? told.first + BigInt(this.begin) : told.first };
    }

    rows() {
        if (this.told.refusal !== 0n) return [this.told, { count: this.reads.count }];
        this.own ??= this.reads.rows();
        this.reads = this.left = undefined;
        return [this.told, this.own];
    }

    faultAt() {
        return this.fault;
    }
}
