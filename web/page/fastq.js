// Rows of FASTQ. The proved code makes them of seven numbers; what is kept are rows of FASTA's eight, which lead to the bases, so that every call for rows
// serves FASTQ too (as `part` of the Rust library, host/wakeluri/src/fastq.rs), and beside them the place of each record's first quality.
import { FASTQ_ROW, ROW } from "./wakeluri.js";
import { DEFINES, behind } from "./places.js";
import { placeBy } from "./faults.js";

// Bytes that come one after another, and are kept.
export class Gathered {
    constructor() {
        this.room = new Uint8Array(1 << 12);
        this.length = 0;
    }

    get bytes() {
        return this.room.subarray(0, this.length);
    }

    // Some bytes, or a part of them. A short part is copied byte by byte: to make a view of it takes longer, and there may be a million.
    add(bytes, from = 0, to = bytes.length) {
        const length = this.length + to - from;
        if (length > this.room.length) {
            const more = new Uint8Array(2 * length);
            more.set(this.bytes);
            this.room = more;
        }
        if (to - from > 200) this.room.set(bytes.subarray(from, to), this.length);
        else for (let k = from; k < to; k++) this.room[this.length + k - from] = bytes[k];
        this.length = length;
    }

    // Leaves out the first so many.
    drop(count) {
        this.room.copyWithin(0, count, this.length);
        this.length -= count;
    }
}

// Where a number of a row lies among the halves of a table, of eight numbers to a row and of seven.
const ofEight = (row, number) => 16 * row + 2 * number;
const ofSeven = (row, number) => 14 * row + 2 * number;

// Rows of seven numbers, in the last room, as rows of eight at the same place: it grows, and is filled from its end on. Behind it the places of the first
// qualities. There are no descriptions.
export function asEight(proved, seven) {
    const count = seven.length / FASTQ_ROW;
    const table = proved.resized(seven, ROW * count);
    const qualities = proved.room(8 * count);
    const [numbers, places] = [proved.halves(table), proved.halves(qualities)];
    for (let row = count - 1; row >= 0; row--) {
        for (const k of [0, 1]) places[2 * row + k] = numbers[ofSeven(row, 6) + k];
        numbers.copyWithin(ofEight(row, 0), ofSeven(row, 0), ofSeven(row, 6));
        numbers.fill(0, ofEight(row, 6), ofEight(row, 8));
    }
    return { table, count, qualities };
}

// The rows that an index of six columns tells: what was told, and the rows, whose names are spans of it.
export function sixColumns(proved, index) {
    const { table, ...told } = proved.table("fastq_read_index", index, FASTQ_ROW);
    return [told, { names: index, ...asEight(proved, table) }];
}

// The definition lines of a FASTQ file, in which names and descriptions lie. With '>' for '@' they are a FASTA file of records without bases: the proved code
// reads it, and tells the descriptions, which rows of FASTQ lack.
export class Definitions {
    constructor() {
        this.lines = new Gathered();
    }

    // Puts names and descriptions to the rows from one on and before another, whose names are spans of some bytes until then.
    put(proved, table, from, to, bytes) {
        const begin = this.lines.length;
        const before = proved.halves(table);
        for (let row = from; row < to; row++) {
            // bases stand behind a definition line, so that it has its LF
            const [name, at] = [before[ofEight(row, 0)], this.lines.length];
            this.lines.add(bytes, name - 1, behind(bytes, name));
            this.lines.room[at] = DEFINES;
        }
        proved.using(() => {
            const { table: read, ...told } = proved.table("index_complete", proved.lend(this.lines.bytes.subarray(begin)), ROW, to - from);
            if (told.refusal !== 0n || Number(told.count) !== to - from) throw new Error("two readings of a definition line differ");
            const [numbers, said] = [proved.halves(table), proved.halves(read)];
            for (let row = from; row < to; row++) {
                const [mine, theirs] = [ofEight(row, 0), ofEight(row - from, 0)];
                if (numbers[mine + 2] !== said[theirs + 2]) throw new Error("two readings of a name differ");
                // what is told lies in these lines, of which there were others before
                numbers[mine] = said[theirs] + begin;
                numbers[mine + 12] = said[theirs + 14] > 0 ? said[theirs + 12] + begin : 0;
                numbers[mine + 14] = said[theirs + 14];
            }
        });
    }
}

// Where a record ends, by the numbers that lead to its qualities: behind the last line of these.
export function endOf(numbers, bytes) {
    return behind(bytes, Number(placeBy(numbers, numbers.length)));
}

// The rows of a FASTQ file that comes in parts, in a table that is the last room until all have come.
export class Reads {
    constructor(proved) {
        this.proved = proved;
        this.table = proved.room(0);
        this.count = 0;
        this.qualities = new Gathered();
        this.definitions = new Definitions();
    }

    // Rows of seven numbers of some bytes, which begin at an offset of the file. Tells where in these bytes the last of the records ends.
    add(seven, bytes, at) {
        const [before, more] = [this.count, seven.length / FASTQ_ROW];
        if (more === 0) return 0;
        this.count += more;
        this.table = this.proved.resized(this.table, ROW * this.count);
        const [from, to, places] = [new Uint32Array(seven.buffer), this.proved.halves(this.table), new Uint32Array(2 * more)];
        // a place in these bytes as one of the file
        const move = (number, target, into) => {
            const place = from[number] + 2 ** 32 * from[number + 1] + at;
            target[into] = place % 2 ** 32;
            target[into + 1] = Math.floor(place / 2 ** 32);
        };
        for (let row = 0; row < more; row++) {
            const [one, other] = [ofSeven(row, 0), ofEight(before + row, 0)];
            for (let k = 0; k < 12; k++) to[other + k] = from[one + k];
            for (let k = 12; k < 16; k++) to[other + k] = 0;
            move(one + 6, to, other + 6);
            move(one + 12, places, 2 * row);
        }
        this.qualities.add(new Uint8Array(places.buffer));
        this.definitions.put(this.proved, this.table, before, this.count, bytes);
        const [length, , lineBases, lineWidth, position] = new BigUint64Array(seven.buffer).subarray(-5);
        return endOf({ length, lineBases, lineWidth, position }, bytes);
    }

    rows() {
        const { proved, table, count } = this;
        return { names: proved.lend(this.definitions.lines.bytes), table, count, qualities: proved.lend(this.qualities.bytes) };
    }
}

// The qualities of one record as rows of FASTA: one row, which leads to them.
export function qualitiesAsRows(proved, { names, table, qualities }, row) {
    const one = proved.room(ROW);
    const to = proved.halves(one);
    to.set(proved.halves(table.part(ROW * row, ROW)));
    to.set(proved.halves(qualities.part(8 * row, 8)), ofEight(0, 3));
    return { names, table: one, count: 1 };
}

// The numbers of a record's row, with the place of its first quality for that of its first base.
export function qualityNumbers(proved, { table, qualities }, row) {
    const [low, high] = proved.halves(qualities.part(8 * row, 8));
    return { ...proved.row(table, row), position: BigInt(high) * 2n ** 32n + BigInt(low) };
}

// The lines of an index: a function that has the proved code write the line of a row to a room.
export function lineWriter(proved, { names, table, count, qualities }) {
    if (!qualities) return (row, room) => proved.call("write_index_line", names, table, BigInt(count), BigInt(row), room);
    const one = proved.room(FASTQ_ROW);
    return (row, room) => {
        const to = proved.halves(one);
        to.set(proved.halves(table.part(ROW * row, 48)));
        to.set(proved.halves(qualities.part(8 * row, 8)), ofSeven(0, 6));
        return proved.call("fastq_write_line", names, one, 1n, 0n, room);
    };
}
