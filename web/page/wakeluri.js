// The proved calls, from JavaScript: bytes are placed in the module's memory and lent by place and length. Nothing is judged here.
//
// Every number that a call takes or gives is a 64-bit one, so a BigInt. An answer is written to a place that the caller names first.
// `memory.buffer` is another object after the memory grew: no view of it is kept between calls.

const PAGE = 65536;
const MOST = 2 ** 32; // bytes of a memory with 32-bit addresses
const ANSWER = 32 * 8;

// A row of a table, as include/wakeluri.h has it: eight numbers, and of FASTQ seven. What is kept are rows of eight (fastq.js).
export const ROW = 64;
export const FASTQ_ROW = 56;

// No room: the browser gives no more memory. This is the host's limit, and no refusal of the proved code.
export class NoRoom extends Error {}

// Some bytes of the module's memory. `Wakeluri.room` makes them.
export class Room {
    constructor(start, length) {
        this.start = start;
        this.length = length;
        Object.freeze(this);
    }

    // A part of it.
    part(from, length) {
        if (!(from >= 0 && length >= 0 && from + length <= this.length)) throw new RangeError("no part of this room");
        return new Room(this.start + from, length);
    }

    overlaps(other) {
        return this.length > 0 && other.length > 0 && this.start < other.start + other.length && other.start < this.start + this.length;
    }
}

export class Wakeluri {
    // Of a compiled module, and of its calls as web/calls.mjs reads them from the header.
    constructor(module, calls) {
        this.calls = calls;
        this.exports = new WebAssembly.Instance(module, {}).exports;
        this.memory = this.exports.memory;
        // below: the module's own stack and constants, which `__heap_base` is behind
        this.answer = Math.ceil(Number(this.exports.__heap_base.value) / 16) * 16;
        // a struct that is handed back lies behind the answer
        this.state = this.answer + ANSWER;
        this.bottom = this.free = this.state + ANSWER;
        this.room(0);
        this.grow(this.bottom);
    }

    // Whether the proved code has a call: the page offers what there is.
    has(name) {
        return Object.hasOwn(this.calls, name) && `wakeluri_${name}` in this.exports;
    }

    // One call, and the only place where the proved code is entered. A room goes as its place and length, a number as itself, and an answer
    // that is handed back as the place of its numbers. Each room has to lie inside the memory that rooms were made of, and one that the
    // call may change may overlap no other.
    call(name, ...given) {
        const { takes, tells } = this.calls[name];
        if (given.length !== takes.length) throw new RangeError(`${name} takes ${takes.length}, and was given ${given.length}`);
        const words = [BigInt(this.answer)];
        takes.forEach((kind, k) => {
            const one = given[k];
            if (kind === "number") {
                if (!isNumber(one)) throw new RangeError(`${name}: no number of 64 bits`);
                words.push(one);
                return;
            }
            if (kind === "state") {
                const view = new DataView(this.memory.buffer, this.state, 8 * tells.length);
                if (!tells.every((field) => isNumber(one?.[field]))) throw new RangeError(`${name}: no answer to hand back`);
                tells.forEach((field, j) => view.setBigUint64(8 * j, one[field], true));
                words.push(BigInt(this.state));
                return;
            }
            if (!(one instanceof Room) || !this.isMade(one)) throw new RangeError(`${name}: a room that was not made`);
            if (kind !== "bytes" && given.some((other, j) => j !== k && other instanceof Room && one.overlaps(other))) {
                throw new RangeError(`${name}: an output that overlaps`);
            }
            if (kind === "numbers" && one.length % 8 !== 0) throw new RangeError(`${name}: no room of whole numbers`);
            words.push(BigInt(one.start), BigInt(kind === "numbers" ? one.length / 8 : one.length));
        });
        this.exports[`wakeluri_${name}`](...words);
        const view = new DataView(this.memory.buffer, this.answer, 8 * tells.length);
        const told = { call: name };
        tells.forEach((field, k) => { told[field] = view.getBigUint64(8 * k, true); });
        return told;
    }

    isMade({ start, length }) {
        return Number.isSafeInteger(start) && Number.isSafeInteger(length) && start >= this.bottom && length >= 0 && start + length <= this.free;
    }

    // A room of so many bytes behind all others, on a place that 16 divides.
    room(length) {
        if (length > MOST) throw new NoRoom();
        if (!(Number.isSafeInteger(length) && length >= 0)) throw new RangeError("no length of a room");
        const start = Math.ceil(this.free / 16) * 16;
        this.grow(start + length);
        this.free = start + length;
        return new Room(start, length);
    }

    // The last room with another length, at the same place: what it has stays.
    resized(room, length) {
        if (!this.isMade(room) || room.start + room.length !== this.free) throw new RangeError("not the last room");
        this.free = room.start;
        try {
            return this.room(length);
        } catch (e) {
            this.free = room.start + room.length;
            throw e;
        }
    }

    // The memory has at least so many bytes afterwards.
    grow(size) {
        const missing = size - this.memory.buffer.byteLength;
        if (missing <= 0) return;
        try {
            this.memory.grow(Math.ceil(missing / PAGE));
        } catch {
            throw new NoRoom();
        }
    }

    // What `work` makes is given back when it ends, whatever it does.
    using(work) {
        const mark = this.free;
        try {
            return work();
        } finally {
            this.free = mark;
        }
    }

    // Gives back every room from this one on.
    giveBack(room) {
        if (!this.isMade(room)) throw new RangeError("a room that was not made");
        this.free = room.start;
    }

    // The bytes of a room, until the memory grows.
    bytes(room) {
        if (!this.isMade(room)) throw new RangeError("a room that was not made");
        return new Uint8Array(this.memory.buffer, room.start, room.length);
    }

    // A room with a copy of some bytes.
    lend(bytes) {
        const room = this.room(bytes.length);
        this.bytes(room).set(bytes);
        return room;
    }

    // A table with a row for each record or line: `name` is a call that fills one from some bytes. It is the last room, and made anew
    // while it has too few rows (refusal 8); `most` rows are tried first.
    table(name, text, size = ROW, most = 1024) {
        for (let rows = most; ; rows = Math.max(1024, rows * 8)) {
            const table = this.room(rows * size);
            const told = this.call(name, text, table);
            if (told.refusal !== 8n) {
                const used = table.part(0, Number(told.count) * size);
                this.free = used.start + used.length;
                return { ...told, table: used };
            }
            this.giveBack(table);
        }
    }

    // One row of a table, by the header's names.
    row(table, row) {
        const view = new DataView(this.memory.buffer, table.start, table.length);
        const number = (k) => view.getBigUint64(ROW * row + 8 * k, true);
        return {
            name: [Number(number(0)), Number(number(1))],
            length: number(2),
            position: number(3),
            lineBases: number(4),
            lineWidth: number(5),
            description: [Number(number(6)), Number(number(7))],
        };
    }

    // The halves of a room's numbers, low half first, as JavaScript's numbers: for a walk over many rows. Until the memory grows.
    halves(room) {
        return new Uint32Array(this.memory.buffer, room.start, room.length / 4);
    }

    // For such a walk: a function that tells where the name and the description of a row lie, as four numbers. Their places are in a room, so that
    // the low half of each number says it.
    spans(table) {
        const halves = this.halves(table);
        return (row) => [halves[16 * row], halves[16 * row + 2], halves[16 * row + 12], halves[16 * row + 14]];
    }

    // Asks with no room for an output to hear how many bytes are needed (refusal 14), and again with as many. The answer has `out`, the
    // bytes that were written, as a room: inside `using` alone.
    output(ask) {
        const none = this.room(0);
        const told = ask(none);
        if (told.refusal !== 14n) return { ...told, out: none.part(0, 0) };
        const out = this.room(Number(told.first));
        const again = ask(out);
        return { ...again, out: out.part(0, Number(again.count)) };
    }
}

function isNumber(one) {
    return typeof one === "bigint" && BigInt.asUintN(64, one) === one;
}

// A bound of a region as the calls take it: absent where it is undefined.
export function bounds(first, last) {
    return [first, last].flatMap((bound) => (bound === undefined ? [0n, 0n] : [1n, bound]));
}
