// What is asked of a file that is open: reads, sheets, exercises, primers. Part of the worker. A file in parts may want bytes for any of these
// (held.js): then nothing was done, and it is asked again.
import { FASTQ_ROW, ROW } from "./wakeluri.js";
import { Wanted, allOf } from "./held.js";
import { Gathered, qualitiesAsRows } from "./fastq.js";
import { shown } from "./places.js";
import { likeBounds, readings, sheetLines, typedBytes, written } from "./regions.js";

// What is open: the module's calls, the file and its index, its own rows, by which records are listed, and the rows that reads go by: the same, or
// those of an accepted index. Rows are { names, table, count }, and of FASTQ `qualities` too.
export const now = {};
export const NOT_OPEN = { notOpen: true };

const PIECE = 1 << 20; // bases that a primer is searched in at a time
const SHEET = 200; // regions that one call takes
export const utf8 = new TextEncoder();
const latin1 = new TextDecoder("latin1");

// The bytes of a span of some rows' names.
export function span({ names }, [start, length]) {
    return now.proved.bytes(names.part(start, length));
}
export function rowOf({ table }, row) {
    return now.proved.row(table, row);
}
export const nameOf = (rows, row) => span(rows, rowOf(rows, row).name);
const lengthOf = (rows, row) => rowOf(rows, row).length;
const textOf = (room) => latin1.decode(now.proved.bytes(room));

// A refusal as it goes to the page.
export function refused({ call, refusal, first, second }, more) {
    return { refused: { call, refusal, first, second }, ...more };
}

// The bases of a region of a row, as a room: inside `using` alone. Exactly those that are asked for, or a refusal.
function exact(row, first, last) {
    return now.file.exact(now.kept, row, first, last);
}
function reversed(bases) {
    return now.proved.output((out) => now.proved.call("reverse_complement", bases, out));
}

// The strands of a region that are wanted, each as a room; or the refusal.
function strands({ row, first, last, strand }) {
    const read = exact(row, first, last);
    if (read.refusal !== 0n) return read;
    const found = [];
    if (strand !== "other") found.push({ other: false, bases: read.out });
    if (strand !== "as it stands") {
        const turned = reversed(read.out);
        if (turned.refusal !== 0n) return turned;
        found.push({ other: true, bases: turned.out });
    }
    return { refusal: 0n, found };
}

// The qualities of a region of FASTQ, in the order of the bases that are shown, or of the first of them; or the refusal.
function qualitiesOf({ row, first, last, strand }) {
    const read = now.file.exact(qualitiesAsRows(now.proved, now.kept, row), 0, first, last);
    if (read.refusal !== 0n || strand !== "other") return read;
    now.proved.bytes(read.out).reverse();
    return read;
}

// What a name in a sheet or an exercise means: a row, or the refusal.
function found(name) {
    const { proved, kept } = now;
    return proved.using(() => proved.call("find", kept.names, kept.table, BigInt(kept.count), proved.lend(utf8.encode(name))));
}

// The first row of each of some names, as a function, by one walk over the table: it saves the proved look-up's own walk for each. As with `Names` of
// the Rust library a row is given once the proved look-up has found the name in it, asked about that row alone.
function firstRows(texts) {
    const { proved, kept } = now;
    const keyOf = (text) => latin1.decode(utf8.encode(text));
    // a glance at its bytes tells of most names that they are not wanted
    const glance = (bytes, start, end) => {
        let sum = 0;
        for (let at = start; at < end; at++) sum = (Math.imul(sum, 31) + bytes[at]) | 0;
        return sum;
    };
    const glances = new Set(texts.map((text) => { const bytes = utf8.encode(text); return glance(bytes, 0, bytes.length); }));
    const wanted = new Set(texts.map(keyOf));
    const rows = new Map();
    const [names, spans] = [proved.bytes(kept.names), proved.spans(kept.table)];
    for (let row = 0; row < kept.count; row++) {
        const [start, length] = spans(row);
        if (!glances.has(glance(names, start, start + length))) continue;
        const key = latin1.decode(names.subarray(start, start + length));
        if (wanted.has(key) && !rows.has(key)) rows.set(key, row);
    }
    return (text) => {
        const row = rows.get(keyOf(text));
        if (row === undefined) return undefined;
        const told = proved.using(() => proved.call("find", kept.names, kept.table.part(ROW * row, ROW), 1n, proved.lend(utf8.encode(text))));
        if (told.refusal !== 0n) throw new Error("two look-ups of a name differ");
        return row;
    };
}

// That a name is not there, as the proved look-up says it.
function notFound(name) {
    const told = found(name);
    if (told.refusal === 0n) throw new Error("two look-ups of a name differ");
    return { refused: told };
}

// What stands behind a region and may be a name.
const secondOf = ({ label }) => label?.split(/\s+/)[0];

// The names that a line of a sheet may mean.
function namesIn(asked) {
    if (asked.fault) return [];
    if (asked.named) return [asked.named.name];
    return [asked.text, secondOf(asked) ?? ""].flatMap(readings).map(({ name }) => name);
}

// A line of a sheet as a row and bounds, or what is wrong with it.
function meant(asked, rowBy) {
    if (asked.fault) return { fault: asked.fault };
    if (asked.named) {
        const row = rowBy(asked.named.name);
        return row === undefined ? notFound(asked.named.name) : { row, first: asked.named.first, last: asked.named.last };
    }
    const ways = readings(asked.text).map((way) => ({ ...way, row: rowBy(way.name) }));
    const known = ways.filter(({ row }) => row !== undefined);
    const sensible = known.filter((way) => likeBounds(way.bounds));
    if (known.length === 0) return notFound(ways[0].name);
    if (sensible.length === 0) return { fault: "fault.bounds" };
    if (new Set(sensible.map((way) => `${way.row} ${way.bounds}`)).size > 1) return { fault: "fault.ways" };
    const second = secondOf(asked);
    if (second && readings(second).some((way) => likeBounds(way.bounds) && rowBy(way.name) !== undefined)) return { fault: "fault.two" };
    const { fault, first, last } = written(sensible[0].bounds);
    return fault ? { fault } : { row: sensible[0].row, first, last };
}

// A FASTA record as the proved writer writes it, or its refusal: bytes that outlive `using`.
function fastaOf(name, description, bases, width) {
    const { proved } = now;
    const [lentName, lentText] = [proved.lend(name), proved.lend(description ?? [])];
    const has = description === undefined ? 0n : 1n;
    const told = proved.output((out) => proved.call("write_record", lentName, has, lentText, bases, width, out));
    return told.refusal === 0n ? { bytes: proved.bytes(told.out).slice() } : refused(told);
}

// A FASTQ record as bytes. There is no proved writer for it: the proved code has to read from it what was meant, or there is none.
function fastqOf({ name, description, bases }, qualities) {
    const { proved } = now;
    const text = new Gathered();
    for (const bytes of [[64], name, ...(description ? [[32], description] : []), [10], proved.bytes(bases), utf8.encode("\n+\n"), qualities, [10]]) text.add(bytes);
    const lent = proved.lend(text.bytes);
    const { table, ...told } = proved.table("fastq_index", lent, FASTQ_ROW, 1);
    if (told.refusal !== 0n || told.count !== 1n) return undefined;
    const read = [0n, 1n].map((part) => proved.output((out) => proved.call("fastq_read", lent, table, 1n, 0n, 0n, 0n, 0n, 0n, part, out)).out);
    const [start, length] = [0, 2].map((half) => proved.halves(table)[half]);
    const isSame = (some, others) => some.length === others.length && some.every((byte, k) => byte === others[k]);
    const isMeant = isSame(proved.bytes(lent.part(start, length)), name) && isSame(proved.bytes(read[0]), proved.bytes(bases)) && isSame(proved.bytes(read[1]), qualities);
    return isMeant ? text.bytes.slice() : undefined;
}

// The records that are written of a region, one for each strand: with a name, and a description where there is one.
function recordsOf({ row, first, last }, found) {
    const { own, kept } = now;
    const whole = first === undefined && last === undefined;
    const region = whole ? "" : `:${first ?? 1n}-${last ?? lengthOf(kept, row)}`;
    const name = new Uint8Array([...nameOf(own, row), ...utf8.encode(region)]);
    const said = span(own, rowOf(own, row).description).slice();
    return found.map(({ other, bases }) => ({ name, bases, description: other ? utf8.encode("reverse complement") : whole && said.length > 0 ? said : undefined }));
}

// Lists with as many as one call takes.
function bySheets(regions) {
    return Array.from({ length: Math.ceil(regions.length / SHEET) }, (_, k) => regions.slice(SHEET * k, SHEET * (k + 1)));
}

// Marks what is wrong with each of some regions by the call for whole sheets: it tells the first refused one, which is left out of the next.
function markRefused(regions) {
    for (let left = regions; left.length > 0;) {
        const told = now.proved.using(() => now.file.sheet(now.kept, left));
        if (told.refusal === 0n) return;
        const place = Number(told.next);
        if (place >= left.length) throw new Error("a sheet that is refused as a whole");
        left[place].refused = told;
        left = left.filter((_, k) => k !== place);
    }
}

// The keys of good regions, each on its strand, and as FASTA.
function keysOf(regions, width) {
    const [keys, parts] = [[], []];
    const failed = now.proved.using(() => {
        const told = now.file.sheet(now.kept, regions);
        if (told.refusal !== 0n) return refused(told);
        for (const [k, { line, text, label, row, reverse }] of regions.entries()) {
            const turned = reverse ? reversed(told.keys[k]) : { refusal: 0n, out: told.keys[k] };
            if (turned.refusal !== 0n) return refused(turned, { line, text });
            const said = [reverse ? "reverse complement" : undefined, label].filter((one) => one !== undefined).join(" ");
            const record = fastaOf(utf8.encode(text), said === "" ? undefined : utf8.encode(said), turned.out, BigInt(width));
            keys.push({ line, text, label, reverse, name: shown(nameOf(now.kept, row)), bases: textOf(turned.out) });
            if (record.refused) parts.unwritten = true;
            else parts.push(record.bytes);
        }
        return undefined;
    });
    return failed ?? { keys, parts: parts.unwritten ? undefined : [...parts] };
}

// What the proved code says of one place of a key alone, as a mark: a function of the two bytes, of which the second may be missing. Each pair is asked once.
function marker(edition) {
    const { proved } = now;
    const known = new Map();
    return (key, typed) => {
        const pair = 1000 * key + (typed ?? 999);
        if (!known.has(pair)) {
            const one = proved.using(() => proved.call("score_typed", proved.lend([key]), proved.lend(typed === undefined ? [] : [typed]), edition));
            known.set(pair, one.right === 1n ? "|" : one.wrong === 1n ? "x" : "-");
        }
        return known.get(pair);
    };
}

// One answer against the key of an exercise: the counts, and a mark at each place of the key.
function scored(exercise, mark, typed, most) {
    const { proved, file, kept } = now;
    return proved.using(() => {
        const lent = proved.lend(typed);
        const told = file.score(kept, exercise, lent);
        if (told.refusal !== 0n) return refused(told);
        const { right, wrong, missing, surplus, score, key } = told;
        const places = Math.min(most, key.length);
        const bases = proved.bytes(key.part(0, places)).slice();
        let marks = Array.from(bases, (base, k) => mark(base, typed[k])).join("");
        if (places === key.length) {
            const count = (one) => BigInt(marks.split(one).length - 1);
            if (count("|") !== right || count("x") !== wrong || count("-") !== missing) throw new Error("the marks are not the counts");
            marks += "+".repeat(Math.min(Number(surplus), most));
        }
        return { right, wrong, missing, surplus, score, marks, typed: letters(typed.subarray(0, marks.length)), key: letters(bases), whole: places === key.length };
    });
}

// Bytes as one letter each, so that places stay under each other.
function letters(bytes) {
    return Array.from(bytes, (b) => (b > 0x20 && b < 0x7f ? String.fromCharCode(b) : "?")).join("");
}

// What an exercise says, as it goes to the page; or the refusal.
function exerciseIn(exercise) {
    const said = now.proved.call("read_exercise", exercise);
    if (said.refusal !== 0n) return refused(said);
    const name = exercise.part(Number(said.name_start), Number(said.name_length));
    return { exercise: { name: shown(now.proved.bytes(name)), start: said.start, end: said.end, edition: said.edition } };
}

export const READS = {
    // Exactly the bases that are asked for, of a row; a bound that is absent is undefined. The first so many are shown.
    read({ row, first, last, strand, most }) {
        const { proved } = now;
        if (!now.kept) return NOT_OPEN;
        return proved.using(() => {
            const asked = { row, first, last, strand };
            // what both want is wanted at once
            const [told, qualities] = allOf([() => strands(asked), () => (now.file.fastq ? qualitiesOf(asked) : undefined)]);
            if (told.refusal !== 0n) return refused(told);
            const text = (bases) => textOf(bases.part(0, Math.min(most, bases.length)));
            const count = told.found[0].bases.length;
            const answer = {
                count,
                strands: told.found.map(({ other, bases }) => ({ other, text: text(bases) })),
                name: shown(nameOf(now.kept, row)),
                first: first ?? 1n,
                last: last ?? lengthOf(now.kept, row),
            };
            if (!qualities) return answer;
            return qualities.refusal === 0n ? { ...answer, qualities: shown(proved.bytes(qualities.out.part(0, Math.min(most, count)))) } : refused(qualities);
        });
    },

    // The same as FASTA, written by the proved writer.
    fasta({ width, ...asked }) {
        const { proved, kept } = now;
        if (!kept) return NOT_OPEN;
        return proved.using(() => {
            const told = strands(asked);
            if (told.refusal !== 0n) return refused(told);
            const records = recordsOf(asked, told.found).map(({ name, description, bases }) => fastaOf(name, description, bases, BigInt(width)));
            return records.find((record) => record.refused) ?? { parts: records.map(({ bytes }) => bytes) };
        });
    },

    // The same as FASTQ, with the qualities.
    fastq(asked) {
        const { proved, kept } = now;
        if (!kept) return NOT_OPEN;
        return proved.using(() => {
            const [told, read] = allOf([() => strands(asked), () => qualitiesOf(asked)]);
            if (told.refusal !== 0n) return refused(told);
            if (read.refusal !== 0n) return refused(read);
            const qualities = proved.bytes(read.out).slice();
            // they are in the order of the first strand
            const records = recordsOf(asked, told.found).map((record, k) => fastqOf(record, k === 0 ? qualities : qualities.slice().reverse()));
            return records.includes(undefined) ? { fault: "fault.fastq" } : { parts: records };
        });
    },

    // A sheet: all keys, or all faults and no key.
    sheet({ text, bed, width }) {
        if (!now.kept) return NOT_OPEN;
        const asked = sheetLines(text, bed);
        const rowBy = firstRows(asked.flatMap(namesIn));
        const regions = asked.map((line) => ({ ...line, ...meant(line, rowBy) }));
        const good = bySheets(regions.filter(({ row }) => row !== undefined));
        good.forEach(markRefused);
        const faults = regions.filter((region) => region.fault || region.refused);
        const told = ({ line, text: said, fault, refused: why }) => ({ line, text: said, fault, ...(why ? refused(why) : {}) });
        if (faults.length > 0) return { faults: faults.map(told), regions: regions.length };
        const answers = good.map((some) => keysOf(some, width));
        const failed = answers.filter((answer) => answer.refused);
        if (failed.length > 0) return { faults: failed, regions: regions.length };
        const parts = answers.map((answer) => answer.parts);
        return { keys: answers.flatMap(({ keys }) => keys), parts: parts.includes(undefined) ? undefined : parts.flat() };
    },

    // The bytes of an exercise of a row. Its region is read first: an exercise without a key helps nobody.
    makeExercise({ row, first, last, edition }) {
        const { proved, kept } = now;
        if (!kept) return NOT_OPEN;
        return proved.using(() => {
            const read = exact(row, first, last);
            if (read.refusal !== 0n) return refused(read);
            const name = proved.lend(nameOf(kept, row).slice());
            // a name that two records have leads to the first: then this exercise would ask for another's bases
            const leads = proved.call("find", kept.names, kept.table, BigInt(kept.count), name);
            if (leads.refusal !== 0n) return refused(leads);
            if (Number(leads.count) !== row) return { fault: "fault.twin" };
            const told = proved.output((out) => proved.call("write_exercise", name, first ?? 1n, last ?? lengthOf(kept, row), BigInt(edition), out));
            return told.refusal === 0n ? { bytes: proved.bytes(told.out).slice(), name: shown(nameOf(kept, row)) } : refused(told);
        });
    },

    // What an exercise says, and whether it has a key in the file that is open: an empty answer is scored.
    readExercise({ bytes }) {
        const { proved, file, kept } = now;
        return proved.using(() => {
            const lent = proved.lend(new Uint8Array(bytes));
            const said = exerciseIn(lent);
            if (said.refused || !kept) return { ...said, hasKey: false };
            const told = file.score(kept, lent, proved.room(0));
            return told.refusal === 0n ? { ...said, hasKey: true } : refused(told, said);
        });
    },

    // Answers against the key of an exercise: of each the counts, the score in tenths of a percent, and its marks.
    score({ bytes, answers, most }) {
        const { proved } = now;
        if (!now.kept) return NOT_OPEN;
        return proved.using(() => {
            const lent = proved.lend(new Uint8Array(bytes));
            const said = exerciseIn(lent);
            if (said.refused) return said;
            const mark = marker(said.exercise.edition);
            const scores = answers.map(({ who, typed }) => ({ who, ...scored(lent, mark, typedBytes(typed), most) }));
            const failed = scores.find((score) => score.refused);
            return failed ? { ...failed, ...said } : { ...said, key: scores[0].key, whole: scores[0].whole, scores };
        });
    },

    // Where a primer binds: some places, and where to go on. The letters of the primer are judged first.
    primer({ letters: typed, only, at }) {
        const { proved, kept } = now;
        if (!kept) return NOT_OPEN;
        return proved.using(() => {
            const primer = proved.lend(typedBytes(typed));
            const judged = proved.call("degeneracy", primer);
            if (judged.refusal !== 0n) return refused(judged);
            const other = reversed(primer);
            if (other.refusal !== 0n) return refused(other);
            const until = performance.now() + 100;
            const places = [];
            let { row, base } = at ?? { row: only ?? 0, base: 1n };
            const end = only === undefined ? kept.count : only + 1;
            let done = 0;
            while (row < end && performance.now() < until && places.length < 500) {
                const length = lengthOf(kept, row);
                const last = base + BigInt(PIECE) - 1n < length ? base + BigInt(PIECE) - 1n : length;
                try {
                    if (length > 0n) places.push(...proved.using(() => bindings([primer, other.out], row, base, last)));
                } catch (e) {
                    // what was found is told first
                    if (!(e instanceof Wanted) || done === 0) throw e;
                    break;
                }
                done++;
                if (last < length) {
                    // so early that a match across two pieces lies inside the second, and in no two
                    base = last + 2n - BigInt(primer.length);
                } else {
                    row++;
                    base = 1n;
                }
            }
            return { sequences: judged.count, places, next: row < end ? { row, base } : undefined, searched: row, records: end };
        });
    },
};

// The places of a primer, as it stands and turned, in some bases of a row: in the order of places.
function bindings([primer, other], row, first, last) {
    const { proved } = now;
    const text = exact(row, first, last);
    if (text.refusal !== 0n) throw new Error("the region of a record was refused");
    const places = [];
    [primer, other].forEach((wanted, turned) => {
        for (let from = 0n; ;) {
            const told = proved.call("find_primer", wanted, text.out, from);
            if (told.refusal !== 0n || told.count === 0n) break;
            const there = text.out.part(Number(told.next), wanted.length);
            const bases = proved.using(() => textOf(turned ? reversed(there).out : there));
            places.push({ row, name: shown(nameOf(now.kept, row)), first: first + told.next, last: first + told.next + BigInt(wanted.length) - 1n, other: turned === 1, bases });
            from = told.next + 1n;
        }
    });
    return places.sort((a, b) => (a.first < b.first ? -1 : a.first > b.first ? 1 : Number(a.other) - Number(b.other)));
}
