// parts.mjs FOLDER [TEST]: the page's parts in node: what the glue refuses to lend, with each module; sheets, regions and CSV; places of a file; files
// in parts beside the whole.
import assert from "node:assert/strict";
import { readFileSync } from "node:fs";
import { calls } from "../calls.mjs";
import { about, baseOf, definitionOf, kindOf, lineAt, lineOf, shown } from "../page/places.js";
import { answersOf, bound, cells, csvCell, likeBounds, readings, sheetLines, typedBytes, written } from "../page/regions.js";
import { fastqLines, linesNear, linesOf } from "../page/faults.js";
import { checkedBeside } from "../page/beside.js";
import { lineWriter, qualitiesAsRows, sixColumns } from "../page/fastq.js";
import { FastaParts, FastqParts, Wanted, Whole, WholeFastq } from "../page/held.js";
import { NoRoom, Room, Wakeluri, bounds } from "../page/wakeluri.js";

const bytes = (text) => Buffer.from(text, "latin1");
const header = readFileSync(new URL("../../include/wakeluri.h", import.meta.url), "utf8");
const tests = {
    "the calls of the header"() {
        const found = calls(header);
        assert.deepEqual(found.find.takes, ["bytes", "bytes", "number", "bytes"]);
        assert.deepEqual(found.check.tells, ["refusal", "first", "second", "count", "next"]);
        assert.deepEqual(found.write_record.takes, ["bytes", "number", "bytes", "bytes", "number", "output"]);
        assert.throws(() => calls("struct wakeluri_answer wakeluri_new(float f);"));
        assert.throws(() => calls("struct wakeluri_answer *wakeluri_new(void);"));
    },

    "sheets"() {
        const of = (text, bed) => sheetLines(text, bed);
        assert.deepEqual(of("\ufeff# x\r\n\r\na:1-2  one two\rb\n", false), [{ line: 3, text: "a:1-2", label: "one two", reverse: false }, { line: 4, text: "b", label: undefined, reverse: false }]);
        // as the command's own tests have them (host/command/src/sheet.rs)
        for (const bad of ["s:1 -5", "s:100 - 200", "s:1 000-2 000", "s 5 9", "s :5", "s: 5", "s:5- 9", "s:5 -", "s +", "s:5, 6", "s:5-9 7"]) {
            assert.equal(of(bad, false)[0].fault, "fault.apart", bad);
        }
        for (const good of ["s:1-5 first primer", "s 5prime", "s:5 T7", "s exon-1"]) assert.equal(of(good, false)[0].fault, undefined, good);
        for (const [line, reverse, label] of [["s:5-9 -", true], ["s:5-9 +", false], ["s:1,005-1,009 -\tfirst primer", true, "first primer"], ["s:5-9 - x", true, "x"], ["s:5-9 -x", false, "-x"]]) {
            const [{ reverse: turned, label: said }] = of(line, false);
            assert.deepEqual([turned, said], [reverse, label], line);
        }
        for (const bad of ["s:5-9 - 12", "s:5- -", "s:-9 -", "5-9 -"]) assert.equal(of(bad, false)[0].fault, "fault.apart", bad);
        assert.equal(of("a\t0\t2\t.\t0\t-\n", true)[0].reverse, true);
        assert.equal(of("a\t0\t2\t.\n", true)[0].label, undefined);
        assert.deepEqual(of("a\t0\t2\tx\n", true)[0].named, { name: "a", first: 1n, last: 2n });
        for (const bad of ["a", "a\t1", "a\tx\t2"]) assert.equal(of(bad, true)[0].fault, "fault.bed");
        for (const bad of ["a\t2\t2", "a\t3\t2", `a\t0\t${2n ** 64n}`]) assert.equal(of(bad, true)[0].fault, "fault.bedorder");
        assert.deepEqual(of("track name=x\nbrowser y\n", true), []);
    },

    "regions"() {
        assert.deepEqual(readings("a:b:1-2").map((way) => way.name), ["a:b:1-2", "a:b"]);
        assert.deepEqual(readings("{a:1}:2-3").map((way) => [way.name, way.bounds]), [["a:1", "2-3"], ["{a:1}:2-3", undefined], ["{a:1}", "2-3"]]);
        assert.deepEqual(written("1,000-2,000,000"), { first: 1000n, last: 2000000n });
        assert.deepEqual(written("5"), { first: 5n, last: undefined });
        assert.deepEqual(written("-9"), { first: undefined, last: 9n });
        assert.deepEqual(written("5-"), { first: 5n, last: undefined });
        for (const bad of ["", "-", "1-2-3", "a", "1,00", "+5", "1.5k"]) assert.equal(written(bad).fault, "fault.bounds", bad);
        assert.equal(written("18446744073709551616").fault, "fault.over");
        assert.ok(likeBounds("1.5k") && likeBounds("") && likeBounds(undefined) && !likeBounds("A*01"));
        assert.equal(bound(" 12 "), 12n);
        assert.equal(bound(""), undefined);
        for (const bad of ["-1", "1e3", "0x10", "१", "18446744073709551616"]) assert.equal(bound(bad), null, bad);
    },

    "a class's answers"() {
        assert.deepEqual(cells('a,b\r\n"c,""d",e\n\n'), [["a", "b"], ['c,"d', "e"]]);
        assert.deepEqual(cells("a;b\nc,d;e"), [["a", "b"], ["c,d", "e"]]);
        assert.deepEqual(cells("a\tb\rc\td"), [["a", "b"], ["c", "d"]]);
        assert.deepEqual(cells('a,"b\nc"'), [["a", "b\nc"]]);
        assert.equal(cells('a,"b'), null);
        assert.deepEqual(answersOf(cells("who,answer\nAda,AC\n"), true), [{ who: "Ada", typed: "AC" }]);
        assert.deepEqual(answersOf(cells("AC\nGT\n"), false), [{ who: "1", typed: "AC" }, { who: "2", typed: "GT" }]);
        assert.deepEqual(Array.from(typedBytes("A c\u00a0\n\u00e9\u{1f600}")), [65, 99, 0xe9, 63]);
        assert.equal(csvCell('a"b'), '"a""b"');
        assert.equal(csvCell("=1+1"), " =1+1");
    },

    "places of a file"() {
        const file = bytes(">a\r\nACGT\r\nAC\r\n>b x\nGG\n");
        assert.equal(lineAt(file, 0).number, 1);
        assert.equal(lineAt(file, 4).number, 2);
        assert.equal(lineAt(file, file.length).number, 5);
        assert.deepEqual(lineOf(file, 6), undefined);
        assert.equal(definitionOf(file, 2).number, 4);
        assert.equal(definitionOf(file, 3), undefined);
        assert.deepEqual(baseOf(file, definitionOf(file, 1), 5), { line: { number: 3, start: 10, next: 14 }, offset: 10 });
        assert.equal(baseOf(file, definitionOf(file, 1), 7), undefined);
        assert.deepEqual(about(file, lineAt(file, 6), 6), { line: 2, byte: 6, text: "ACGT", before: 2 });
        const long = bytes(`${"A".repeat(100)}C${"G".repeat(100)}`);
        const cut = about(long, lineAt(long, 100), 100);
        assert.equal(cut.text[cut.before], "C");
        assert.ok(cut.text.startsWith("..") && cut.text.endsWith("..") && cut.text.length === 64);
        assert.equal(shown(bytes("a\tb")), "a→b");
        assert.equal(shown(Buffer.from([0xff, 0x41])), "\\xffA");
        assert.equal(shown(Buffer.from("\u202eabc")), "\\xe2\\x80\\xaeabc");
        assert.equal(kindOf(bytes("\x1f\x8b")), "packed");
        assert.equal(kindOf(bytes(">s")), undefined);
    },
};
for (const name of ["simd128", "plain"]) {
    const module = new WebAssembly.Module(readFileSync(`${process.argv[2]}/wakeluri-${name}.wasm`));
    tests[`lent rooms, ${name}`] = () => {
        const proved = new Wakeluri(module, calls(header));
        assert.deepEqual(WebAssembly.Module.imports(module), []);
        const exported = WebAssembly.Module.exports(module).map((one) => one.name).sort();
        assert.deepEqual(exported, ["__heap_base", "memory", ...Object.keys(calls(header)).map((call) => `wakeluri_${call}`)].sort());
        const bases = proved.lend(bytes("ACGU"));
        const out = proved.room(4);
        assert.equal(proved.call("reverse_complement", bases, out).count, 4n);
        assert.equal(Buffer.from(proved.bytes(out)).toString(), "ACGT");
        const refused = (...given) => assert.throws(() => proved.call(...given), RangeError);
        refused("reverse_complement", bases, bases);
        refused("reverse_complement", bases, bases.part(3, 1));
        refused("reverse_complement", bases);
        refused("reverse_complement", bases, { start: out.start, length: 4 });
        refused("reverse_complement", bases, new Room(0, 4));
        refused("reverse_complement", bases, new Room(proved.answer, 8));
        refused("reverse_complement", bases, new Room(out.start, proved.memory.buffer.byteLength));
        refused("reverse_complement", bases, new Room(out.start, -1));
        refused("reverse_complement", new Room(out.start + 0.5, 1), out);
        refused("read_line", bases, 0);
        refused("read_line", bases, -1n);
        refused("read_line", bases, 2n ** 64n);
        const feed = proved.call("feed_start", 1n);
        refused("feed_piece", undefined, bases, proved.room(0));
        refused("feed_piece", { ...feed, rows: -1n }, bases, proved.room(0));
        refused("feed_piece", { ...feed, rows: 1 }, bases, proved.room(0));
        assert.equal(proved.call("read_line", bases, 2n ** 64n - 1n).found, 0n);
        assert.throws(() => bases.part(2, 3), RangeError);
        assert.throws(() => proved.room(-1), RangeError);
        // what was given back is lent no more
        const gone = proved.using(() => proved.room(100));
        refused("complement", gone, out);
        assert.throws(() => proved.bytes(gone), RangeError);
        // the last room alone grows, and keeps what it has
        const last = proved.lend(bytes("ACGT"));
        assert.throws(() => proved.resized(bases, 8), RangeError);
        const longer = proved.resized(last, 1 << 20);
        assert.equal(Buffer.from(proved.bytes(longer.part(0, 4))).toString(), "ACGT");
        assert.throws(() => proved.resized(longer, 2 ** 33), NoRoom);
        assert.equal(Buffer.from(proved.bytes(proved.resized(longer, 2))).toString(), "AC");
        assert.throws(() => proved.room(2 ** 40), NoRoom);
        // what lies about the rooms stays as it was
        const around = proved.lend(new Uint8Array(64).fill(7));
        proved.call("complement", bases, around.part(16, 4));
        assert.deepEqual(Array.from(proved.bytes(around)), [...Array(16).fill(7), ...bytes("TGCA"), ...Array(44).fill(7)]);
        // a table that is too short is made anew
        const many = proved.lend(bytes(Array.from({ length: 5000 }, (_, k) => `>r${k}\nAC\n`).join("")));
        const rows = proved.table("index_complete", many);
        assert.equal(rows.count, 5000n);
        assert.deepEqual(proved.row(rows.table, 4999).length, 2n);
        const read = proved.output((to) => proved.call("read_exact", many, rows.table, rows.count, 4999n, ...bounds(2n, undefined), to));
        assert.equal(Buffer.from(proved.bytes(read.out)).toString(), "C");
    };
}

// Files in parts: rows, names, lines of refusals, sheets and scores are those of the whole file.
const proved = new Wakeluri(new WebAssembly.Module(readFileSync(`${process.argv[2]}/wakeluri-simd128.wasm`)), calls(header));
const textOf = (room) => Buffer.from(proved.bytes(room)).toString("latin1");
const numbers = ({ refusal, first, second }) => [refusal, first, second];
function rowsOf({ names, table, count, qualities }) {
    return Array.from({ length: count }, (_, k) => {
        const { name, description, ...said } = proved.row(table, k);
        const text = ([start, length]) => textOf(names.part(start, length));
        return { ...said, name: text(name), description: text(description), qualities: qualities && Array.from(proved.halves(qualities.part(8 * k, 8))) };
    });
}
// A window is handed over where it is wanted, as the page does.
function withBytes(parts, file, work) {
    parts.windows = [];
    for (;;) {
        try {
            return work();
        } catch (e) {
            if (!(e instanceof Wanted)) throw e;
            parts.windows = e.parts.map(({ from, to }) => ({ from, bytes: Uint8Array.from(file.subarray(from, to)).buffer }));
        }
    }
}
// Hands a file over, split at some places. Where it is asked for, all that is there is looked at with each part.
function handed(parts, file, cuts, eager) {
    const places = [0, ...cuts, file.length];
    for (let k = 0; k + 1 < places.length; k++) {
        if (eager) parts.wanted = 0;
        if (parts.take(places[k], Uint8Array.from(file.subarray(places[k], places[k + 1]))).refused) break;
    }
    return parts;
}
const everyCut = (length, size) => Array.from({ length: Math.max(0, Math.ceil(length / size) - 1) }, (_, k) => size * (k + 1));
function opened(Held, file, ...more) {
    const whole = new Held(proved, file.length, ...more);
    whole.take(0, file);
    return whole;
}
// What is told of a file: the refusal and its lines, or its rows, and what two sheets say.
function toldOf(held, file, rowsBy, linesBy) {
    return withBytes(held, file, () => {
        const [told, rows] = held.rows(rowsBy);
        if (told.refusal !== 0n) return [numbers(told), rows.count, linesBy(told, rows).map(({ line, byte, text }) => [line, byte, text])];
        const all = Array.from({ length: rows.count }, (_, row) => ({ row, first: undefined, last: undefined }));
        const sheets = [all.slice(0, 200), [...all.slice(0, 1), { row: 0, first: 1n, last: 99n }, { row: 7, first: 0n, last: 1n }]].map((regions) => {
            const { keys, next, ...rest } = held.sheet(rows, regions);
            return keys ? keys.map(textOf) : [...numbers(rest), next];
        });
        return [numbers(told), rowsOf(rows), sheets];
    });
}
const every = (letters, length, front) => (length === 0 ? [front] : letters.flatMap((letter) => every(letters, length - 1, [...front, letter])));

// Every file of up to some letters, and some longer ones, in parts of several sizes.
tests["FASTA in parts"] = () => {
    let tried = 0;
    const compare = (file, size, strict) => proved.using(() => {
        const whole = opened(Whole, file);
        const told = toldOf(whole, file, strict, (refusal) => linesOf(refusal, file));
        const parts = handed(new FastaParts(proved, file.length, strict), file, everyCut(file.length, size));
        assert.deepEqual(toldOf(parts, file, strict, (refusal) => linesNear(refusal, parts)), told, `${JSON.stringify(String(file))} ${size}`);
        tried++;
    });
    for (let length = 0; length <= 4; length++) {
        for (const file of every([62, 65, 10, 13, 32], length, length > 2 ? [62, 97] : [])) {
            for (const strict of [false, true]) for (const size of [1, 2, 100]) compare(Buffer.from(file), size, strict);
        }
    }
    const long = bytes(Array.from({ length: 300 }, (_, k) => `>r${k} about ${k}\n${"ACGTAC\n".repeat(k % 7)}AC\n`).join(""));
    for (const size of [1, 3, 7, 64, 1000, 1 << 20]) for (const strict of [false, true]) compare(long, size, strict);
    const whole = opened(Whole, long);
    const parts = handed(new FastaParts(proved, long.length, false), long, everyCut(long.length, 100));
    scoredAlike(whole, parts, long, "r6");
    console.log(`    ${tried} files`);
};

// An answer has the same score in both.
function scoredAlike(whole, parts, file, name) {
    // its table is the last room until then
    const [, rowsToo] = withBytes(parts, file, () => parts.rows());
    const [, rows] = whole.rows(false);
    const exercise = proved.output((out) => proved.call("write_exercise", proved.lend(bytes(name)), 2n, 9n, 1n, out)).out;
    const typed = proved.lend(bytes("CGTAAAA"));
    const counts = ({ right, wrong, missing, surplus, score, key }) => [right, wrong, missing, surplus, score, textOf(key)];
    assert.deepEqual(withBytes(parts, file, () => counts(parts.score(rowsToo, exercise, typed))), counts(whole.score(rows, exercise, typed)));
}

// Every file of up to four letters behind each of some fronts, split at every place and in parts of every size, also where all that is there is looked
// at with each part: rows, refusal and lines are those of one call on the whole file.
tests["FASTQ in parts"] = () => {
    let [tried, refusals] = [0, new Set()];
    const compare = (file, splits) => proved.using(() => {
        const whole = opened(WholeFastq, file);
        const told = toldOf(whole, file, undefined, (refusal, rows) => fastqLines(refusal, file, undefined, rows));
        refusals.add(Number(told[0][0]));
        for (const [cuts, eager] of splits) {
            const parts = handed(new FastqParts(proved, file.length), file, cuts, eager);
            assert.deepEqual(toldOf(parts, file, undefined, (refusal) => linesNear(refusal, parts)), told, `${JSON.stringify(String(file))} split at ${cuts}${eager ? ", eager" : ""}`);
            tried++;
        }
    });
    const allSplits = (file) => [
        ...Array.from({ length: Math.max(0, file.length - 1) }, (_, k) => [[k + 1], false]),
        ...[1, 3].flatMap((size) => [[everyCut(file.length, size), false], [everyCut(file.length, size), true]]),
    ];
    // '@', '+', a letter, LF and CR: behind nothing, a definition, a line of bases, a '+' line of one line and of two, and a good record
    for (const front of ["@s\n", "@s\nA\n", "@s\nA\n+\n", "@s\nAC\nG\n+x\n", "@s\r\nA\r\n+\r\n", "@s d\nA\n+\nI\n", "@s\nA\n+\n@\n@t\nA\n+"]) {
        for (let length = 0; length <= 4; length++) {
            for (const letters of every([64, 65, 43, 10, 13], length, [])) {
                const file = Buffer.from([...bytes(front), ...letters]);
                compare(file, length < 4 ? allSplits(file) : [[everyCut(file.length, 1), true]]);
            }
        }
    }
    // a long file, whose records have a fault in every place: each byte of it in turn is left out, or another
    const record = (k) => `@r${k} about ${k}\r\n${"ACGTAC\r\n".repeat(k % 3)}AC\r\n+r${k}\r\n${"+@IIII\r\n".repeat(k % 3)}@+\r\n`;
    const long = bytes(Array.from({ length: 4 }, (_, k) => record(k)).join("") + "@last\nACGTACGTAC\n+\n@+~~~~~~~~");
    for (const size of [1, 2, 3, 7, 20, 64, 1000]) compare(long, [[everyCut(long.length, size), false], [everyCut(long.length, size), true]]);
    for (let k = 0; k < long.length; k++) {
        for (const put of ["", "\n", "A", "+", "\r", "\n\n"]) {
            const file = Buffer.concat([long.subarray(0, k), bytes(put), long.subarray(k + 1)]);
            compare(file, [[everyCut(file.length, 5), true], [everyCut(file.length, 11), false], [[k], true], [[k + 1], false]]);
        }
    }
    assert.deepEqual([...refusals].sort((a, b) => a - b), [0, 2, 3, 4, 5, 6, 7, 38, 39]);
    const parts = handed(new FastqParts(proved, long.length), long, everyCut(long.length, 10));
    scoredAlike(opened(WholeFastq, long), parts, long, "last");
    // a file over the limit is refused before it is read
    assert.deepEqual(numbers(new FastqParts(proved, 2 ** 40 + 1).rows()[0]), [1n, 0n, 0n]);
    assert.equal(new FastqParts(proved, 2 ** 40).rows()[0].refusal, 0n);
    console.log(`    ${tried} files`);
};

// Bases, qualities and index lines by rows of FASTA's kind are those of FASTQ's own calls.
tests["rows of FASTQ"] = () => proved.using(() => {
    const file = bytes("@r1 first one \nACGTN\n+r1\n!\"#$%\n@r2\tx\r\nGGCC\r\nAA\r\n+\r\n@@II\r\n~~\r\n");
    const whole = opened(WholeFastq, file);
    const [, rows] = whole.rows();
    const seven = proved.table("fastq_index", whole.room, 56);
    assert.deepEqual(rowsOf(rows).map(({ name, description }) => [name, description]), [["r1", "first one"], ["r2", "x"]]);
    const write = lineWriter(proved, rows);
    let index = "";
    for (let row = 0; row < 2; row++) {
        const line = proved.output((out) => proved.call("fastq_write_line", whole.room, seven.table, 2n, BigInt(row), out));
        assert.equal(textOf(proved.output((out) => write(row, out)).out), textOf(line.out));
        index += textOf(line.out);
        for (const [first, last] of [[undefined, undefined], [2n, 4n], [1n, 9n], [0n, 1n], [undefined, 5n]]) {
            for (const qualities of [0n, 1n]) {
                const own = proved.output((out) => proved.call("fastq_read", whole.room, seven.table, 2n, BigInt(row), ...bounds(first, last), qualities, out));
                const lent = qualities ? whole.exact(qualitiesAsRows(proved, rows, row), 0, first, last) : whole.exact(rows, row, first, last);
                assert.deepEqual([...numbers(lent), textOf(lent.out)], [...numbers(own), textOf(own.out)]);
            }
        }
    }
    const [told, given] = sixColumns(proved, proved.lend(bytes(index)));
    assert.equal(told.refusal, 0n);
    assert.deepEqual(rowsOf(given), rowsOf(rows).map((row) => ({ ...row, description: "" })));
    assert.deepEqual(numbers(sixColumns(proved, proved.lend(bytes("r1\t5\t10\t5\t6\n")))[0]), [10n, 1n, 6n]);
});
// An index is judged by the rows of its file as the proved checker judges it by both: small files, and every index line of small numbers; lines that are missing,
// too many, of another name, or no good lines.
tests["an index beside the rows"] = () => {
    let [tried, told] = [0, new Map()];
    const judge = (file, Held, call, read, wanted) => proved.using(() => {
        const whole = opened(Held, bytes(file));
        const [, rows] = whole.rows(false);
        for (const text of wanted) {
            proved.using(() => {
                const index = proved.lend(bytes(text));
                const own = numbers(proved.call(call, whole.room, index));
                // all lines at once, and each by itself
                for (const size of [undefined, 1]) {
                    const beside = checkedBeside(proved, rows, index, read, size);
                    assert.deepEqual(numbers(beside), own, `${JSON.stringify(file)} ${JSON.stringify(text)}`);
                    assert.equal(beside.call, call);
                }
                told.set(own[0], (told.get(own[0]) ?? 0) + 1);
                tried++;
            });
        }
    });
    const upTo = (from, to) => Array.from({ length: to - from + 1 }, (_, k) => from + k);
    const fives = (position) => [0, 1, 4, 5, 6, 7].flatMap((length) => [position - 1, position, position + 1].flatMap((at) => upTo(1, 8).flatMap((b) => upTo(1, 9).map((w) => `s\t${length}\t${at}\t${b}\t${w}`))));
    const ofFasta = (index) => {
        const { table, ...read } = proved.table("read_index", index);
        return [read, { names: index, table, count: Number(read.count) }];
    };
    const fasta = [">s\nACGT\nAC\n", ">s\nACGTAC", ">s\n\nACGT\n", ">s x\r\nACG\r\nACG\r\n", ">s\n", ">s\nA\n\n\nC\n", ">s\nACGTAC\nA\n"];
    for (const file of fasta) judge(file, Whole, "check", ofFasta, fives(Math.max(file.search(/[ACGT]/), 3)).map((line) => `${line}\n`));
    const two = ">a\nACGT\n>b\nGG\nG\n";
    const lines = ["a\t4\t3\t4\t5\n", "b\t3\t11\t2\t3\n", "a\t4\t3\t9\t9\n", "b\t3\t11\t2\t4\n", "b\t3\t11\t3\t3\n", "c\t4\t3\t4\t5\n", "\n", "a\t4\n", "b\tx\n", "b\t3\t11\t0\t3\n", "a\t+4\t03\t4\t5\r\n", "b\t3\t11\t2\t18446744073709551615\n", ""];
    const threes = lines.flatMap((one) => lines.flatMap((other) => lines.map((third) => one + other + third)));
    judge(two, Whole, "check", ofFasta, [...threes, ...lines.map((line) => line.trimEnd()), "a\t4\t3\t4\t5\nb\t3\t11\t2\t3"]);
    judge("", Whole, "check", ofFasta, lines);
    const six = (index) => sixColumns(proved, index);
    judge("@s\nACGT\nAC\n+\n@@II\n~~\n", WholeFastq, "fastq_check", six, fives(3).flatMap((line) => [12, 13, 14].map((place) => `${line}\t${place}\n`)));
    judge("@s\nACGT\n+\nIIII", WholeFastq, "fastq_check", six, fives(3).flatMap((line) => [9, 10].map((place) => `${line}\t${place}\n`)));
    judge("@a\nA\n+\nI\n@b\nA\n+\nI\n", WholeFastq, "fastq_check", six, threes.map((text) => text.replace(/\n/g, "\t7\n")));
    assert.deepEqual([...told.keys()].sort((a, b) => Number(a - b)), [0n, 9n, 10n, 11n, 12n, 19n, 20n, 21n, 22n, 23n]);
    console.log(`    ${tried} pairs, ${told.get(0n)} accepted`);
};
let failed = 0;
for (const [name, test] of Object.entries(tests)) {
    if (process.argv[3] && process.argv[3] !== name) continue;
    try {
        test();
        console.log(`ok  ${name}`);
    } catch (e) {
        failed++;
        console.log(`FAILED ${name}: ${e.message}`);
    }
}
console.log(`parts: ${Object.keys(tests).length - failed} passed, ${failed} failed`);
process.exit(failed === 0 ? 0 : 1);
