#!/usr/bin/env node
// ask.mjs [MODULE] [FAMILIES]: answers questions in the line form, one to a line of standard input, through a WebAssembly module's calls: as
// host/ask does through the library. FAMILIES is what `questions --families` writes (host/questions): which call answers each family, what it
// takes and what is told. WAKELURI_WASM and WAKELURI_FAMILIES name the two where no word does. A question that isn't known is answered `skip`.
import { readFileSync } from "node:fs";
import { createInterface } from "node:readline";
import { calls } from "./calls.mjs";
import { Wakeluri } from "./page/wakeluri.js";

const header = new URL("../include/wakeluri.h", import.meta.url);
const [module, table] = [process.argv[2] ?? process.env.WAKELURI_WASM, process.argv[3] ?? process.env.WAKELURI_FAMILIES];
const proved = new Wakeluri(new WebAssembly.Module(readFileSync(module)), calls(readFileSync(header, "utf8")));
const families = new Map(JSON.parse(readFileSync(table, "utf8")).map((one) => [one.family, one]));
const LARGEST = 2n ** 64n - 1n;

class NotKnown extends Error {}
function need(word, form) {
    if (word === undefined || !form.test(word)) throw new NotKnown();
    return word;
}
function number(word) {
    const n = BigInt(need(word, /^[0-9]+$/));
    if (n > LARGEST) throw new NotKnown();
    return n;
}
const raw = (word) => Buffer.from(need(word, /^x([0-9a-fA-F]{2})*$/).slice(1), "hex");
const numbers = (word) => (need(word, /^t/) === "t" ? [] : word.slice(1).split(",").map(number));
const bound = (word) => (word === "-" ? [0n, 0n] : [1n, number(word)]);
// each region is a row and its bounds: five numbers
function regions(word) {
    if (need(word, /^r/) === "r") return [];
    return word.slice(1).split(",").flatMap((one) => {
        const [row, start, end] = one.split(":");
        return [number(row), ...bound(start), ...bound(end)];
    });
}
const lendNumbers = (list) => proved.lend(new Uint8Array(BigUint64Array.from(list).buffer));

// Each kind of argument: what is lent for the next of the question's words, or the next two.
const KINDS = {
    Bytes: (next) => [proved.lend(raw(next()))],
    MaybeBytes: (next) => {
        const word = next();
        return word === "-" ? [0n, proved.lend([])] : [1n, proved.lend(raw(word))];
    },
    Number: (next) => [number(next())],
    Bounds: (next) => [...bound(next()), ...bound(next())],
    Rows: (next) => [lendNumbers(numbers(next())), number(next())],
    Regions: (next) => [lendNumbers(regions(next()))],
    Table: (next) => [lendNumbers(numbers(next()))],
    Output: (next) => [proved.lend(raw(next()))],
};
// What a call may change is told behind its answer.
const LEFT = { Table: (room) => told(room), Output: (room) => hex(room) };
const hex = (room) => "x" + Buffer.from(proved.bytes(room)).toString("hex");
function told(room) {
    const view = new DataView(proved.memory.buffer, room.start, room.length);
    return "t" + Array.from({ length: room.length / 8 }, (_, k) => view.getBigUint64(8 * k, true)).join(",");
}

// Each part of an answer, by the names of its numbers.
const no = (a) => (a.refusal === 0n ? null : `no ${a.refusal} ${a.first} ${a.second}`);
const PARTS = {
    field: (a, _, name) => a[name],
    row: (a, _, ...names) => `t${names.map((name) => a[name]).join(",")}`,
    refused: (a, _, name) => (no(a) ? a[name] : "-"),
    span: (a, bytes, start, length) => hex(bytes.part(Number(a[start]), Number(a[length]))),
};
// What is told of an answer: its numbers behind `ok`, without it, or behind a refusal too.
function tell({ told: shape, found, parts }, answer, lent) {
    const refused = no(answer);
    if (refused && shape !== "always") return [refused];
    const head = refused ?? (shape === "bare" ? null : "ok");
    const named = shape === "found" && answer[found] === 0n ? ["none"] : parts.map(([part, ...names]) => PARTS[part](answer, lent, ...names));
    return head === null ? named : [head, ...named];
}

// A file in pieces: what each step tells, and the table.
function fed(complete, [rows, steps, ...more]) {
    if (!proved.has("feed_start") || more.length > 0) throw new NotKnown();
    const lent = lendNumbers(numbers(rows));
    let feed = proved.call("feed_start", complete);
    const each = need(steps, /^(?:(?:f(?:[0-9a-f]{2})*|e)(?:,|$))+$/).split(",").map((step) => {
        feed = proved.using(() => (step === "e" ? proved.call("feed_end", feed, lent) : proved.call("feed_piece", feed, proved.lend(raw(`x${step.slice(1)}`)), lent)));
        return [feed.refusal, feed.first, feed.second, feed.rows].join(":");
    });
    return [...each, told(lent)].join(" ");
}

function answer(name, words) {
    const family = families.get(name);
    const { entry, with: more, fed: complete } = family?.call ?? {};
    if (complete !== undefined) return fed(BigInt(complete), words);
    if (!entry || !proved.has(entry)) throw new NotKnown();
    const left = [...words];
    const lent = family.takes.map((kind) => KINDS[kind](() => left.shift()));
    if (left.length > 0) throw new NotKnown();
    const answered = proved.call(entry, ...lent.flat(), ...more.map(BigInt));
    const memory = family.takes.flatMap((kind, k) => (LEFT[kind] ? [LEFT[kind](lent[k][0])] : []));
    return [...tell(family, answered, lent[0]?.[0]), ...memory].join(" ");
}

const lines = [];
for await (const line of createInterface({ input: process.stdin, crlfDelay: Infinity })) {
    const question = line.split(" => ")[0];
    if (question === "" || question.startsWith("#")) continue;
    const [family, ...words] = question.split(" ");
    let answered = "skip";
    try {
        answered = proved.using(() => answer(family, words));
    } catch (e) {
        if (!(e instanceof NotKnown)) throw e;
    }
    lines.push(`${question} => ${answered}\n`);
    if (lines.length >= 1000) process.stdout.write(lines.splice(0).join(""));
}
process.stdout.write(lines.join(""));
