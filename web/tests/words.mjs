// words.mjs CASES: what the page says to each refusal of CASES (host/wakeluri/examples/words.rs), held against the Rust library's words.
import { readFileSync } from "node:fs";
import { refusalWords } from "../page/words.js";

const table = JSON.parse(readFileSync(new URL("../words.json", import.meta.url), "utf8"));
let [same, different] = [0, 0];
for (const line of readFileSync(process.argv[2], "utf8").split("\n")) {
    if (line === "") continue;
    const [refusal, words, code] = line.split("\t");
    const [call, ...numbers] = refusal.split(" ");
    const [number, first, second] = numbers.map(BigInt);
    const [ours, oursCode] = refusalWords(table, { call, refusal: number, first, second });
    if (ours === words && oursCode === code) {
        same++;
    } else if (different++ < 10) {
        console.log(`${refusal}\n    Rust: ${words}: ${code}\n    page: ${ours}: ${oursCode}`);
    }
}
console.log(`words: ${same} equal, ${different} different`);
process.exit(different === 0 && same > 1000 ? 0 : 1);
