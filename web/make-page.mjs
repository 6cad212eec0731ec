// make-page.mjs FOLDER [TEXTS]: FOLDER/wakeluri.html of page/, the two WebAssembly modules that FOLDER has, the words of refusals and the
// table of texts: one file, which needs no other. Its policy lets only this script and this style run, and nothing be asked for. Beside it
// offline.js, for where it is served. TEXTS is another table of texts (texts.json): the page in another language, as NAME.html.
import { createHash } from "node:crypto";
import { readFileSync, writeFileSync } from "node:fs";
import { basename } from "node:path";
import { calls } from "./calls.mjs";

const [folder, other] = process.argv.slice(2);
const from = (path) => readFileSync(new URL(path, import.meta.url), "utf8");
const page = (name) => from(`page/${name}`);
// as a classic script: the files one after the other, without imports and exports
function joined(...names) {
    const script = names.map(page).join("\n").replace(/^import .*\n/gm, "").replace(/^export /gm, "");
    // one name for two things would be no error there
    const declared = Array.from(script.matchAll(/^(?:async )?(?:function|class|const|let) (\w+)/gm), ([, name]) => name);
    for (const [k, name] of declared.entries()) if (declared.indexOf(name) !== k) throw new Error(`${names.join(", ")}: ${name} is declared twice`);
    return `"use strict";\n${script}`;
}
const hash = (text) => `'sha256-${createHash("sha256").update(text).digest("base64")}'`;
const module = (name) => readFileSync(`${folder}/wakeluri-${name}.wasm`).toString("base64");
const escaped = (text) => text.replace(/[&<>"]/g, (letter) => `&#${letter.charCodeAt(0)};`);

const texts = JSON.parse(from("texts.json"));
let words = JSON.parse(from("words.json"));
if (other) {
    const translated = JSON.parse(readFileSync(other, "utf8"));
    for (const key of Object.keys(texts)) if (translated[key] === undefined) throw new Error(`${other} has no text for ${key}`);
    words = translated.words ?? words;
    delete translated.words;
    Object.assign(texts, translated);
}
const scripts = {
    WORKER: joined("wakeluri.js", "fastq.js", "held.js", "beside.js", "places.js", "faults.js", "regions.js", "reads.js", "worker.js"),
    PAGE: `(() => {\n${joined("words.js", "regions.js", "show.js", "asking.js", "files.js", "work.js", "page.js")}\n})();\n`,
};
// a text that nothing says is a mistake; some keys are made of a stem, as `kind.${..}`, and those of a count end in a form of the plural
const spoken = Object.values(scripts).join("\n") + page("page.html");
const stems = Array.from(spoken.matchAll(/`([a-z.]+\.)\$\{/g), ([, stem]) => stem);
for (const key of Object.keys(texts)) {
    const said = [key, key.replace(/\.(?:zero|one|two|few|many|other)$/, "")].some((one) => spoken.includes(`"${one}"`) || spoken.includes(`@t:${one}@`));
    if (!said && !stems.some((stem) => key.startsWith(stem))) throw new Error(`nothing says ${key}`);
}
// and so is a key that no text has
for (const [, key] of spoken.matchAll(/\bt\("([^"]+)"/g)) if (texts[key] === undefined) throw new Error(`there is no text ${key}`);
const data = { texts, words, calls: calls(from("../include/wakeluri.h")) };
const parts = {
    STYLE: page("page.css"),
    SIMD: module("simd128"),
    PLAIN: module("plain"),
    DATA: JSON.stringify(data).replace(/</g, "\\u003c"),
    ...scripts,
};
for (const [name, text] of Object.entries(parts)) {
    if (/<\/(script|style)|<!--/i.test(text)) throw new Error(`${name} would end its element`);
}
parts.POLICY = [
    "default-src 'none'",
    `script-src ${hash(parts.PAGE)} 'wasm-unsafe-eval'`,
    `style-src ${hash(parts.STYLE)}`,
    "img-src data:",
    "worker-src blob: 'self'",
    "base-uri 'none'",
    "form-action 'none'",
].join("; ");
const html = page("page.html")
    .replace(/@t:([a-z0-9.]+)@/g, (_, key) => {
        if (texts[key] === undefined) throw new Error(`there is no text ${key}`);
        return escaped(texts[key]);
    })
    .replace(/@([A-Z]+)@/g, (_, name) => parts[name]);
const name = other ? basename(other).replace(/\.json$/, "") : "wakeluri";
writeFileSync(`${folder}/${name}.html`, html);
const version = createHash("sha256").update(html).digest("hex").slice(0, 16);
if (!other) writeFileSync(`${folder}/offline.js`, page("offline.js").replace("@VERSION@", version));
console.log(`${folder}/${name}.html: ${Buffer.byteLength(html)} bytes`);
