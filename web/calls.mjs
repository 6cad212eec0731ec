// The calls as include/wakeluri.h declares them: what each takes and what its answer tells. The page and `ask.mjs` go by it, so that
// a new entry point of the header needs no second list here.
//
// calls.mjs HEADER MODULE: fails where the module lacks one of them, or imports anything. Imported: `calls(text)`.
//
//   "find": { takes: ["bytes", "bytes", "number", "bytes"], tells: ["refusal", "first", "second", "count", "next"] }
//
// bytes are lent to be read, an output to be changed, and so are numbers; all are a place and a length. A state is a struct that an earlier
// answer told, handed back. A declaration of another form is an error.
import { readFileSync } from "node:fs";
import { argv } from "node:process";
import { pathToFileURL } from "node:url";

const KINDS = [
    ["bytes", /^const uint8_t \*(\w+), size_t \1_length$/],
    ["output", /^uint8_t \*(\w+), size_t \1_length$/],
    ["numbers", /^uint64_t \*(\w+), size_t \1_length$/],
    ["number", /^uint64_t \w+$/],
    ["state", /^struct wakeluri_\w+ \w+$/],
];

function kinds(name, declared) {
    // a pointer and its length are one parameter
    return declared.split(/, (?!size_t )/).map((parameter) => {
        const kind = KINDS.find(([, form]) => form.test(parameter));
        if (!kind) throw new Error(`${name}: '${parameter}' is of no known form`);
        return kind[0];
    });
}

export function calls(header) {
    const code = header.replace(/\/\*[\s\S]*?\*\//g, "").replace(/,\s+/g, ", ");
    const answers = {};
    for (const [, name, body] of code.matchAll(/struct (wakeluri_\w+) \{([^}]*)\};/g)) {
        answers[name] = Array.from(body.matchAll(/uint64_t ([^;]+);/g), ([, fields]) => fields.split(/,\s*/)).flat();
    }
    const found = {};
    for (const [, answer, name, declared] of code.matchAll(/^struct (wakeluri_\w+) wakeluri_(\w+)\(([^)]*)\);/gm)) {
        found[name] = { takes: kinds(name, declared), tells: answers[answer] };
    }
    // what answers otherwise is no entry point of the proved code
    for (const [, name] of code.matchAll(/\bstruct wakeluri_\w+\s+\*?wakeluri_(\w+)\(/g)) {
        if (!found[name]) throw new Error(`wakeluri_${name}: its declaration is of no known form`);
    }
    return found;
}

if (argv[1] && import.meta.url === pathToFileURL(argv[1]).href) {
    const module = new WebAssembly.Module(readFileSync(argv[3]));
    const has = new Set(WebAssembly.Module.exports(module).map((given) => given.name));
    for (const name of Object.keys(calls(readFileSync(argv[2], "utf8")))) {
        if (!has.has(`wakeluri_${name}`)) throw new Error(`${argv[3]} has no wakeluri_${name}`);
    }
    if (WebAssembly.Module.imports(module).length > 0) throw new Error(`${argv[3]} imports something`);
}
