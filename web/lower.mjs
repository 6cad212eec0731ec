// lower.mjs IN OUT: a module with a 64-bit memory as one with a 32-bit memory, which every browser takes.
//
// Binaryen's pass puts `i32.wrap_i64` on the address of each load and store; Debian's version leaves out the SIMD loads and stores that are
// narrower than 16 bytes, so these are wrapped here, in its text. An address that was left out has the wrong type and is no valid module,
// which wasm-as sees as it reads the text.
//
// Why the answers stay the same: a call that is lent rooms of a memory of at most 4 GiB reads and writes inside these rooms and its stack
// alone, so every address it uses is below 2^32, and to wrap it changes nothing. Numbers and lengths stay 64-bit.
import { execFileSync } from "node:child_process";
import { mkdtempSync, readFileSync, rmSync, writeFileSync } from "node:fs";
import { tmpdir } from "node:os";
import { join } from "node:path";

const [from, to] = process.argv.slice(2);
const features = ["--enable-simd", "--enable-bulk-memory", "--enable-sign-ext", "--enable-mutable-globals"];
const room = mkdtempSync(join(tmpdir(), "lower-"));
try {
    const text = join(room, "text.wat");
    execFileSync("wasm-opt", ["--enable-memory64", ...features, "--no-validation", "--memory64-lowering", "-S", from, "-o", text]);
    writeFileSync(text, wrapped(readFileSync(text, "utf8")));
    execFileSync("wasm-as", [...features, text, "-o", to], { stdio: "inherit" });
} finally {
    rmSync(room, { recursive: true });
}

// The text with the address of every narrow SIMD load and store wrapped. The address is the first operand.
function wrapped(text) {
    const put = [];
    const narrow = /\(v128\.(?:load(?:8|16|32|64)_(?:splat|zero|lane)|load(?:8x8|16x4|32x2)_[su]|store(?:8|16|32|64)_lane)\b[^()]*/g;
    for (const found of text.matchAll(narrow)) {
        const start = found.index + found[0].length;
        let [end, depth] = [start, 0];
        do {
            if (text[end] === "(") depth++;
            if (text[end] === ")") depth--;
            end++;
        } while (depth > 0);
        put.push([start, "(i32.wrap_i64 "], [end, ")"]);
    }
    put.sort(([a], [b]) => a - b);
    let [told, at] = ["", 0];
    for (const [place, words] of put) {
        told += text.slice(at, place) + words;
        at = place;
    }
    return told + text.slice(at);
}
