// Sheets of regions and tables of answers, as people write them. What a region means is found here; whether it is good, the proved code says.
// The forms are those of the library (host/wakeluri/src/region.rs) and of the command (host/command/src/sheet.rs).

const LARGEST_BOUND = 2n ** 64n - 1n;

// A number as it is written, with commas between groups of three or none: a BigInt, or null where it is none.
export function whole(text) {
    if (!/^(?:[0-9]+|[0-9]{1,3}(?:,[0-9]{3})+)$/.test(text)) return null;
    return BigInt(text.replace(/,/g, ""));
}

// A bound that was typed: undefined where nothing was, null where it is no number of 64 bits.
export function bound(text) {
    const trimmed = text.trim();
    if (trimmed === "") return undefined;
    const number = whole(trimmed);
    return number === null || number > LARGEST_BOUND ? null : number;
}

// The ways to read a region, whatever records there are: a name in braces, a name, a name with bounds behind its last colon.
export function readings(text) {
    const ways = [{ name: text, bounds: undefined }];
    const braced = /^\{(.*)\}(?::(.*))?$/s.exec(text);
    if (braced) ways.unshift({ name: braced[1], bounds: braced[2] });
    const colon = text.lastIndexOf(":");
    if (colon >= 0) ways.push({ name: text.slice(0, colon), bounds: text.slice(colon + 1) });
    return ways;
}

// Whether a text may be meant as bounds, good or bad. HLA:A is no part of HLA.
export function likeBounds(text) {
    return text === undefined || /^(?:[0-9,\-+.][0-9,\-+.eEkKmMgG]*)?$/.test(text);
}

// What stands behind the colon: { first, last }, each a BigInt or undefined, or { fault }, the key of a text.
export function written(text) {
    if (text === undefined) return {};
    const parts = text.split("-");
    if (text === "" || parts.length > 2) return { fault: "fault.bounds" };
    if (parts.length === 2 && parts[0] === "" && parts[1] === "") return { fault: "fault.bounds" };
    const [first, last] = parts.map((part) => (part === "" ? undefined : whole(part)));
    if (first === null || last === null) return { fault: "fault.bounds" };
    if ([first, last].some((number) => number !== undefined && number > LARGEST_BOUND)) return { fault: "fault.over" };
    return { first, last };
}

// Whether a field behind a region may be meant as a part of it.
function isLikeBounds(field) {
    return /^[0-9,\-+.:]*$/.test(field);
}

// Whether the strand '-' follows a region that has both ends, and the label behind it. Behind another region a sign may be a part of it.
function strandOf(region, behind) {
    const [, sign, rest] = /^([+-])(?:\s+(.*))?$/s.exec(behind) ?? [];
    const hasBothEnds = /:[0-9,]+-[0-9,]+$/.test(region);
    if (!sign || !hasBothEnds || (rest && isLikeBounds(rest.split(/\s+/)[0]))) return { reverse: false, label: behind };
    return { reverse: sign === "-", label: rest ?? "" };
}

// A line of BED, which counts from 0 and does not include its end; or the key of a fault.
function bedLine(line, raw) {
    const trimmed = raw.trim();
    const fields = trimmed.includes("\t") ? trimmed.split("\t").map((field) => field.trim()) : trimmed.split(/\s+/);
    const [name, from, to, label, , sign] = fields;
    const [start, end] = [from, to].map((text) => (/^[0-9]+$/.test(text ?? "") ? BigInt(text) : null));
    if (start === null || end === null) return { line, text: trimmed, fault: "fault.bed" };
    if (start >= end || end > LARGEST_BOUND) return { line, text: trimmed, fault: "fault.bedorder" };
    const named = { name, first: start + 1n, last: end };
    return { line, text: `${name}:${named.first}-${named.last}`, label: label === "" || label === "." ? undefined : label, named, reverse: sign === "-" };
}

// The lines of a sheet that ask for something: { line, text, label, reverse }, or of BED with `named`, { name, first, last }, or with `fault`,
// the key of a text. What may be a region written in another way is never taken for a label.
export function sheetLines(sheet, bed) {
    const asked = [];
    sheet.replace(/^\ufeff/, "").split(/\r\n|\n|\r/).forEach((raw, k) => {
        const trimmed = raw.trim();
        const line = k + 1;
        if (trimmed === "" || trimmed.startsWith("#")) return;
        if (bed) {
            if (!/^(?:track|browser)(?:\s|$)/.test(trimmed)) asked.push(bedLine(line, raw));
            return;
        }
        const [, text, behind] = /^(\S+)\s*(.*)$/s.exec(trimmed);
        const { reverse, label } = strandOf(text, behind);
        const isPart = label !== "" && (isLikeBounds(label.split(/\s+/)[0]) || /[:,-]$/.test(text) || label.startsWith(":"));
        if (isPart) asked.push({ line, text: trimmed, fault: "fault.apart" });
        else asked.push({ line, text, label: label === "" ? undefined : label, reverse });
    });
    return asked;
}

// The cells of a table in CSV, with commas, semicolons or tabs between, as its first line has them; quotes as spreadsheets write them.
// Where a quote is not closed, null.
export function cells(text) {
    const plain = text.replace(/^\ufeff/, "");
    const head = plain.slice(0, plain.search(/[\r\n]|$/)).replace(/"(?:[^"]|"")*"/g, "");
    const mark = ["\t", ";", ","].find((one) => head.includes(one)) ?? ",";
    const rows = [];
    let [row, cell, at] = [[], "", 0];
    const endCell = () => { row.push(cell); cell = ""; };
    const endRow = () => {
        endCell();
        if (row.some((one) => one.trim() !== "")) rows.push(row);
        row = [];
    };
    while (at < plain.length) {
        const letter = plain[at];
        if (letter === '"' && cell.trim() === "") {
            cell = "";
            for (;;) {
                const close = plain.indexOf('"', at + 1);
                if (close < 0) return null;
                cell += plain.slice(at + 1, close);
                at = close + 1;
                if (plain[at] !== '"') break;
                cell += '"';
            }
            continue;
        }
        at++;
        if (letter === mark) endCell();
        else if (letter === "\n") endRow();
        else if (letter !== "\r") cell += letter;
        else if (plain[at] !== "\n") endRow();
    }
    endRow();
    return rows;
}

// A class's answers: who, and what was typed. The first column names the student, the second is the answer; of one column, the line names
// the student.
export function answersOf(rows, headed) {
    return rows.slice(headed ? 1 : 0).map((row, k) => (row.length > 1 ? { who: row[0].trim(), typed: row[1] } : { who: `${k + 1}`, typed: row[0] }));
}

// What was typed as bytes: blanks and line ends are passed over, and a letter that no byte is becomes a '?', which is no base.
export function typedBytes(text) {
    return Uint8Array.from(Array.from(text.replace(/\s+/g, "")), (letter) => {
        const code = letter.codePointAt(0);
        return code < 256 ? code : 63;
    });
}

// A cell of CSV. One that a spreadsheet would take for a formula gets a blank before it.
export function csvCell(text) {
    const safe = /^[=+\-@\t\r]/.test(text) ? ` ${text}` : text;
    return /[",;\t\r\n]/.test(safe) ? `"${safe.replace(/"/g, '""')}"` : safe;
}
