// Texts, elements, tables, and what leaves the page: files that are saved, and what is copied. Part of the page's one script (page.js).

const byId = (id) => document.getElementById(id);
const { texts, words, calls } = JSON.parse(byId("data").textContent);
const SHOWN = 100000; // bases that are shown
const LISTED = 200; // records that are listed
const MARKED = 5000; // places of a key that are marked one by one
const PLACED = 1000; // places of a primer that are shown
const PART = 8 << 20; // bytes of a file that are read at a time
const MOVING = 1000; // milliseconds of a check until its bar moves
// bytes of a file that are held, unless it is said otherwise: an eighth of the device's memory where the browser tells it
const HELD = Math.min(1 << 30, (navigator.deviceMemory ?? 4) * (128 << 20));
const WIDTH = 60; // bases to a line of FASTA

const numbers = new Intl.NumberFormat(texts.lang);
const plural = new Intl.PluralRules(texts.lang);
function t(key, values) {
    return texts[key].replace(/\{(\w+)\}/g, (whole, name) => (values && name in values ? number(values[name]) : whole));
}
function number(value) {
    return typeof value === "number" || typeof value === "bigint" ? numbers.format(value) : value;
}
// A text that goes by how many there are. A language may have more forms than English (few, many ..); one that it lacks is `other`.
function many(key, count, values) {
    const form = `${key}.${plural.select(Number(count))}`;
    return t(form in texts ? form : `${key}.other`, { count, ...values });
}
// Tenths of a percent, as a percentage.
function percent(tenths) {
    return new Intl.NumberFormat(texts.lang, { minimumFractionDigits: 1 }).format(Number(tenths) / 10);
}

// Shows a text. A place that says the same again is emptied first, so that a screen reader tells it once more.
function show(place, text, kind) {
    place.textContent = "";
    place.className = kind ?? place.dataset.kind ?? "";
    place.textContent = text;
}
for (const id of ["detail", "matches"]) byId(id).dataset.kind = "quiet";

// An element with a text and some attributes.
function made(name, text, attributes) {
    const element = document.createElement(name);
    if (text !== undefined) element.textContent = text;
    for (const [key, value] of Object.entries(attributes ?? {})) element.setAttribute(key, value);
    return element;
}
// A table: the heads of its columns, and rows of texts or elements.
function tabled(caption, heads, rows) {
    const table = made("table");
    if (caption) table.append(made("caption", caption));
    const head = made("tr");
    head.append(...heads.map((text) => made("th", text, { scope: "col" })));
    const top = made("thead");
    top.append(head);
    const body = made("tbody");
    for (const row of rows) {
        const line = made("tr");
        row.forEach((cell, k) => {
            const place = made(k === 0 ? "th" : "td", undefined, k === 0 ? { scope: "row" } : {});
            place.append(cell);
            line.append(place);
        });
        body.append(line);
    }
    table.append(top, body);
    const scrolled = made("div", undefined, { class: "scrolled", tabindex: "0", role: "region", "aria-label": caption ?? heads.join(", ") });
    scrolled.append(table);
    return scrolled;
}

// Hands some bytes to the person as a file. Nothing else leaves the page.
function save(name, parts, link) {
    const to = link ?? made("a");
    if (to.href) URL.revokeObjectURL(to.href);
    to.href = URL.createObjectURL(new Blob(parts, { type: "application/octet-stream" }));
    to.download = name;
    if (link) {
        link.textContent = name;
        link.hidden = false;
        link.click();
        return;
    }
    document.body.append(to);
    to.click();
    to.remove();
    setTimeout(() => URL.revokeObjectURL(to.href), 60000);
}
const fileName = (text) => text.replace(/[^\p{L}\p{N}._-]+/gu, "_").slice(0, 80) || "wakeluri";

async function copy(text, told) {
    try {
        await navigator.clipboard.writeText(text);
        show(told, t("copied"), "good");
        return;
    } catch {
        // not allowed, or not there: the older way
    }
    const area = made("textarea", undefined, { "aria-hidden": "true", class: "apart" });
    area.value = text;
    document.body.append(area);
    area.select();
    const done = document.execCommand("copy");
    area.remove();
    show(told, t(done ? "copied" : "not.copied"), done ? "good" : "bad");
}
