// The files that a person chooses or drops, what is told of them, and the list of their records. Part of the page's one script (page.js).

const chosen = {};
let held = {}; // the files that are open
let round = 0;
let row; // the record that is chosen

function enable(open) {
    for (const id of ["choosing", "reading", "sheeting", "making", "searching"]) byId(id).disabled = !open;
}
function clearResults() {
    for (const id of ["count", "made", "matches", "sheet-told", "scored", "primer-told", "copied", "copied-keys", "exercise-made"]) show(byId(id), "");
    for (const id of ["lines", "bases", "keys", "scores", "places", "records"]) byId(id).textContent = "";
    for (const id of ["read-more", "sheet-more", "score-more", "primer-more", "saved", "again"]) byId(id).hidden = true;
    chooseRow(undefined);
}

// Hands a file to the worker, part by part, while the next part is read; false where other files were chosen meanwhile. A file that is refused is
// read no further.
async function hand(mine, which, file, progress) {
    const part = (at) => (at < file.size ? bytesOf(file, at, Math.min(at + PART, file.size)) : undefined);
    let next = part(0);
    for (let at = 0; at < file.size; at += PART) {
        const bytes = await next;
        if (mine !== round) return false;
        next = part(at + PART);
        next?.catch(() => {});
        const told = await ask("take", { round: mine, file: which, at, bytes }, [bytes]);
        progress(Math.min(at + PART, file.size));
        if (told.refused) break;
    }
    return mine === round;
}

// Whether a file is read in parts, and none of it held.
function isInParts(file) {
    return { parts: true, whole: false }[byId("memory").value] ?? file.size > HELD;
}

// Whether a file is FASTQ, by its first byte: each of its records begins with '@', and each of FASTA with '>'.
async function isFastq(file) {
    return file.size > 0 && new Uint8Array(await bytesOf(file, 0, 1))[0] === 0x40;
}

// Hands both files to the worker, and has them judged; undefined where other files were chosen meanwhile.
async function load(mine, inParts) {
    const { fasta, fai } = held;
    const strict = byId("strict").checked;
    const start = performance.now();
    byId("doing").textContent = t("files.progress");
    const fastq = await isFastq(fasta);
    if (mine !== round) return undefined;
    await ask("begin", { round: mine, fasta: fasta.size, index: fai?.size, fastq, inParts, strict });
    // of both files together: an index of millions of reads is long too
    const progress = (bytes) => { byId("progress").value = bytes / (fasta.size + (fai?.size ?? 0)); };
    if (!await hand(mine, "fasta", fasta, progress)) return undefined;
    if (fai && !await hand(mine, "index", fai, (bytes) => progress(fasta.size + bytes))) return undefined;
    byId("doing").textContent = t("files.judging");
    const loading = performance.now() - start;
    // a bar that moves is drawn again and again: it moves only where the check takes long
    const moving = setTimeout(() => byId("progress").removeAttribute("value"), MOVING);
    const told = await askFile("judge", { strict }).finally(() => clearTimeout(moving));
    return mine === round ? { ...told, loading } : undefined;
}

async function open() {
    const mine = ++round;
    enable(false);
    byId("make").disabled = true;
    clearResults();
    show(byId("detail"), "");
    if (!chosen.fasta) return show(byId("verdict"), t(chosen.fai ? "files.choose.too" : "files.choose"));
    held = { ...chosen };
    show(byId("verdict"), t("files.reading", { file: held.fasta.name }));
    byId("progress").value = 0;
    byId("working").hidden = false;
    await working(byId("verdict"), async () => {
        const inParts = isInParts(held.fasta);
        // where there is no memory for the whole file it is read in parts, unless it is said otherwise
        const told = await load(mine, inParts).catch((e) => {
            if (inParts || byId("memory").value !== "auto" || !(e instanceof NoMemory)) throw e;
            return load(mine, true);
        });
        if (!told) return;
        document.body.dataset.times = JSON.stringify({ loading: told.loading, checking: told.checking, indexing: told.indexing });
        judged(told);
        if (told.records !== undefined) await opened();
    });
    if (mine === round) byId("working").hidden = true;
    document.body.dataset.round = String(mine);
}

// Shows what was told of the files.
function judged(told) {
    byId("make").disabled = false;
    const [fasta, index] = [chosen.fasta.name, chosen.fai?.name];
    if (told.refused) {
        const { words: said, code } = refusal(told);
        const hint = told.kind && ["2", "3"].includes(String(told.refused.refusal)) ? ` ${t(`kind.${told.kind}`)}` : "";
        if (told.about === "check") {
            show(byId("verdict"), (told.name ? t("refused.named", { words: said, name: told.name }) : t("refused", { words: said })) + hint, "bad");
            show(byId("detail"), t("files.refused.detail", { code }));
        } else {
            show(byId("verdict"), t("files.unfit", { fasta, words: said }) + hint, "bad");
            show(byId("detail"), t("files.unfit.detail", { code, records: many("record", told.before) }));
        }
        showLines(told.lines);
        return;
    }
    const records = many("record", told.records);
    if (told.accepted) {
        show(byId("verdict"), t(told.fastq ? "files.accepted.both" : "files.accepted", { index, fasta, records }), "good");
        if (told.inParts) show(byId("detail"), t("files.accepted.parts"));
    } else {
        show(byId("verdict"), t("files.indexed", { fasta, records }));
        show(byId("detail"), t(told.inParts ? "files.indexed.parts" : "files.indexed.whole"));
    }
}

// A line of text that was found, with its label.
function shownLine(label, ...texts) {
    const block = made("pre", undefined, { tabindex: "0", role: "region", "aria-label": label });
    block.append(...texts);
    byId("lines").append(made("p", label, { class: "quiet" }), block);
}

// The lines that a refusal is about, each with a caret under the byte that it names.
function showLines(lines) {
    byId("lines").textContent = "";
    for (const { file, line, byte, text, before } of lines) {
        const name = file === "index" ? chosen.fai.name : chosen.fasta.name;
        const caret = before === undefined ? [] : [
            made("span", `\n${" ".repeat(before)}^`, { "aria-hidden": "true" }),
            made("span", t("line.marked", { letter: before + 1 }), { class: "apart" }),
        ];
        shownLine(t(file === "made" ? "line.made" : "line.fasta", { file: name, line, byte }), made("span", text), ...caret);
    }
}

// A file that can be read: its records are listed.
async function opened() {
    enable(true);
    await list();
}

for (const which of ["fasta", "fai"]) {
    byId(which).addEventListener("change", (e) => {
        const before = chosen[which];
        chosen[which] = e.target.files[0];
        // another FASTA file leaves no index of the one before behind
        if (which === "fasta" && before && before.name !== chosen.fasta?.name) choose("fai", undefined);
        open();
    });
}
// a file that was changed can be chosen again: browsers tell nothing where the same one is chosen, unless none was
for (const which of ["fasta", "fai", "sheet-file", "exercise-file", "class-file"]) byId(which).addEventListener("click", () => { byId(which).value = ""; });
for (const which of ["fasta", "fai"]) byId(which).addEventListener("cancel", () => choose(which, chosen[which]));
for (const id of ["strict", "memory"]) byId(id).addEventListener("change", () => { if (chosen.fasta) open(); });
byId("again").addEventListener("click", open);
byId("stop").addEventListener("click", () => {
    round++;
    stopWorker();
    byId("working").hidden = true;
    show(byId("verdict"), t("files.stopped"));
    byId("again").hidden = false;
    byId("again").focus();
});

// A file that was dropped, shown where it could have been chosen.
function choose(which, file) {
    const one = new DataTransfer();
    if (file) one.items.add(file);
    byId(which).files = one.files;
    chosen[which] = file;
}
document.addEventListener("dragover", (e) => {
    e.preventDefault();
    document.body.classList.add("over");
});
document.addEventListener("dragleave", () => document.body.classList.remove("over"));
document.addEventListener("drop", (e) => {
    e.preventDefault();
    document.body.classList.remove("over");
    const dropped = Array.from(e.dataTransfer.files);
    if (dropped.length === 0) return;
    const inside = (id) => e.target instanceof Element && e.target.closest(`#${id}`);
    if (inside("panel-sheet")) return takeSheet(dropped[0]);
    if (inside("panel-exercise")) return /\.(?:csv|tsv|txt)$/i.test(dropped[0].name) ? takeClass(dropped[0]) : takeExercise(dropped[0]);
    const index = dropped.find((file) => /\.fai$/i.test(file.name));
    const fasta = dropped.find((file) => file !== index);
    if (fasta) choose("fasta", fasta);
    if (fasta || index) choose("fai", index);
    open();
});

byId("make").addEventListener("click", () => working(byId("made"), async () => {
    const told = await askFile("index", { strict: byId("strict").checked });
    if (told.refused) {
        const { words: said, code } = refusal(told);
        showLines(told.lines);
        return show(byId("made"), t("index.none", { words: said, code }), "bad");
    }
    const file = `${chosen.fasta.name}.fai`;
    const instead = byId("verdict").classList.contains("bad");
    if (instead) {
        await askFile("anew");
        await opened();
    }
    save(file, told.parts, byId("saved"));
    show(byId("made"), t(instead ? "index.made.instead" : "index.made", { file, records: many("record", told.records) }), "good");
}));

// --- records

let searches = 0;
async function list() {
    const mine = ++searches;
    const told = { rows: [], matches: 0 };
    for (let at = 0; at !== undefined;) {
        const some = await askFile("list", { search: byId("search").value.trim(), most: LISTED - told.rows.length, at });
        if (mine !== searches) return;
        told.rows.push(...some.rows);
        told.matches += some.matches;
        told.records = some.records;
        at = some.next;
    }
    const options = told.rows.map((record) => {
        const bases = many("base", record.length);
        const text = t(record.description ? "records.option.described" : "records.option", { ...record, bases });
        return made("option", text, { value: record.row });
    });
    byId("records").replaceChildren(...options);
    const chosenStill = options.find((option) => Number(option.value) === row) ?? options[0];
    if (chosenStill) chosenStill.selected = true;
    chooseRow(chosenStill);
    const values = { matches: told.matches, records: many("record", told.records), shown: options.length };
    const key = told.matches === 0 && told.records > 0 ? "none" : told.matches > options.length ? "first" : told.matches < told.records ? "some" : "all";
    show(byId("matches"), t(`records.${key}`, values));
}
byId("search").addEventListener("input", () => working(byId("matches"), list));
byId("records").addEventListener("change", () => chooseRow(byId("records").selectedOptions[0]));

// The record of an option is the one that is meant from now on, which each part says: on a phone the list is far away.
function chooseRow(option) {
    row = option ? Number(option.value) : undefined;
    for (const place of document.querySelectorAll(".chosen")) place.textContent = option ? t("records.chosen", { record: option.textContent }) : "";
}

// The chosen record and the bounds of two fields; undefined where something is wrong, which is shown.
function region(from, to, told) {
    const [first, last] = [bound(byId(from).value), bound(byId(to).value)];
    if (row === undefined) return void show(told, t("records.choose"), "bad");
    if (first === null || last === null) return void show(told, t("bad.bound"), "bad");
    return { row, first, last };
}
