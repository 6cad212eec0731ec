// What is done with a file that is open: reading, sheets, exercises, primers. Part of the page's one script (page.js).

// --- reading

let lastRead;
byId("read-form").addEventListener("submit", (e) => {
    e.preventDefault();
    byId("bases").textContent = "";
    byId("read-more").hidden = true;
    show(byId("copied"), "");
    working(byId("count"), async () => {
        const asked = region("first", "last", byId("count"));
        if (!asked) return;
        const wanted = { ...asked, strand: byId("strand").value };
        const told = await askFile("read", { ...wanted, most: SHOWN });
        if (told.refused) return show(byId("count"), t("nothing.read", { refused: refusal(told).text }), "bad");
        const bases = many("base", told.count);
        show(byId("count"), t(told.count > SHOWN ? "read.count.first" : "read.count", { ...told, bases, shown: SHOWN }), "good");
        for (const { other, text } of told.strands) {
            const label = t(other ? "read.other" : "read.bases");
            byId("bases").append(made("p", label, { class: "quiet" }), made("pre", text, { tabindex: "0", role: "region", "aria-label": label, class: "bases" }));
        }
        if (told.qualities !== undefined) {
            const label = t(wanted.strand === "other" ? "read.qualities.turned" : "read.qualities");
            byId("bases").append(made("p", label, { class: "quiet" }), made("pre", told.qualities, { tabindex: "0", role: "region", "aria-label": label, class: "bases" }));
        }
        const lines = [...told.strands.map(({ text }) => text), ...(told.qualities === undefined ? [] : [told.qualities])];
        lastRead = { ...wanted, name: told.name, text: lines.join("\n") };
        // what is not all shown is not copied in part either
        byId("copy").hidden = told.count > SHOWN;
        byId("save-fastq").hidden = told.qualities === undefined;
        byId("read-more").hidden = false;
    });
});
byId("copy").addEventListener("click", () => copy(lastRead.text, byId("copied")));
for (const [form, ending] of [["fasta", "fa"], ["fastq", "fq"]]) {
    byId(`save-${form}`).addEventListener("click", () => working(byId("copied"), async () => {
        const told = await askFile(form, { ...lastRead, width: WIDTH });
        if (told.refused) return show(byId("copied"), refusal(told).text, "bad");
        if (told.fault) return show(byId("copied"), t("refused", { words: t(told.fault) }), "bad");
        save(`${fileName(lastRead.name)}.${ending}`, told.parts);
    }));
}

// --- sheets

let lastSheet;
async function textOf(file) {
    const bytes = new Uint8Array(await file.arrayBuffer());
    const wide = bytes[0] === 0xff && bytes[1] === 0xfe ? "utf-16le" : bytes[0] === 0xfe && bytes[1] === 0xff ? "utf-16be" : undefined;
    try {
        return new TextDecoder(wide ?? "utf-8", { fatal: true }).decode(bytes);
    } catch {
        return new TextDecoder("windows-1252").decode(bytes);
    }
}
async function takeSheet(file) {
    if (!file) return;
    byId("regions").value = await textOf(file);
    byId("bed").checked = /\.bed$/i.test(file.name);
    if (!byId("sheeting").disabled) answerSheet();
}
byId("sheet-file").addEventListener("change", (e) => takeSheet(e.target.files[0]));
byId("sheet-form").addEventListener("submit", (e) => {
    e.preventDefault();
    answerSheet();
});
function answerSheet() {
    byId("keys").textContent = "";
    byId("sheet-more").hidden = true;
    return working(byId("sheet-told"), async () => {
        const told = await askFile("sheet", { text: byId("regions").value, bed: byId("bed").checked, width: WIDTH });
        const code = (text) => made("code", text);
        if (told.faults) {
            show(byId("sheet-told"), many("sheet.faults", told.faults.length, { regions: told.regions }), "bad");
            const why = ({ words: said, code: numbered }) => t("refused.coded", { said, code: numbered });
            const rows = told.faults.map((fault) => [number(fault.line), code(fault.text), fault.refused ? why(refusal(fault)) : t(fault.fault)]);
            byId("keys").append(tabled(undefined, [t("sheet.line"), t("sheet.region"), t("sheet.fault")], rows));
            return;
        }
        if (told.keys.length === 0) return show(byId("sheet-told"), t("sheet.empty"));
        show(byId("sheet-told"), many("sheet.done", told.keys.length), "good");
        // strands are shown where one is turned
        const turned = told.keys.some((key) => key.reverse);
        const strand = ({ reverse }) => (turned ? [t(reverse ? "strand.minus" : "strand.plus")] : []);
        const key = ({ bases }) => made("code", bases.length > SHOWN ? t("sheet.key.first", { first: bases.slice(0, SHOWN), shown: SHOWN, bases: many("base", bases.length) }) : bases, { class: "bases" });
        const rows = told.keys.map((one) => [number(one.line), code(one.text), ...strand(one), one.label ?? "", key(one)]);
        const heads = ["sheet.line", "sheet.region", ...(turned ? ["strand"] : []), "sheet.label", "sheet.key"];
        byId("keys").append(tabled(undefined, heads.map((head) => t(head)), rows));
        lastSheet = told;
        byId("save-keys").hidden = told.parts === undefined;
        byId("sheet-more").hidden = false;
    });
}
byId("copy-keys").addEventListener("click", () => copy(lastSheet.keys.map((key) => `${key.text}${key.reverse ? " -" : ""}\t${key.label ?? ""}\t${key.bases}\n`).join(""), byId("copied-keys")));
byId("save-keys").addEventListener("click", () => save("keys.fa", lastSheet.parts));

// --- exercises

let exercise, lastScores;
byId("make-form").addEventListener("submit", (e) => {
    e.preventDefault();
    working(byId("exercise-made"), async () => {
        const asked = region("from", "to", byId("exercise-made"));
        if (!asked) return;
        const told = await askFile("makeExercise", { ...asked, edition: byId("edition").value });
        if (told.refused) return show(byId("exercise-made"), t("nothing.read", { refused: refusal(told).text }), "bad");
        if (told.fault) return show(byId("exercise-made"), t("refused", { words: t(told.fault) }), "bad");
        const file = `${fileName(`${told.name}_${asked.first ?? ""}-${asked.last ?? ""}`)}.exercise`;
        save(file, [told.bytes]);
        show(byId("exercise-made"), t("exercise.made", { file }), "good");
        await setExercise(told.bytes);
    });
});
async function takeExercise(file) {
    if (file) await working(byId("asks"), async () => setExercise(new Uint8Array(await file.arrayBuffer())));
}
async function setExercise(bytes) {
    exercise = undefined;
    byId("score").disabled = true;
    const told = await askFile("readExercise", { bytes });
    const said = told.exercise && t("exercise.asks", { ...told.exercise, edition: t(`edition.${told.exercise.edition}.short`) });
    if (told.refused) return show(byId("asks"), [said, refusal(told).text].filter(Boolean).join(" "), "bad");
    if (!told.hasKey) return show(byId("asks"), `${said} ${t("not.open")}`, "bad");
    exercise = bytes;
    byId("score").disabled = false;
    show(byId("asks"), said, "good");
}
byId("exercise-file").addEventListener("change", (e) => takeExercise(e.target.files[0]));
byId("score-form").addEventListener("submit", (e) => {
    e.preventDefault();
    score([{ who: t("score.typed"), typed: byId("typed").value }]);
});
let lastClass;
async function takeClass(file) {
    if (!file) return;
    lastClass = file;
    await working(byId("scored"), async () => {
        const rows = cells(await textOf(file));
        if (rows === null) return show(byId("scored"), t("class.bad"), "bad");
        const headed = byId("headed").checked;
        const answers = answersOf(rows, headed);
        if (answers.length === 0) return show(byId("scored"), t("class.empty"), "bad");
        const scoredOf = many("score.class", answers.length);
        await score(answers, headed ? `${scoredOf} ${t("class.heading", { heading: rows[0].join(", ") })}` : scoredOf);
    });
}
byId("class-file").addEventListener("change", (e) => takeClass(e.target.files[0]));
byId("headed").addEventListener("change", () => takeClass(lastClass));

// The key, the answer and the marks under each other, in blocks that fit a page.
function marked(key, { typed, marks }) {
    const block = made("pre", undefined, { tabindex: "0", role: "region", "aria-label": t("score.marks") });
    const heads = ["key", "typed", "marks"].map((line) => t(`score.line.${line}`));
    const wide = Math.max(...heads.map((head) => head.length)) + 1;
    const lines = [];
    for (let at = 0; at < Math.max(marks.length, 1); at += 30) {
        [key, typed, marks].forEach((line, k) => lines.push(heads[k].padEnd(wide) + line.slice(at, at + 30)));
        lines.push("");
    }
    block.textContent = lines.join("\n");
    return block;
}
// Scores answers, and says so: of a class in words that are given, else the score.
function score(answers, ofClass) {
    byId("scores").textContent = "";
    byId("score-more").hidden = true;
    return working(byId("scored"), async () => {
        if (!exercise) return show(byId("scored"), t("exercise.none"), "bad");
        const told = await askFile("score", { bytes: exercise, answers, most: MARKED });
        if (told.refused) return show(byId("scored"), refusal(told).text, "bad");
        const one = told.scores[0];
        show(byId("scored"), ofClass ?? t("score.one", { ...one, score: percent(one.score) }), "good");
        const heads = ["who", "score", "right", "wrong", "missing", "surplus"].map((column) => t(`score.${column}`));
        const rows = told.scores.map((each) => [each.who, `${percent(each.score)} %`, ...[each.right, each.wrong, each.missing, each.surplus].map(number)]);
        byId("scores").append(tabled(t("score.caption", told.exercise), heads, rows), made("p", t("score.legend"), { class: "quiet" }));
        if (!told.whole) byId("scores").append(made("p", t("score.first", { shown: MARKED }), { class: "quiet" }));
        for (const each of told.scores) byId("scores").append(made("h3", each.who), marked(told.key, each));
        lastScores = [heads, ...told.scores.map((each) => [each.who, (Number(each.score) / 10).toFixed(1), each.right, each.wrong, each.missing, each.surplus].map(String))];
        byId("score-more").hidden = false;
    });
}
byId("save-scores").addEventListener("click", () => save("scores.csv", [lastScores.map((line) => `${line.map(csvCell).join(",")}\r\n`).join("")]));

// --- primers

let search = 0, lastPlaces;
byId("primer-form").addEventListener("submit", (e) => {
    e.preventDefault();
    const mine = ++search;
    byId("places").textContent = "";
    byId("primer-more").hidden = true;
    working(byId("primer-told"), async () => {
        const only = byId("where").value === "one" ? row : undefined;
        if (byId("where").value === "one" && only === undefined) return show(byId("primer-told"), t("records.choose"), "bad");
        byId("stop-primer").hidden = false;
        const places = [];
        const letters = byId("primer").value.trim();
        const placed = () => t("primer.placed", { letters, places: many("primer.place", places.length) });
        let told, at;
        do {
            told = await askFile("primer", { letters, only, at });
            if (mine !== search && !told.refused) break;
            if (told.refused) {
                byId("stop-primer").hidden = true;
                return show(byId("primer-told"), refusal(told).text, "bad");
            }
            places.push(...told.places);
            at = told.next;
            if (at) show(byId("primer-told"), t("primer.searching", { places: placed(), record: told.searched + 1, records: told.records }));
        } while (at);
        byId("stop-primer").hidden = true;
        if (at) show(byId("primer-told"), t("primer.stopped", { places: placed() }));
        else show(byId("primer-told"), t("primer.done", { places: placed(), sequences: many("primer.sequence", told.sequences) }), "good");
        if (places.length === 0) return;
        const heads = ["primer.record", "primer.first.base", "primer.last.base", "primer.strand", "primer.bases"].map((key) => t(key));
        const rows = places.slice(0, PLACED).map((place) => [place.name, number(place.first), number(place.last), t(place.other ? "strand.minus" : "strand.plus"), made("code", place.bases)]);
        byId("places").append(tabled(undefined, heads, rows));
        if (places.length > PLACED) byId("places").append(made("p", t("primer.first", { shown: PLACED }), { class: "quiet" }));
        lastPlaces = places;
        byId("primer-more").hidden = false;
    });
});
byId("stop-primer").addEventListener("click", () => { search++; });
byId("save-places").addEventListener("click", () => save("places.tsv",
    [lastPlaces.map(({ name, first, last: end, other, bases }) => `${[name, first, end, other ? "-" : "+", bases].join("\t")}\n`).join("")]));
