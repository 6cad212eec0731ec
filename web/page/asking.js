// The worker, as the page asks it. Part of the page's one script (page.js).

let worker, ready;
let waiting = new Map();
let last = 0;
class Failed extends Error {}
class NoMemory extends Failed {}
class Stopped extends Error {}

function startWorker() {
    const address = URL.createObjectURL(new Blob([byId("worker").textContent], { type: "text/javascript" }));
    worker = new Worker(address);
    worker.onmessage = ({ data }) => {
        waiting.get(data.id)?.answer(data);
        waiting.delete(data.id);
    };
    worker.onerror = (e) => {
        for (const { fail } of waiting.values()) fail(new Failed(t("failed", { what: e.message ?? "" })));
        waiting.clear();
    };
    const decoded = (id) => Uint8Array.from(atob(byId(id).textContent), (letter) => letter.charCodeAt(0));
    ready = ask("start", { modules: [decoded("simd"), decoded("plain")], calls }).then((told) => {
        if (told.tooOld) throw new Failed(t("old"));
        document.body.dataset.module = told.simd ? "simd" : "plain";
    });
    ready.then(() => ask("warm")).catch(() => {});
}

// Ends what the worker does, whatever it is: it is thrown away with its memory, and another begins.
function stopWorker() {
    worker.terminate();
    for (const { fail } of waiting.values()) fail(new Stopped());
    waiting = new Map();
    startWorker();
}

// Asks the worker, whose answers come in order. What it could not do is an error with a text.
async function ask(what, given, handed) {
    const id = ++last;
    const told = await new Promise((answer, fail) => {
        waiting.set(id, { answer, fail });
        worker.postMessage({ id, ask: what, ...given }, handed ?? []);
    });
    if (told.noRoom) throw new NoMemory(t("no.room"));
    if (told.notOpen) throw new Failed(t("not.open"));
    if (told.failed !== undefined) throw new Failed(t("failed", { what: told.failed }));
    return told;
}

// Asks the worker about the file. Bytes of it that it does not hold and wants are read, and it is asked again with them.
async function askFile(what, given) {
    const { fasta } = held;
    for (let windows = []; ;) {
        const told = await ask(what, { ...given, windows }, windows.map(({ bytes }) => bytes));
        if (!told.wanted) return told;
        windows = await Promise.all(told.wanted.map(async ({ from, to }) => ({ from, bytes: await bytesOf(fasta, from, to) })));
    }
}

// Some bytes of a file; where it changed since it was chosen there are none.
async function bytesOf(file, from, to) {
    const bytes = await file.slice(from, to).arrayBuffer().catch(() => undefined);
    if (bytes?.byteLength !== to - from) throw new Failed(t("files.changed"));
    return bytes;
}

// Does some work, and shows at a place why it failed.
async function working(place, work) {
    try {
        await ready;
        await work();
    } catch (e) {
        if (e instanceof Stopped) return;
        show(place, e instanceof Failed ? e.message : t("failed", { what: String(e.message ?? e) }), "bad");
    }
}

// A refusal in words, with its numbers; and as one text.
function refusal({ refused, name }) {
    const [said, code] = refusalWords(words, refused);
    return { words: said, code, text: t("refused.coded", { said: name ? t("refused.named", { words: said, name }) : t("refused", { words: said }), code }) };
}
