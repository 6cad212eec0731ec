// The page: takes files and what a person wants, asks the worker, and shows what it tells. It judges nothing, and every text is in the table.
// It is one script of several files, which web/make-page.mjs joins: words.js, regions.js, show.js, asking.js, files.js, work.js and this one.

// --- tabs, by arrow keys too; printing

const tabs = Array.from(document.querySelectorAll("[role=tab]"));
function select(tab) {
    for (const one of tabs) {
        one.setAttribute("aria-selected", String(one === tab));
        one.tabIndex = one === tab ? 0 : -1;
        byId(one.getAttribute("aria-controls")).hidden = one !== tab;
    }
}
tabs.forEach((tab, k) => {
    tab.addEventListener("click", () => select(tab));
    tab.addEventListener("keydown", (e) => {
        const to = { ArrowRight: k + 1, ArrowLeft: k - 1, Home: 0, End: tabs.length - 1 }[e.key];
        if (to === undefined) return;
        e.preventDefault();
        const next = tabs[(to + tabs.length) % tabs.length];
        select(next);
        next.focus();
    });
});
for (const button of document.querySelectorAll("button.print")) button.addEventListener("click", () => window.print());

// --- begin

byId("memory").options[0].textContent = t("memory.auto", { size: HELD >> 20 });

if (typeof WebAssembly !== "object" || typeof BigInt64Array !== "function" || typeof Worker !== "function") {
    show(byId("verdict"), t("old"), "bad");
} else {
    startWorker();
    working(byId("verdict"), async () => {});
    // where the page is served, and not opened as a file, it is kept for when there is no network: the page alone, and no file of a person
    if (location.protocol.startsWith("http") && navigator.serviceWorker) navigator.serviceWorker.register("offline.js").catch(() => {});
}
