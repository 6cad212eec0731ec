// access.js: what of the page as it stands now is wrong for people who use it by keyboard, by ear, enlarged or in other colours: a list of texts,
// "rule: element". It is the body of a function that access.py runs in the page, after WCAG 2.2 and the rules that axe tries.
const faults = [];
const fault = (rule, e, more) => faults.push(`${rule}: ${e.tagName.toLowerCase()}${e.id ? `#${e.id}` : ""}${more ? ` (${more})` : ""}`);
const all = (selector, from = document) => Array.from(from.querySelectorAll(selector));
const seen = (e) => e.checkVisibility({ visibilityProperty: true }) && !e.closest(".apart, .skip:not(:focus)");
const focusable = (e) => e.matches("a[href], button, input, select, textarea, summary, [tabindex]") && !e.matches(":disabled") && e.tabIndex >= 0;
const byId = (id) => document.getElementById(id);

// --- names and references
const named = (e) => {
    const by = (e.getAttribute("aria-labelledby") ?? "").split(/\s+/).filter(Boolean).map(byId);
    const text = [e.getAttribute("aria-label"), ...by.map((one) => one?.textContent), ...Array.from(e.labels ?? [], (one) => one.textContent), e.title];
    return [...text, e.matches("button, a, summary, [role=tab], legend, option") ? e.textContent : ""].some((one) => one?.trim());
};
for (const e of all("button, a[href], input, select, textarea, summary, progress, [role=tab], [role=tabpanel], [role=region], [role=tablist], section, table")) {
    if (seen(e) && !named(e) && !(e.matches("table") && e.closest("[role=region]"))) fault("no name", e);
}
for (const attribute of ["aria-labelledby", "aria-describedby", "aria-controls", "for"]) {
    for (const e of all(`[${attribute}]`)) for (const id of e.getAttribute(attribute).split(/\s+/)) if (!byId(id)) fault("a reference to nothing", e, id);
}
const ids = all("[id]").map((e) => e.id);
for (const [k, id] of ids.entries()) if (ids.indexOf(id) !== k) fault("an id twice", byId(id));
for (const e of all("img, svg, canvas")) if (!named(e) && e.getAttribute("aria-hidden") !== "true" && !e.hasAttribute("alt")) fault("a picture without words", e);

// --- roles
const ROLES = ["tablist", "tab", "tabpanel", "region", "status"];
for (const e of all("[role]")) if (!ROLES.includes(e.getAttribute("role"))) fault("an unknown role", e, e.getAttribute("role"));
for (const e of all("[role=tab]")) {
    if (!e.closest("[role=tablist]") || !["true", "false"].includes(e.getAttribute("aria-selected"))) fault("a tab that is none", e);
    const panel = byId(e.getAttribute("aria-controls"));
    if (panel?.getAttribute("role") !== "tabpanel" || panel.getAttribute("aria-labelledby") !== e.id) fault("a tab without its panel", e);
    else if ((e.getAttribute("aria-selected") === "true") !== seen(panel)) fault("a tab that does not say what is seen", e);
}
if (all("[role=tab][aria-selected=true]").length !== 1 || all("[role=tab][tabindex='0'], [role=tab]:not([tabindex])").length !== 1) fault("not one tab is chosen", byId("tabs"));
for (const e of all("fieldset")) if (e.firstElementChild?.tagName !== "LEGEND" || !e.firstElementChild.textContent.trim()) fault("fields without a legend", e);
for (const e of all("table")) if (all("thead th:not([scope=col])", e).length + all("tbody tr > :first-child:not(th[scope=row])", e).length > 0) fault("a table without heads", e);
for (const e of all("[aria-hidden=true]")) if ([e, ...all("*", e)].some(focusable)) fault("focus on what is hidden", e);
for (const e of all("#verdict, #made, #matches, #count, #copied, #sheet-told, #copied-keys, #exercise-made, #asks, #scored, #primer-told")) {
    if (e.getAttribute("role") !== "status") fault("a result that is not told", e);
}

// --- the page as a whole
const root = document.documentElement;
if (!root.lang) fault("no language", root);
if (!document.title.trim()) fault("no title", root);
if (all("main").length !== 1 || all("h1").length !== 1) fault("not one main part and one title", root);
const levels = all("h1, h2, h3").filter(seen).map((h) => Number(h.tagName[1]));
for (const [k, level] of levels.entries()) if (level > (levels[k - 1] ?? 0) + 1) fault("a heading leaps", all("h1, h2, h3").filter(seen)[k]);
if (/user-scalable\s*=\s*no|maximum-scale/.test(document.querySelector("meta[name=viewport]").content)) fault("no zoom", root);
if (byId(document.querySelector(".skip").getAttribute("href").slice(1))?.tabIndex !== -1) fault("a link over parts that leads nowhere", document.querySelector(".skip"));
const texts = document.createTreeWalker(document.body, NodeFilter.SHOW_TEXT);
while (texts.nextNode()) {
    const e = texts.currentNode.parentElement;
    if (texts.currentNode.textContent.trim() && seen(e) && !e.closest("header, main, footer, .skip, script")) fault("outside of every part", e);
}

// --- the keyboard, and fingers
for (const e of all("[tabindex]")) if (e.tabIndex > 0) fault("an order of its own", e);
for (const e of all("main *")) {
    const { overflowX, overflowY } = getComputedStyle(e);
    const scrolls = (/auto|scroll/.test(overflowY) && e.scrollHeight > e.clientHeight + 1) || (/auto|scroll/.test(overflowX) && e.scrollWidth > e.clientWidth + 1);
    if (seen(e) && scrolls && !focusable(e) && !all("*", e).some(focusable)) fault("scrolled by a mouse alone", e);
}
for (const e of all("button, input, select, textarea, summary, a[href]").filter(seen)) {
    const { width, height } = e.getBoundingClientRect();
    if (width < 24 || height < 24) fault("too small to press", e, `${width} ${height}`);
}

// --- colours
const channel = (c) => (c / 255 <= 0.04045 ? c / 255 / 12.92 : ((c / 255 + 0.055) / 1.055) ** 2.4);
const parsed = (text) => { const n = text.match(/[\d.]+/g).map(Number); return { rgb: n.slice(0, 3), a: n[3] ?? 1 }; };
const light = (rgb) => 0.2126 * channel(rgb[0]) + 0.7152 * channel(rgb[1]) + 0.0722 * channel(rgb[2]);
const behind = (e) => { for (; e; e = e.parentElement) { const c = parsed(getComputedStyle(e).backgroundColor); if (c.a > 0.99) return c.rgb; } return [255, 255, 255]; };
const ratio = (a, b) => { const [x, y] = [light(a), light(b)]; return (Math.max(x, y) + 0.05) / (Math.min(x, y) + 0.05); };
for (const e of all("body *").filter((one) => seen(one) && !one.closest(":disabled, script, style"))) {
    const style = getComputedStyle(e);
    const own = Array.from(e.childNodes).some((n) => n.nodeType === 3 && n.textContent.trim()) || "value" in e;
    const large = parseFloat(style.fontSize) >= 24 || (parseFloat(style.fontSize) >= 18.66 && Number(style.fontWeight) >= 700);
    const text = ratio(parsed(style.color).rgb, behind(e));
    if (own && text < (large ? 3 : 4.5)) fault("pale text", e, text.toFixed(2));
    const edge = ratio(parsed(style.borderTopColor).rgb, behind(e.parentElement));
    if (e.matches("input:not([type=checkbox]), select, textarea, button") && edge < 3) fault("a pale edge", e, edge.toFixed(2));
    if (e.matches("a[href]") && !style.textDecorationLine.includes("underline")) fault("a link by colour alone", e);
}
return faults;
