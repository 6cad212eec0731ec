#!/usr/bin/python3
"""chromium.py FOLDER SAMPLES PICTURES [TEST ..]: what is tried in Chromium alone: files that are chosen and saved; whether everyone can use the page
(access.py); every text from the table, stopping, no request and nothing kept; the page from a server that then ends. FOLDER has the page
(tools/wasm); PICTURES gets what was seen."""
import base64
import functools
import http.server
import json
import os
import subprocess
import sys
import threading
import time

import access
from chrome import Chrome
from engines import Failed
from person import Person

# Every text that is seen or heard, but for what comes from files and what a person typed.
TEXTS = """
    const found = [];
    const walk = document.createTreeWalker(document.body, NodeFilter.SHOW_TEXT);
    while (walk.nextNode()) {
        const e = walk.currentNode.parentElement;
        if (!walk.currentNode.textContent.trim() || e.closest("script, style, h1, pre, td code, th[scope=row]")) continue;
        found.push(walk.currentNode.textContent);
    }
    for (const e of document.body.querySelectorAll("[aria-label], [title], [placeholder], [alt]")) {
        for (const a of ["aria-label", "title", "placeholder", "alt"]) if (e.hasAttribute(a)) found.push(e.getAttribute(a));
    }
    return found;
"""

def chosen_and_saved(c):
    c.person.fresh()
    stale = os.path.join(c.samples, "stale.fa")
    c.at("fasta").send_keys(stale)
    c.person.judged()
    c.at("fai").send_keys(stale + ".fai")
    c.browser.wait_for("return document.getElementById('verdict').className === 'bad' ? 1 : null", what="a refusal")
    c.person.expect("files that are chosen", c.person.judged(), "Refused", "stale.fa.fai, line 1", "stale.fa, line 2")
    c.at("make").click()
    c.person.says("made")
    index = c.named("stale.fa.fai")
    c.check("an index that is saved", index.startswith(b"T7\t"), index[:30])
    c.person.fresh()
    c.at("fasta").send_keys(stale)
    c.person.judged()
    c.at("fai").send_keys(os.path.join(c.saved, "stale.fa.fai"))
    c.browser.wait_for("return document.getElementById('verdict').className === 'good' ? 1 : null", what="a verdict")
    c.person.expect("which is accepted", c.person.judged(), "Accepted")
    c.person.read("2", "12")
    c.at("save-fasta").click()
    c.check("FASTA that is saved", c.named("T7.fa").startswith(b">T7:2-12\n"))
    c.cdp("Browser.grantPermissions", permissions=["clipboardReadWrite", "clipboardSanitizedWrite"])
    c.at("copy").click()
    c.check("copied", c.person.says("copied") == "Copied.")
    # a new FASTA file leaves no index of another behind
    c.at("fasta").send_keys(c.write("other.fa", b">o\nAC\n"))
    c.browser.wait_for("return document.getElementById('verdict').textContent.startsWith('other.fa: 1') ? 1 : null", what="another file")
    c.person.passed += 1


def changed_or_too_large(c):
    path = c.write("changing.fa", b">c\nACGT\n")
    c.person.fresh()
    c.at("fasta").send_keys(path)
    c.person.expect("a file", c.person.judged(), "1 record")
    time.sleep(0.1)
    c.write("changing.fa", b">c\nACGTACGT\n>d\nAC\n")
    os.utime(path, (time.time() + 100, time.time() + 100))
    c.browser.run("document.body.dataset.round = '0'; document.getElementById('strict').click()")
    c.person.expect("a file that changed since it was chosen", c.person.judged(), "The file changed while it was read", never=["record"])
    # a file in parts is read again for each region
    path = c.write("parts.fa", b">c\n" + b"ACGT\n" * 10)
    c.person.memory = "parts"
    c.person.fresh()
    c.at("fasta").send_keys(path)
    c.person.expect("a file in parts", c.person.judged(), "1 record")
    c.person.expect("which is read", c.person.read("39", "40"), "GT")
    c.write("parts.fa", b">c\n" + b"AACC\n" * 10)
    os.utime(path, (time.time() + 100, time.time() + 100))
    c.person.expect("a file in parts that changed since", c.person.read("39", "40"), "The file changed while it was read", never=["CC"])
    c.person.memory = "auto"
    huge = os.path.join(c.room, "huge.fa")
    with open(huge, "wb") as file:
        file.write(b">huge\n")
        file.truncate(5 << 30)
    c.person.memory = "whole"
    c.person.fresh()
    c.at("fasta").send_keys(huge)
    c.person.expect("a file that the memory does not hold", c.person.judged(), "not enough memory", "Nothing was judged")
    c.person.memory = "auto"
    with open(huge, "r+b") as file:
        file.write(b">a\nAC\n>\nAC\n")
    c.person.fresh()
    c.at("fasta").send_keys(huge)
    c.person.expect("in parts it is read until it is refused", c.person.judged(), "No index can be made", "at byte 7", "line 3", "after 1 record")
    os.remove(huge)
    for what in ("a small one after it", "and another"):
        c.browser.run("document.body.dataset.round = '0'")
        c.person.drop(("a.fa", b">s\nAC\n"))
        c.person.expect(what, c.person.judged(), "1 record")
    c.person.expect("which is read", c.person.read("1", "2"), "AC")


def every_text_is_in_the_table(c):
    texts = json.load(open(os.path.join(os.path.dirname(__file__), "..", "texts.json"), encoding="utf-8"))
    words = json.load(open(os.path.join(os.path.dirname(__file__), "..", "words.json"), encoding="utf-8"))
    pseudo = {key: text if key == "lang" else f"⟦{text}⟧" for key, text in texts.items()}
    # a language may have more forms of the plural
    pseudo["record.few"] = "⟦few⟧"
    mark = lambda entry: [f"⟦{entry[0]}⟧", f"⟦{entry[1]}⟧"]
    pseudo["words"] = {**words, "any": {k: mark(v) for k, v in words["any"].items()}, "unknown": mark(words["unknown"]),
                       "calls": {c: {k: mark(v) for k, v in own.items()} for c, own in words["calls"].items()}}
    path = os.path.join(c.room, "pseudo.json")
    json.dump(pseudo, open(path, "w", encoding="utf-8"))
    maker = os.path.join(os.path.dirname(os.path.abspath(__file__)), "..", "make-page.mjs")
    subprocess.run(["node", maker, c.folder, path], check=True, stdout=subprocess.DEVNULL)
    other = Person(c.browser, os.path.join(c.folder, "pseudo.html"))
    mine, c.person = c.person, other
    try:
        c.everything()
        found = c.browser.run(TEXTS)
        other.open(b">s\nACGT\nAC\n", b"s\t6\t3\t4\t6\n")
        found += c.browser.run(TEXTS)
        other.open(b">s\nACGT\nAC\n")
        other.read("5", "7")
        other.tab("sheet")
        other.fill(regions="s:9-12\nnobody\ns 1 2")
        other.press("answer", "sheet-told")
        found += c.browser.run(TEXTS)
        other.open(b"@r\nACGT\n+\nIIII\n")
        other.read("1", "2", "both")
        found += c.browser.run(TEXTS)
        other.memory = "parts"
        for index in (b"s\t6\t3\t4\t6\n", b"", b"s\t6\t3\t4\t5\n", b"s\t6\t3\t4\t5\nt\t6\t3\t4\t5\n"):
            other.open(b">s\nACGT\nAC\n", index)
            found += c.browser.run(TEXTS)
    finally:
        c.person = mine
        os.remove(os.path.join(c.folder, "pseudo.html"))
    data = {"2", "3", "1", "A"}
    plain = [text for text in found if "⟦" not in text and not all(c.isdigit() or c in ",. %/" for c in text.strip()) and text not in data
             and text not in ("exercise A", "exercise B", "Ada", "Bob")]
    c.check(f"{len(found)} texts are all in the table", not plain and len(found) > 100, plain)


def stopping(c):
    large = c.write("large.fa", b">s\n" + (b"A" * 60 + b"\n") * 4_000_000)
    c.person.fresh()
    c.at("fasta").send_keys(large)
    c.browser.wait_for("return document.getElementById('progress').value > 0 ? 1 : null", what="progress")
    c.check("progress is shown", c.at("progress").is_displayed())
    c.at("stop").click()
    c.check("stopped", c.person.text("verdict") == "Stopped. Nothing was judged.")
    c.check("focus goes to what can be done then", c.focused() == "again")
    c.at("again").click()
    c.browser.wait_for("return document.getElementById('verdict').textContent.startsWith('large.fa: 1') ? 1 : null", what="the file again")
    c.person.expect("and read after all", c.person.read("239,999,999", "240,000,000"), "2 bases", "AA")
    os.remove(large)
    # files that follow each other quickly: the last one counts
    c.browser.run("""
        for (const [name, text] of [["one.fa", ">a\\nAC\\n"], ["two.fa", ">a\\nAC\\n>b\\nAC\\n"]]) {
            const dropped = new DataTransfer();
            dropped.items.add(new File([text], name));
            document.body.dispatchEvent(new DragEvent("drop", { bubbles: true, cancelable: true, dataTransfer: dropped }));
        }
    """)
    c.browser.wait_for("return document.getElementById('verdict').textContent.startsWith('two.fa: 2') ? 1 : null", what="the last file")
    c.person.passed += 1


def without_simd(c):
    """The other module in the page's worker: an engine without SIMD takes it."""
    html = open(c.page, encoding="utf-8").read()
    simd = html.split('id="simd">')[1].split("<")[0]
    path = c.write("plain.html", html.replace(simd, base64.b64encode(b"no module").decode()).encode())
    plain = Person(c.browser, path)
    plain.expect("without SIMD", plain.open(b">s\nACGT\nAC\n", b"s\t6\t3\t4\t6\n"), "base 5 of record 1")
    c.check("the module without SIMD", c.browser.run("return document.body.dataset.module") == "plain")


def nothing_is_sent_or_kept(c):
    c.person.fresh()
    # each is stopped by the policy, and not because the machine has no network: the browser tells which directive did it
    for what, attempt in (
            ("a request", "fetch('https://example.org/').catch(() => 0)"),
            ("an image", "new Image().src = 'https://example.org/i.png'"),
            ("a script", "const s = document.createElement('script'); s.src = 'https://example.org/s.js'; document.head.append(s)"),
            ("a style", "const s = document.createElement('link'); s.rel = 'stylesheet'; s.href = 'https://example.org/s.css'; document.head.append(s)"),
            ("a frame", "const f = document.createElement('iframe'); f.src = 'https://example.org/'; document.body.append(f)"),
            ("a socket", "try { new WebSocket('wss://example.org/') } catch { }"),
            ("a beacon", "navigator.sendBeacon('https://example.org/', 'x')"),
            ("a form", "const f = document.createElement('form'); f.action = 'https://example.org/'; f.method = 'post'; document.body.append(f); f.submit()"),
            ("a request of a worker", """
                const source = "self.addEventListener('securitypolicyviolation', (e) => postMessage(e.effectiveDirective)); fetch('https://example.org/').catch(() => 0)";
                new Worker(URL.createObjectURL(new Blob([source], { type: 'text/javascript' }))).onmessage = ({ data }) => done(data)""")):
        told = c.browser.browser.execute_async_script("""
            const done = arguments[0];
            document.addEventListener("securitypolicyviolation", (e) => done(e.effectiveDirective), { once: true });
            setTimeout(() => done(null), 3000);
        """ + attempt)
        c.check(f"{what} is stopped by the policy", told is not None, told)
    kept = c.browser.browser.execute_async_script("""
        const done = arguments[0];
        Promise.all([indexedDB.databases().catch(() => []), (async () => ("caches" in window ? caches.keys() : []))().catch(() => [])])
            .then(([databases, stores]) => done([databases.length, stores.length, (() => { try { return localStorage.length + sessionStorage.length } catch { return 0 } })(), document.cookie.length]))""")
    c.check("nothing is kept", kept == [0, 0, 0, 0], kept)
    asked, answered = set(), set()
    for entry in c.browser.browser.get_log("performance"):
        message = json.loads(entry["message"])["message"]
        if message["method"] == "Network.requestWillBeSent":
            asked.add(message["params"]["request"]["url"])
        if message["method"] == "Network.responseReceived":
            answered.add(message["params"]["response"]["url"].split(":")[0])
    away = {url.split("?")[0] for url in asked if url.split(":")[0] not in ("file", "blob", "data")} - {
        "https://example.org/", "wss://example.org/", *(f"https://example.org/{name}" for name in ("i.png", "s.js", "s.css"))}
    c.check("in all these tests nothing else was asked for", not away, away)
    c.check("and nothing was answered but from the file itself", answered <= {"file", "blob", "data"}, answered)
    errors = [e["message"] for e in c.browser.browser.get_log("browser") if e["level"] == "SEVERE" and "example.org" not in e["message"]]
    c.check("the console has no errors", not errors, errors)


def without_its_server(c):
    handler = functools.partial(http.server.SimpleHTTPRequestHandler, directory=c.folder)
    http.server.SimpleHTTPRequestHandler.log_message = lambda *words: None
    server = http.server.ThreadingHTTPServer(("127.0.0.1", 0), handler)
    threading.Thread(target=server.serve_forever, daemon=True).start()
    hosted = Person(c.browser, f"http://127.0.0.1:{server.server_port}/wakeluri.html")
    hosted.fresh()
    c.browser.browser.execute_async_script("navigator.serviceWorker.ready.then(arguments[0])")
    server.shutdown()
    server.server_close()
    hosted.expect("from a server that has ended", hosted.open(b">s\nACGT\nAC\n", b"s\t6\t3\t4\t6\n"), "base 5 of record 1")
    keys = c.browser.browser.execute_async_script("""const done = arguments[0];
        caches.keys().then((names) => Promise.all(names.map((name) => caches.open(name).then((c) => c.keys()))))
            .then((all) => done(all.flat().map((request) => new URL(request.url).pathname)))""")
    c.check("the page alone is kept there", keys == ["/wakeluri.html"], keys)


def pictures_for_the_readme(c):
    c.size(720, 770)
    with open(os.path.join(c.samples, "stale.fa"), "rb") as fasta, open(os.path.join(c.samples, "stale.fa.fai"), "rb") as index:
        c.person.open(fasta.read(), index.read(), name="stale.fa")
    c.picture("refused")
    c.size(720, 1440)
    with open(os.path.join(c.samples, "primers.fa"), "rb") as fasta:
        c.person.open(fasta.read(), name="primers.fa")
    c.person.read("3", "12", "both", row=1)
    c.picture("read")
    c.size(720, 900)
    c.person.open(b">chr1 a first drill\n" + b"ACGTACGTNN\n" * 6, name="course.fa")
    c.person.tab("exercise")
    c.person.fill(**{"from": "1", "to": "20"})
    c.browser.run("document.getElementById('make-exercise').click()")
    c.person.says("asks")
    c.person.drop(("class.csv", "who,answer\nAda,ACGTACGTNNACGTACGTNN\nBob,ACGTACGA\n"), on="#panel-exercise")
    c.person.says("scored")
    c.browser.run("document.getElementById('scored').scrollIntoView()")
    c.picture("marks")
    c.size(360, 700, 2, mobile=True)
    c.person.open(b">chr1 a first drill\n" + b"ACGTACGTNN\n" * 6 + b">chr2 a second one\nGGGGCCCC\n", name="course.fa")
    c.person.tab("sheet")
    c.person.fill(regions="chr1:1-12 exercise A\nchr1:51-150 exercise B\nchr3:1-5 exercise C\n")
    c.colours("dark")
    c.person.press("answer", "sheet-told")
    c.browser.run("document.getElementById('answer').scrollIntoView()")
    c.picture("phone-dark")
    c.colours()
    c.cdp("Emulation.clearDeviceMetricsOverride")


TESTS = [chosen_and_saved, changed_or_too_large, *access.ALL, every_text_is_in_the_table, stopping, without_simd, pictures_for_the_readme,
         nothing_is_sent_or_kept, without_its_server]
c = Chrome(*sys.argv[1:4])
try:
    print(f"== {c.browser.name} {c.browser.version}")
    for test in TESTS:
        if len(sys.argv) > 4 and test.__name__ not in sys.argv[4:]:
            continue
        start = time.monotonic()
        print(f"-- {test.__name__}")
        test(c)
        print(f"   {time.monotonic() - start:.1f} s")
    print(f"Chromium alone: {c.person.passed} passed, 0 failed")
except Failed as failed:
    c.picture("failed")
    sys.exit(f"FAILED in {c.browser.name}: {failed}")
finally:
    c.close()
