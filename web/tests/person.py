"""A person at the page, in any engine: drops files, fills in fields, presses buttons, and reads what the page says."""
import os

from engines import Failed

HOOK = """
    if (!window.savedFiles) {
        window.savedFiles = [];
        const before = URL.createObjectURL;
        URL.createObjectURL = (blob) => {
            if (blob.type === "application/octet-stream") {
                const file = { size: blob.size, text: null };
                window.savedFiles.push(file);
                blob.arrayBuffer().then((bytes) => { file.text = Array.from(new Uint8Array(bytes), (b) => String.fromCharCode(b)).join(""); });
            }
            return before.call(URL, blob);
        };
    }
"""
DROP = """
    const dropped = new DataTransfer();
    for (const [name, text] of arguments[0]) {
        dropped.items.add(new File([Uint8Array.from(text, (letter) => letter.charCodeAt(0))], name));
    }
    const place = document.querySelector(arguments[1]);
    place.dispatchEvent(new DragEvent("drop", { bubbles: true, cancelable: true, dataTransfer: dropped }));
"""


class Person:
    def __init__(self, engine, page, memory="auto"):
        self.engine = engine
        self.memory = memory  # whether the file is held: auto, whole or parts
        self.address = page if "://" in page else "file://" + os.path.abspath(page)
        self.passed = 0

    def expect(self, what, told, *wanted, never=()):
        """Every word must be in what is told, and none of some."""
        missing = [word for word in wanted if word not in told]
        there = [word for word in never if word in told]
        if missing or there:
            raise Failed(f"{what}: {missing or there} {'not ' if missing else ''}in {told!r}")
        self.passed += 1
        print(f"ok  {what}: {told[:160]!r}")

    # what the page has
    def text(self, place):
        return self.engine.run("return document.getElementById(arguments[0]).textContent", place)

    def says(self, place):
        return self.engine.wait_for(
            "const p = document.getElementById(arguments[0]); return p.textContent && !p.textContent.includes('…') ? p.textContent : null",
            place, what=f"a text at {place}")

    def cells(self, place):
        return self.engine.run(
            "return Array.from(document.querySelectorAll(`#${arguments[0]} tbody tr`), (row) => Array.from(row.children, (cell) => cell.textContent))", place)

    # what a person does
    def fresh(self):
        self.engine.go(self.address)
        self.engine.run(HOOK)
        self.engine.run("document.getElementById('memory').value = arguments[0]", self.memory)

    def drop(self, *files, on="body"):
        files = [[name, content.decode("latin1") if isinstance(content, bytes) else content] for name, content in files]
        self.engine.run(DROP, files, on)

    def open(self, fasta, index=None, strict=False, name="a.fa"):
        """A fresh page with these files dropped; what it says of them."""
        self.fresh()
        if strict:
            self.engine.run("document.getElementById('strict').checked = true")
        self.drop((name, fasta), *([(name + ".fai", index)] if index is not None else []))
        return self.judged()

    def judged(self):
        self.engine.wait_for("return Number(document.body.dataset.round ?? 0) >= 1 && document.getElementById('working').hidden ? 1 : null", what="a verdict")
        return " | ".join(filter(None, (self.text(place) for place in ("verdict", "detail", "lines"))))

    def fill(self, **fields):
        for place, value in fields.items():
            self.engine.run("""
                const p = document.getElementById(arguments[0]);
                if (p.type === "checkbox") p.checked = arguments[1]; else p.value = arguments[1];
                p.dispatchEvent(new Event("input", { bubbles: true }));
                p.dispatchEvent(new Event("change", { bubbles: true }));
            """, place.replace("_", "-"), value)

    def press(self, button, told):
        """Presses a button, and gives what is then said at a place."""
        self.engine.run("document.getElementById(arguments[1]).textContent = ''; document.getElementById(arguments[0]).click()", button, told)
        return self.says(told)

    def tab(self, name):
        self.engine.run("document.getElementById('tab-' + arguments[0]).click()", name)

    def read(self, first, last, strand="as it stands", row=None):
        self.tab("read")
        if row is not None:
            self.fill(records=str(row))
        self.fill(first=first, last=last, strand=strand)
        told = self.press("read", "count")
        return told + " | " + self.text("bases")

    def save(self, button):
        """Presses a button that saves; the file's content."""
        before = self.engine.run("return window.savedFiles.length")
        self.engine.run("document.getElementById(arguments[0]).click()", button)
        return self.engine.wait_for("const f = window.savedFiles[arguments[0]]; return f && f.text !== null ? f.text : null", before, what="a saved file")
