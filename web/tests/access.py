"""Whether everyone can use the page, in Chromium: by keyboard alone, by ear, in light and dark, on a phone, at 200 %, with wide spaces, on paper.
The rules that are tried wherever the page stands are in access.js."""
import base64
import os

from selenium.webdriver.common.keys import Keys

TABS = ("read", "sheet", "exercise", "primer")
with open(os.path.join(os.path.dirname(os.path.abspath(__file__)), "access.js"), encoding="utf-8") as rules:
    RULES = rules.read()
INTERACTIVE = {"button", "link", "textbox", "searchbox", "combobox", "listbox", "checkbox", "tab", "tabpanel", "progressbar", "option", "ProgressIndicator", "region"}
# Every element that Tab has to reach, in the order in which it stands; and where each is.
REACHED = """
    const used = Array.from(document.querySelectorAll("a[href], button, input, select, textarea, summary, [tabindex='0']"))
        .filter((e) => e.checkVisibility() && !e.matches(":disabled, [tabindex='-1']"));
    used.forEach((e, k) => { e.dataset.reached = k; });
    return used.length;
"""
OVER = """
    return Array.from(document.querySelectorAll("main *")).filter((e) => e.checkVisibility() && !e.closest("pre, .scrolled, .apart, select")
        && (e.getBoundingClientRect().right > innerWidth + 1 || e.getBoundingClientRect().left < -1 || (e.matches("button, label, legend") && e.scrollWidth > e.clientWidth + 1 && getComputedStyle(e).display !== "inline")))
        .map((e) => e.tagName + e.id).concat(document.documentElement.scrollWidth > document.documentElement.clientWidth ? ["the page"] : [])
"""


def rules_kept(c):
    """The rules, wherever the page can stand: empty, refused, read, each part with results, in light and dark."""
    for scheme in ("light", "dark"):
        c.colours(scheme)
        c.person.fresh()
        c.browser.run("document.getElementById('choices').open = true")
        found = [("at first", c.browser.run(RULES))]
        c.person.open(b">s\nACGT\nAC\n", b"s\t6\t3\t4\t6\n")
        found.append(("refused", c.browser.run(RULES)))
        c.person.open(b"@r\nACGT\n+\nIIII\n")
        c.person.read("1", "2", "both")
        found.append(("FASTQ", c.browser.run(RULES)))
        c.everything()
        for tab in TABS:
            c.person.tab(tab)
            found.append((tab, c.browser.run(RULES)))
            if scheme == "light":
                nodes = [n for n in c.cdp("Accessibility.getFullAXTree")["nodes"] if not n.get("ignored")]
                nameless = [n["role"]["value"] for n in nodes if n["role"]["value"] in INTERACTIVE and not n.get("name", {}).get("value", "").strip()]
                c.check(f"'{tab}': what the browser tells a screen reader has names", not nameless and len(nodes) > 50, nameless)
        for where, faults in found:
            c.check(f"rules kept, {scheme}, {where}", not faults, faults)
    c.colours()
    # the rules see what is wrong
    c.person.fresh()
    c.browser.run("""
        for (const label of document.querySelectorAll("label[for=search], label[for=fasta]")) label.remove();
        document.querySelector("header p").style.color = "#999";
        document.getElementById("make").tabIndex = 3;
        document.getElementById("verdict").removeAttribute("role");
        document.getElementById("first").style.borderColor = "#ddd";
        document.querySelector("[role=tab]").setAttribute("aria-controls", "nothing");
    """)
    faults = str(c.browser.run(RULES))
    wanted = ("no name: input#search", "no name: input#fasta", "pale text: p", "an order of its own: button#make", "a result that is not told: p#verdict",
              "a reference to nothing: button#tab-read")
    c.check("a page with faults is seen to have them", all(fault in faults for fault in wanted), faults)


def by_keyboard(c):
    c.person.open(b">a one\nACGT\n>b two\nGGCC\n")
    c.browser.run("document.getElementById('search').focus()")
    c.press("two")
    c.browser.wait_for("return document.getElementById('matches').textContent.startsWith('1 of') ? 1 : null", what="a search")
    c.press(Keys.TAB)
    c.check("from the search to the list", c.focused() == "records", c.focused())
    c.press(Keys.TAB, Keys.TAB)
    c.check("from the tabs to the fields", c.focused() == "first", c.focused())
    c.press("1", Keys.TAB, "3", Keys.ENTER)
    c.person.expect("read by keyboard", c.person.says("count") + c.person.text("bases"), "b, 1 to 3: 3 bases", "GGC")
    c.browser.run("document.getElementById('tab-read').focus()")
    c.press(Keys.ARROW_RIGHT)
    c.check("the next part by an arrow", c.focused() == "tab-sheet" and c.at("panel-sheet").is_displayed() and not c.at("panel-read").is_displayed())
    c.press(Keys.END)
    c.check("the last part", c.focused() == "tab-primer")
    c.press(Keys.ARROW_RIGHT)
    c.check("and round", c.focused() == "tab-read")
    c.browser.run("document.querySelector('.skip').focus()")
    c.check("the link over the files is seen", c.browser.run("return document.querySelector('.skip').getBoundingClientRect().width > 50"))
    c.press(Keys.ENTER)
    c.check("and leads to the records", c.focused() == "records-part", c.focused())


def order_of_focus(c):
    """Tab goes through all that can be used, in each part, in the order in which it is seen, shows where it is, and comes out again."""
    c.everything()
    c.browser.run("document.getElementById('choices').open = true")
    for tab in TABS:
        c.person.tab(tab)
        count = c.browser.run(REACHED)
        c.browser.run("document.activeElement.blur(); window.getSelection().removeAllRanges(); document.querySelector('.skip').focus()")
        met, hidden, back = [0], [], []
        place = [-1e9, 0]
        for _ in range(count - 1):
            c.press(Keys.TAB)
            told = c.browser.run("""
                const e = document.activeElement, s = getComputedStyle(e), r = e.getBoundingClientRect();
                return [Number(e.dataset.reached ?? -1), s.outlineStyle !== "none" && parseFloat(s.outlineWidth) >= 2, r.top + scrollY, r.bottom + scrollY, r.left, e.id || e.tagName]""")
            met.append(told[0])
            if not told[1]:
                hidden.append(told[5])
            # lower, or further in the same line
            if told[3] <= place[0] and told[4] < place[1]:
                back.append(told[5])
            place = [told[2], told[4]]
        c.check(f"'{tab}': Tab meets all {count} in their order", met == list(range(count)), met)
        c.check(f"'{tab}': focus is seen, and goes down the page", not hidden and not back, (hidden, back))
        c.press(Keys.TAB)
        c.check(f"'{tab}': and comes out", c.browser.run("return document.activeElement === document.body || document.activeElement.matches('.skip')"), c.focused())


def narrow_and_zoomed(c):
    for what, width, height, scale in (("a phone", 360, 740, 2), ("320 wide, as at 400 %", 320, 640, 1), ("a tablet at 200 %", 410, 590, 2)):
        c.size(width, height, scale, mobile=True)
        c.everything()
        for tab in TABS:
            c.person.tab(tab)
            over = c.browser.run(OVER)
            c.check(f"'{tab}' on {what} needs no sideways scrolling", not over, over)
    c.cdp("Emulation.clearDeviceMetricsOverride")
    c.everything()
    for what, change in (("what is written from right to left", "document.documentElement.dir = 'rtl'"), ("letters of 200 %", "document.documentElement.style.fontSize = '200%'"),
                         ("wide spaces", """document.documentElement.style.fontSize = '';
                            for (const e of document.querySelectorAll('body *')) Object.assign(e.style, { lineHeight: '1.5', letterSpacing: '.12em', wordSpacing: '.16em' })""")):
        c.browser.run(change)
        for tab in TABS:
            c.person.tab(tab)
            over = c.browser.run(OVER)
            c.check(f"'{tab}' with {what} needs no sideways scrolling", not over, over)


def colours_of_their_own(c):
    """A system's few colours in place of the page's: which part is chosen is seen by more than a colour behind it."""
    c.cdp("Emulation.setEmulatedMedia", features=[{"name": "forced-colors", "value": "active"}])
    c.everything()
    widths = c.browser.run("return Array.from(document.querySelectorAll('[role=tab]'), (e) => parseFloat(getComputedStyle(e).borderBottomWidth))")
    c.colours()
    c.check("the chosen part by its edge", widths[-1] > max(widths[:-1]), widths)


def on_paper(c):
    c.everything()
    c.person.tab("exercise")
    pdf = base64.b64decode(c.cdp("Page.printToPDF")["data"])
    c.check("printed", pdf.startswith(b"%PDF") and len(pdf) > 5000, len(pdf))
    c.cdp("Emulation.setEmulatedMedia", media="print")
    told = c.browser.run("""return { fields: Array.from(document.querySelectorAll("input, button, textarea, select")).filter((e) => e.checkVisibility()).map((e) => e.id),
        marks: document.querySelector("#scores pre").checkVisibility(), table: document.querySelector("#scores table").checkVisibility() }""")
    c.check("on paper there are marks, and no fields and buttons", told["marks"] and told["table"] and not told["fields"], told)
    c.cdp("Emulation.setEmulatedMedia", media="")


ALL = [rules_kept, by_keyboard, order_of_focus, narrow_and_zoomed, colours_of_their_own, on_paper]
