#!/usr/bin/python3
"""speed.py PAGE NATIVE [ROUNDS]: index and check in the page's worker beside the native library (host/wakeluri/examples/speed.rs), in turns: a file
of 200 MB, ROUNDS (11) times each. Tells the best and the middle of each, and the page's share of the native speed; with SIMD both have to be 0.8."""
import base64
import json
import os
import random
import statistics
import subprocess
import sys
import tempfile

from engines import Chromium
from person import Person
from selenium.webdriver.common.by import By

page, native = sys.argv[1:3]
ROUNDS, GOAL = int(sys.argv[3]) if len(sys.argv) > 3 else 11, 0.8
room = tempfile.TemporaryDirectory()
fasta, index = os.path.join(room.name, "speed.fa"), os.path.join(room.name, "speed.fa.fai")
random.seed(1)
block = b"".join(bytes(random.choices(b"ACGT", k=60)) + b"\n" for _ in range(2000))
with open(fasta, "wb") as file, open(index, "w", encoding="ascii") as lines:
    for record in range(20):
        head = b">chr%d a record\n" % record
        lines.write(f"chr{record}\t{60 * 2000 * 82}\t{file.tell() + len(head)}\t60\t61\n")
        file.write(head + block * 82)
size = os.path.getsize(fasta)
html = open(page, encoding="utf-8").read()
simd = html.split('id="simd">')[1].split("<")[0]
plain = os.path.join(room.name, "plain.html")
with open(plain, "w", encoding="utf-8") as file:
    file.write(html.replace(simd, base64.b64encode(b"no module").decode()))

times = {}
with subprocess.Popen([native, fasta, index], stdin=subprocess.PIPE, stdout=subprocess.PIPE, text=True) as library:
    browsers = {name: Person(Chromium(), path) for name, path in (("SIMD", page), ("plain", plain))}
    try:
        for name, person in browsers.items():
            person.fresh()
        for turn in range(ROUNDS):
            library.stdin.write("\n")
            library.stdin.flush()
            indexed, checked = map(float, library.stdout.readline().split())
            times.setdefault(("native", "index"), []).append(indexed)
            times.setdefault(("native", "check"), []).append(checked)
            for name, person in browsers.items():
                person.fresh()
                person.engine.browser.find_element(By.ID, "fai").send_keys(index)
                person.engine.run("document.body.dataset.round = '0'")
                person.engine.browser.find_element(By.ID, "fasta").send_keys(fasta)
                told = person.judged()
                assert "Accepted" in told, told
                told = json.loads(person.engine.run("return document.body.dataset.times"))
                times.setdefault((name, "index"), []).append(told["indexing"] / 1000)
                times.setdefault((name, "check"), []).append(told["checking"] / 1000)
    finally:
        for person in browsers.values():
            person.engine.close()
        library.stdin.close()
print(f"a file of {size:,} bytes, {ROUNDS} times in turns; GB/s: the best, the middle")
reached = True
for work in ("index", "check"):
    best = {who: size / min(times[who, work]) / 1e9 for who in ("native", "SIMD", "plain")}
    middle = {who: size / statistics.median(times[who, work]) / 1e9 for who in best}
    share = {who: (best[who] / best["native"], middle[who] / middle["native"]) for who in ("SIMD", "plain")}
    print(f"{work}: " + "; ".join(f"{who} {best[who]:.2f}, {middle[who]:.2f}" for who in best)
          + "; of native: " + "; ".join(f"{who} {a:.2f}, {b:.2f}" for who, (a, b) in share.items()))
    reached = reached and min(share["SIMD"]) >= GOAL
print("the goal, 0.8 of native with SIMD, is " + ("reached" if reached else "not reached"))
sys.exit(0 if reached else 1)
