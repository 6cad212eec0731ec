"""What every engine is asked: the marked examples, the three pains, bad files, sheets, exercises and primers. Each is a function by name."""
import os

M1 = b">sq0\nACGT\n>sq1\nNNNN\nNNNN\nNN\n"
M9 = b">s\nACGT\nAC\n"


def marked_examples(p, samples):
    p.expect("M1", p.open(M1), "2 records")
    p.expect("M1, its index", repr(p.save("make")), repr("sq0\t4\t5\t4\t5\nsq1\t10\t15\t4\t5\n"))
    p.expect("M2", p.open(b">s\nACGT\n\n", strict=True), "1 record")
    p.expect("M3", p.open(b">s\nACGT\n\n\n", strict=True), "No index can be made", "refused 6 (found 0, expected 4)", "line 3")
    p.expect("M3, by the complete rule", p.open(b">s\nACGT\n\n\n"), "1 record")
    p.expect("M4", p.open(b">s\nACGT\nACGT\r\n", strict=True), "refused 7 (found 6, expected 5)", "line 3")
    p.expect("M5", p.open(b">s\n\nACGT\n", strict=True), "refused 5 (offset 4)")
    p.expect("M6", p.open(b">s\nACGT\r\nACGTA", strict=True), "refused 6 (found 5, expected 4)")
    p.expect("M7", p.open(b">s", strict=True), "refused 5 (offset 2)")
    p.expect("M8", p.open(b">s\nACGT\r", strict=True), "1 record")
    p.expect("M8, its index", repr(p.save("make")), repr("s\t4\t3\t4\t5\n"))
    p.expect("M9", p.open(M9), "1 record")
    p.expect("M9, 4 to 5", p.read("4", "5"), "2 bases", "TA")
    p.expect("M9, 5 to 7", p.read("5", "7"), "Refused", "refused 17 (length 6)")
    p.expect("M10", p.open(M9, b"s\t6\t3\t4\t6\n"), "Refused", "base 5 of record 1", "The record is s.", "refused 23 (record 1, base 5)",
             "a.fa.fai, line 1", "a.fa, line 3 (byte 8)")
    p.expect("M11", p.open(b">s\nACGT\n", b"s\t4\t3\t60\t61\n"), "Accepted", "1 record")
    p.expect("M11, read by that index", p.read("", ""), "4 bases", "ACGT")
    p.expect("M12", p.open(b">s\nAC>GT\n") + p.read("3", "4"), ">G")
    p.expect("M13", p.open(b">s\nACGU\n") + p.read("", "", "other"), "4 bases", "reverse complement", "ACGT")


def pain_of_the_clipped_read(p, samples):
    """A sheet asked for a hundred bases where fifty were left."""
    p.open(b">chr\n" + b"ACGTACGTAC\n" * 15)
    p.expect("a hundred bases where fifty are left", p.read("101", "200"), "Refused", "150 bases", "Nothing was read", never=["ACGT"])
    p.expect("the fifty that are left", p.read("101", "150"), "50 bases", "ACGTACGTAC" * 5)
    p.tab("sheet")
    p.fill(regions="chr:1-100 first\nchr:101-200 second\n")
    p.expect("and in a sheet", p.press("answer", "sheet-told"), "1 of 2 regions", "No key is given")
    p.expect("and in a sheet, which", str(p.cells("keys")), "chr:101-200", "refused 17 (length 150)", never=["ACGT"])


def pain_of_the_stale_index(p, samples):
    """An index older than its file slid every key by some bases."""
    with open(os.path.join(samples, "stale.fa"), "rb") as fasta, open(os.path.join(samples, "stale.fa.fai"), "rb") as index:
        fasta, index = fasta.read(), index.read()
    p.expect("a stale index", p.open(fasta, index), "Refused", "is not where its index line says", "Don't read by this index")
    p.expect("nothing is read by it", str(p.engine.run("return document.getElementById('reading').disabled")), "True")
    made = p.save("make")
    p.expect("a new one is made, and gone by", p.says("made"), "Reads go by it now")
    p.expect("and the file can be read", p.read("1", "3"), "3 bases")
    p.expect("which is right", p.open(fasta, made), "Accepted")


def pain_of_the_buffer(p, samples):
    """Answers depended on how a reader's buffer was filled: here a '>' inside a line begins a part of the reading, and a CR ends one."""
    chunk, line = 8 << 20, b"ACGTACGTAC\r\n"
    for what, back in (("'>' at a part's start", 3), ("CR at a part's end", 11)):
        name = b">" + b"n" * 1000
        head = name + b"x" * ((chunk - back - len(name) - 1) % len(line)) + b"\n"
        lines = chunk // len(line) + 10
        place = chunk - len(head)
        assert place % len(line) == back
        p.fresh()
        # the page's own script makes the file: it is too long for a driver
        p.engine.run("""
            const [head, line, lines, place, byte] = arguments;
            const codes = (text) => Uint8Array.from(text, (letter) => letter.charCodeAt(0));
            const body = new Uint8Array(line.length * lines);
            for (let k = 0; k < lines; k++) body.set(codes(line), k * line.length);
            if (byte) body[place] = byte;
            const dropped = new DataTransfer();
            dropped.items.add(new File([codes(head), body], "chunks.fa"));
            document.body.dispatchEvent(new DragEvent("drop", { bubbles: true, cancelable: true, dataTransfer: dropped }));
        """, head.decode(), line.decode(), lines, place, 62 if back == 3 else 0)
        p.judged()
        index = p.save("make")
        p.expect(what, str(index == f"{head[1:-1].decode()}\t{10 * lines}\t{len(head)}\t10\t12\n"), "True")
        base = place // 12 * 10 + (back if back < 10 else 9)
        wanted = "ACG>ACG" if back == 3 else "GTACA"
        told = p.read(str(base - 2), str(base + 4)) if back == 3 else p.read(str(base - 3), str(base + 3))
        p.expect(what + ", read", told, "7 bases", wanted)


def bad_files(p, samples):
    p.expect("no FASTA", p.open(b"hello\n"), "No index can be made", "does not begin with '>'", "refused 3 (offset 0)", "line 1", "hello")
    p.expect("a compressed file", p.open(b"\x1f\x8b\x08\x00abc"), "compressed")
    p.expect("a mark before the text", p.open(b"\xef\xbb\xbf>s\nAC\n"), "byte order mark")
    p.expect("UTF-16", p.open(b"\xff\xfe>\x00s\x00\n\x00"), "UTF-16")
    p.expect("no name", p.open(b">s\nACGT\n>\nAC\n"), "has no name after its '>', at byte 9", "a.fa, line 3", "after 1 record")
    p.expect("no index fits", p.open(b">s\nACGT\nAC\nACGT\n"), "No index can be made", "refused 42", "line 4")
    p.expect("an empty file", p.open(b""), "0 records")
    p.expect("an empty pair", p.open(b"", b""), "Accepted", "0 records")
    p.expect("a bad index line", p.open(M9, b"s\t6\tx\t4\t5\n"), "Refused", "field 3, the offset of the first base", "a.fa.fai, line 1")
    p.expect("another name", p.open(M9, b"t\t6\t3\t4\t5\n"), "Refused", "different names", "a.fa.fai, line 1", "a.fa, line 1")
    p.expect("a line too many", p.open(M9, b"s\t6\t3\t4\t5\nt\t6\t3\t4\t5\n"), "Refused", "goes on", "line 2")
    p.expect("a line missing", p.open(M1, b"sq0\t4\t5\t4\t5\n"), "no line for record 2", "sq1")
    p.expect("markup in a name", p.open(b"><img/src=x>\nAC\n") + str(p.engine.run("return document.images.length")), "0")
    p.expect("bytes that are no text", p.open(b">\xff\xfe\x01\nAC\n") + p.read("1", "2"), "\\xff\\xfe\\x01", "AC")
    p.open(M9)
    p.expect("a bound of 0", p.read("0", "4"), "refused 16")
    p.expect("a bound of 64 bits", p.read("1", "18446744073709551615"), "refused 17 (length 6)")
    p.expect("a bound over 64 bits", p.read("1", "18446744073709551616"), "Refused", "whole number")
    p.expect("a bound that is none", p.read("1", "x"), "Refused", "whole number")


FASTQ = b"@r1 first\nACGTN\n+r1\n!\"#$%\n@r2\nGGCC\nAA\n+\n@@II\n~~\n"
FASTQ_INDEX = b"r1\t5\t10\t5\t6\t20\nr2\t6\t30\t4\t5\t40\n"


def fastq(p, samples):
    fastq_used(p)
    file, index = FASTQ, FASTQ_INDEX
    p.expect("with its index", p.open(file, index), "Accepted", "every base and every quality")
    p.expect("with another", p.open(file, index.replace(b"\t40", b"\t41")), "Refused", "refused 23 (record 2, base 1)", "The record is r2", "r2→6→30→4→5→41",
             "a.fa.fai, line 2", "a.fa, line 9 (byte 40)", "@@II", never=["leads to every"])
    p.expect("nothing is read by it", str(p.engine.run("return document.getElementById('reading').disabled")), "True")
    p.save("make")
    p.expect("but by a new one", p.says("made") + p.read("1", "2", row=1), "Reads go by it now", "GG", "Qualities@@")
    p.expect("another place of its bases", p.open(file, index.replace(b"\t30", b"\t31")), "refused 23 (record 2, base 1)", "a.fa, line 6 (byte 30)", "GGCC")
    p.expect("another length", p.open(file, index.replace(b"\t6\t30", b"\t5\t30")), "refused 22 (record 2)", "a.fa, line 5", "@r2")
    p.expect("numbers that lead there too", p.open(b"@r\nACGT\n+\nIIII\n", b"r\t4\t3\t60\t61\t10\n"), "Accepted")
    p.expect("a line missing", p.open(file, b"r1\t5\t10\t5\t6\t20\n"), "no line for record 2", "r2")
    p.expect("a line too many", p.open(file, index + b"r3\t1\t2\t3\t4\t5\n"), "goes on", "line 3")
    p.expect("with five columns", p.open(file, b"r1\t5\t10\t5\t6\n"), "Refused", "the offset of the first quality")


def fastq_used(p):
    """What can be done with FASTQ, held or in parts."""
    p.expect("FASTQ", p.open(FASTQ), "2 records")
    p.expect("its index", repr(p.save("make")), repr(FASTQ_INDEX.decode()))
    p.expect("its records", p.engine.run("return document.getElementById('records').textContent"), "r1 · 5 bases · first", "r2 · 6 bases")
    p.expect("bases and qualities", p.read("3", "6", row=1), "4 bases", "BasesCCAA", "QualitiesII~~")
    p.expect("the other strand", p.read("3", "6", "other", row=1), "TTGG", "last one first~~II")
    p.expect("past its end", p.read("3", "7", row=1), "refused 17 (length 6)", never=["Qualities"])
    p.expect("saved as FASTA", repr(p.save("save-fasta") if p.read("", "", row=0) else ""), repr(">r1 first\nACGTN\n"))
    p.expect("saved as FASTQ", repr(p.save("save-fastq")), repr("@r1 first\nACGTN\n+\n!\"#$%\n"))
    p.read("3", "5", "both", row=1)
    p.expect("saved as FASTQ, both strands", repr(p.save("save-fastq")), repr("@r2:3-5\nCCA\n+\nII~\n@r2:3-5 reverse complement\nTGG\n+\n~II\n"))
    p.read("3", "5", "other", row=1)
    p.expect("saved as FASTQ, the other", repr(p.save("save-fastq")), repr("@r2:3-5 reverse complement\nTGG\n+\n~II\n"))
    p.tab("sheet")
    p.fill(regions="r2:3-5 - x\nr1\n")
    p.expect("a sheet", p.press("answer", "sheet-told") + str([row[1:] for row in p.cells("keys")]), "2 keys", "['r2:3-5', '− (other strand)', 'x', 'TGG']", "'ACGTN'")
    p.fill(regions="r2:3-7\nr3\n")
    p.expect("its faults", p.press("answer", "sheet-told") + str(p.cells("keys")), "2 of 2 regions", "refused 17 (length 6)", "refused 15")
    p.tab("exercise")
    p.fill(records="1", **{"from": "2", "to": "5"})
    p.save("make-exercise")
    p.expect("an exercise", p.says("asks"), "bases 2 to 5 of r2")
    p.fill(typed="GCGA")
    p.expect("a score", p.press("score", "scored") + p.text("scores"), "75.0 %", "GCCA", "||x|")
    p.tab("primer")
    p.fill(primer="GCMA", where="all")
    p.expect("a primer", p.press("find", "primer-told") + str(p.cells("places")), "1 place;", "['r2', '2', '5', '+")
    p.expect("no FASTQ of it", p.open(b"@r\nA+\n+\nII\n") + p.read("2", "2") + p.press("save-fastq", "copied"), "Refused: as FASTQ it would be read as another record")
    p.expect("no '+' line", p.open(b"@r\nAC\nII\n"), "No index can be made", "no '+' line", "refused 38", "line 3")
    p.expect("too few qualities", p.open(b"@q\nAC\n+\nII\n@r\nACGT\n+\nII\n"), "refused 39 (found 2, expected 4)", "line 8", "after 1 record")
    p.expect("an uneven line", p.open(b"@q\nAC\n+\nII\n@r\nAC\nACG\n+\nII\n"), "refused 6 (found 3, expected 2)", "line 7", "ACG")
    p.expect("FASTA behind it", p.open(b"@q\nAC\n+\nII\n>s\nAC\n"), "does not begin with '@', at byte 11", "line 5")


def fastq_in_parts(p, samples):
    """FASTQ of which nothing is held."""
    fastq_used(p)
    file, index = FASTQ, FASTQ_INDEX
    p.expect("in parts", p.open(file), "read in parts", "not kept in memory")
    p.expect("with its index", p.open(file, index), "Accepted", "every base and every quality", "leads to the same places")
    p.expect("with another", p.open(file, index.replace(b"\t40", b"\t41")), "Refused", "refused 23 (record 2, base 1)", "r2→6→30→4→5→41", "a.fa, line 9 (byte 40)", "r2→6→30→4→5→40")
    p.save("make")
    p.expect("read by a new one", p.says("made") + p.read("1", "2", row=1), "Reads go by it now", "GG", "Qualities@@")
    p.expect("with five columns", p.open(file, b"r1\t5\t10\t5\t6\n"), "Refused", "the offset of the first quality")
    # more than one part of the reading, and a record that is longer than a part
    p.fresh()
    p.engine.run("""
        const short = new TextEncoder().encode("@s a read\\nACGTACGTAC\\n+\\n@+IIIIIIII\\n");
        const many = new Uint8Array(300000 * short.length);
        for (let k = 0; k < 300000; k++) many.set(short, k * short.length);
        const line = (letter) => new Uint8Array(12 << 20).fill(letter.charCodeAt(0));
        const dropped = new DataTransfer();
        dropped.items.add(new File([many, "@long\\nC", line("A"), "G\\n+\\n#", line("I"), "~\\n@last\\nAC\\n+\\n!!"], "long.fq"));
        document.body.dispatchEvent(new DragEvent("drop", { bubbles: true, cancelable: true, dataTransfer: dropped }));
    """)
    p.expect("300,002 records", p.judged(), "long.fq: 300,002 records")
    p.fill(search="long")
    p.engine.wait_for("return document.getElementById('matches').textContent.startsWith('1 of') ? 1 : null", what="a search")
    p.expect("a record longer than a part", p.read(str((12 << 20) + 1), ""), "2 bases", "BasesAG", "QualitiesI~")
    p.expect("its index", p.save("make"), f"s\t10\t{299999 * 34 + 10}\t10\t11\t{299999 * 34 + 23}\nlong\t12582914\t10200006\t12582914\t12582915\t22782923\nlast\t2\t35365844\t2\t3\t35365849\n")


def records(p, samples):
    fasta = b"".join(b">r%d drill %s\n%s\n" % (k, b"about wings" if k % 7 == 0 else b"about legs", b"ACGT" * (k % 5 + 1)) for k in range(500))
    p.open(fasta)
    p.expect("all are counted, some listed", p.text("matches"), "500", "The first 200")
    p.fill(search="WINGS")
    p.engine.wait_for("return document.getElementById('matches').textContent.startsWith('72 of') ? 1 : null", what="a search")
    p.expect("a search of descriptions", p.text("matches"), "72 of 500 records")
    p.fill(search="r499")
    p.engine.wait_for("return document.getElementById('matches').textContent.startsWith('1 of') ? 1 : null", what="a search")
    p.expect("a search of names", p.read("", ""), "r499", "20 bases")
    twins = b">a\nAAAA\n>a second\nCCCC\n"
    p.open(twins)
    p.expect("two of a name are read by row", p.read("", "", row=1), "CCCC")
    p.expect("which is said", p.engine.run("return document.querySelector('#panel-read .chosen').textContent"), "Record: a · 4 bases · second")
    p.expect("both strands", p.read("1", "2", "both", row=1), "CC", "Other strand", "GG")
    p.expect("saved as FASTA", repr(p.save("save-fasta")), repr(">a:1-2\nCC\n>a:1-2 reverse complement\nGG\n"))
    p.read("", "", row=1)
    p.expect("saved as FASTA, whole", repr(p.save("save-fasta")), repr(">a second\nCCCC\n"))


def more_than_is_shown(p, samples):
    """A read of more bases than are shown is not copied in part: it is saved. A sheet says that its key goes on."""
    p.open(b">a\n" + b"ACGT" * 30000 + b"\n")
    p.expect("the first of them", p.read("", ""), "120,000 bases", "The first 100,000 are shown: save them")
    p.expect("no copy of a part", str(p.engine.run("return document.getElementById('copy').hidden")), "True")
    p.expect("all are saved", str(len(p.save("save-fasta"))), str(3 + 120000 + 2000))
    p.read("1", "100000")
    p.expect("a copy of all", str(p.engine.run("return document.getElementById('copy').hidden")), "False")
    p.tab("sheet")
    p.fill(regions="a\na:1-4\n")
    p.press("answer", "sheet-told")
    p.expect("a key that goes on", p.cells("keys")[0][-1][100000:], "the first 100,000 of 120,000 bases")
    p.expect("and is saved whole", str(len(p.save("save-keys"))), str(3 + 120000 + 2000 + len(">a:1-4\nACGT\n")))


def from_the_disk(p, samples):
    """A file that lies on the disk, and is not made by a script: some engines hand those over in another way."""
    path = os.path.join(os.path.abspath(samples), "stale.fa")
    before = p.memory
    for p.memory in ("auto", "parts"):
        p.fresh()
        p.engine.choose("fasta", path)
        p.expect(f"chosen, {p.memory}", p.judged(), "stale.fa: 5 records")
        first = p.read("2", "12", row=0)
        p.expect(f"read, {p.memory}", first, "11 bases")
        with open(path, "rb") as file:
            wanted = b"".join(file.read().split(b">")[1].split(b"\n")[1:]).replace(b"\r", b"")[1:12]
        p.expect(f"which is right, {p.memory}", first, wanted.decode())
    p.memory = before


def sheets(p, samples):
    p.open(M1)
    p.tab("sheet")
    p.fill(regions="# a sheet\nsq0:2-3 one\nsq1:9-\n\n{sq0}:-1\nsq0\n")
    p.expect("a sheet", p.press("answer", "sheet-told"), "4 keys")
    p.expect("its keys", str([row[1:] for row in p.cells("keys")]), str([["sq0:2-3", "one", "CG"], ["sq1:9-", "", "NN"], ["{sq0}:-1", "", "A"], ["sq0", "", "ACGT"]]))
    p.expect("its keys, saved", repr(p.save("save-keys")), repr(">sq0:2-3 one\nCG\n>sq1:9-\nNN\n>{sq0}:-1\nA\n>sq0\nACGT\n"))
    p.fill(regions="sq0:2-5\nnobody:1-2\nsq1 5 9\nsq0:3-2\nsq0:x-y\nsq0:1-2\n")
    p.expect("all faults at once", p.press("answer", "sheet-told"), "5 of 6 regions", "No key")
    p.expect("which", str(p.cells("keys")), "refused 17 (length 4)", "refused 15", "write it without blanks", "refused 16", "'5'", never=["'AC'"])
    p.drop(("a.bed", "sq0\t0\t2\tfirst\nsq1\t8\t10\n"), on="#regions")
    p.engine.wait_for("return document.getElementById('sheet-told').textContent.startsWith('2 keys') ? 1 : null", what="a dropped sheet")
    p.expect("BED, dropped", str(p.cells("keys")), "sq0:1-2", "first", "AC", "sq1:9-10", "NN")
    # a name with a colon, and a region that can be read in two ways
    p.open(b">a:1-2\nACGT\n>a\nTTTT\n>b:c\nGGGG\n")
    p.tab("sheet")
    p.fill(regions="b:c:2-3\nb:c\n")
    p.expect("names with colons", p.press("answer", "sheet-told") + str(p.cells("keys")), "2 keys", "GG", "GGGG")
    p.fill(regions="a:1-2")
    p.expect("two ways", p.press("answer", "sheet-told") + str(p.cells("keys")), "more than one way")


def exercises(p, samples):
    p.open(b">chr\n" + b"ACGTN\n" * 4)
    p.tab("exercise")
    p.fill(**{"from": "3", "to": "7", "edition": "1"})
    bytes_made = p.save("make-exercise")
    p.expect("an exercise", repr(bytes_made), repr("\x01\x00\x03chr\x02\x00\x08" + "\0" * 7 + "\x03\x03\x00\x08" + "\0" * 7 + "\x07\x04\x00\x01\x01"))
    p.expect("what it asks", p.says("asks"), "bases 3 to 7 of chr", "edition 1")
    p.fill(typed="gt na")
    p.expect("a score", p.press("score", "scored"), "80.0 %", "4 right, 0 wrong, 1 missing")
    p.expect("marks under each other", p.text("scores"), "GTNAC", "gtna", "||||-")
    p.fill(typed="GTAACC")
    p.expect("wrong and too many", p.press("score", "scored"), "66.6 %", "4 right, 1 wrong, 0 missing, 1 too many")
    p.expect("its marks", p.text("scores"), "||x||+")
    p.drop(("class.csv", 'who,answer\nAda,GTNAC\n"Bob, jr.",gt\nCy,"ACGTA"\n'), on="#panel-exercise")
    p.engine.wait_for("return document.getElementById('scored').textContent.startsWith('3 answers') ? 1 : null", what="a class")
    p.expect("a class", str(p.cells("scores")), "'Ada', '100.0 %', '5'", "'Bob, jr.', '40.0 %', '2', '0', '3'", "'Cy', ")
    p.expect("what was passed over", p.text("scored"), "heading: who, answer")
    p.engine.run("document.getElementById('headed').click()")
    p.engine.wait_for("return document.getElementById('scored').textContent.startsWith('4 answers') ? 1 : null", what="the class without a heading")
    p.expect("or not", str(p.cells("scores")), "'who', '0.0 %'", "'Ada', '100.0 %'")
    p.engine.run("document.getElementById('headed').click()")
    p.engine.wait_for("return document.getElementById('scored').textContent.startsWith('3 answers') ? 1 : null", what="the class again")
    p.expect("a class, saved", p.save("save-scores"), 'Who,Score,Right', 'Ada,100.0,5,0,0,0', '"Bob, jr.",40.0,2,0,3,0')
    # edition 2, and the file that was saved comes back
    p.fill(edition="2")
    second = p.save("make-exercise")
    p.fill(typed="GTAAC")
    p.press("score", "scored")
    p.expect("edition 2: what N allows is right", p.text("scored"), "100.0 %")
    p.drop(("a.exercise", bytes_made), on="#panel-exercise")
    p.engine.wait_for("return document.getElementById('asks').textContent.includes('edition 1') ? 1 : null", what="an exercise")
    p.drop(("a.exercise", second[:-1] + "\x03"), on="#panel-exercise")
    p.engine.wait_for("return document.getElementById('asks').textContent.includes('refused 33') ? 1 : null", what="a refusal")
    p.expect("edition 3", p.text("asks"), "neither 1 nor 2")
    p.drop(("a.exercise", "hello"), on="#panel-exercise")
    p.engine.wait_for("return document.getElementById('asks').textContent.includes('refused 31') ? 1 : null", what="a refusal")
    # fifty typed of a hundred with 49 right is 49.0 %
    p.open(b">c\n" + b"ACGTACGTAC\n" * 10)
    p.tab("exercise")
    p.fill(**{"from": "1", "to": "100"})
    p.save("make-exercise")
    p.fill(typed=("ACGTACGTAC" * 5)[:49] + "A")
    p.expect("49 right of 50 typed of 100 asked", p.press("score", "scored"), "49.0 %", "49 right, 1 wrong, 50 missing")


def primers(p, samples):
    p.open(b">a\nACGTACGTAA\n>b\nTTTTACGNNN\n")
    p.tab("primer")
    p.fill(primer="acgw", where="all")
    p.expect("a primer", p.press("find", "primer-told"), "4 places", "stands for 2 sequences")
    p.expect("where", str(p.cells("places")), "['a', '1', '4', '+", "['a', '5', '8', '+", "['a', '1', '4', '−", "['a', '5', '8', '−")
    p.fill(primer="ACG", where="one", records="1")
    p.expect("in one record", p.press("find", "primer-told") + str(p.cells("places")), "1 place;", "['b', '5', '7'")
    p.expect("its places, saved", repr(p.save("save-places")), repr("b\t5\t7\t+\tACG\n"))
    p.fill(primer="ACE")
    p.expect("no primer", p.press("find", "primer-told"), "refused 37 (place 2)")
    p.fill(primer="")
    p.expect("an empty one", p.press("find", "primer-told"), "refused 36")
    # a match across two pieces of the search is told once
    p.open(b">long\n" + b"A" * ((1 << 20) - 2) + b"GCGC" + b"A" * 1000 + b"\n")
    p.tab("primer")
    p.fill(primer="GCGC", where="one")
    told = p.press("find", "primer-told")
    p.expect("across two pieces", told + str(p.cells("places")), "2 places", "1,048,575", "1,048,578")


def files_in_parts(p, samples):
    """A file of which nothing is held: its index is made while it passes by, and held against the one that is given."""
    p.expect("M1, in parts", p.open(M1), "2 records", "read in parts", "not kept in memory")
    p.expect("M1, in parts, its index", repr(p.save("make")), repr("sq0\t4\t5\t4\t5\nsq1\t10\t15\t4\t5\n"))
    p.expect("M9, in parts, with its index", p.open(M9, b"s\t6\t3\t4\t5\n"), "Accepted", "read in parts", "leads to the same places")
    p.expect("M9, 4 to 5", p.read("4", "5"), "2 bases", "TA")
    p.expect("M9, 5 to 7", p.read("5", "7"), "Refused", "refused 17 (length 6)")
    p.expect("numbers written in another way", p.open(M9, b"s\t+6\t03\t4\t5\r\n"), "Accepted")
    p.expect("M10, in parts", p.open(M9, b"s\t6\t3\t4\t6\n"), "Refused", "base 5 of record 1", "The record is s.", "refused 23 (record 1, base 5)", "a.fa.fai, line 1",
             "a.fa, line 3 (byte 8)", "s→6→3→4→6", "s→6→3→4→5", never=["leads to the same"])
    p.expect("M11, in parts", p.open(b">s\nACGT\n", b"s\t4\t3\t60\t61\n"), "Accepted", "1 record")
    p.expect("a line missing", p.open(M1, b"sq0\t4\t5\t4\t5\n"), "no line for record 2", "sq1→10→15→4→5")
    p.expect("a line too many", p.open(M9, b"s\t6\t3\t4\t5\nt\t6\t3\t4\t5\n"), "Refused", "goes on", "line 2", "t→6→3→4→5")
    p.expect("another name", p.open(M9, b"t\t6\t3\t4\t5\n"), "Refused", "different names", "a.fa.fai, line 1", "t→6→3→4→5", "s→6→3→4→5")
    p.expect("another length", p.open(M9, b"s\t5\t3\t4\t5\n"), "refused 22 (record 1)")
    p.expect("a bad index line", p.open(M9, b"s\t6\tx\t4\t5\n"), "Refused", "field 3, the offset of the first base", "a.fa.fai, line 1")
    p.expect("nothing is read by it", str(p.engine.run("return document.getElementById('reading').disabled")), "True")
    p.save("make")
    p.expect("a new one is made, and gone by", p.says("made") + p.read("1", "2"), "Reads go by it now", "AC")
    p.expect("no FASTA", p.open(b"hello\n"), "No index can be made", "refused 3 (offset 0)", "line 1", "hello")
    p.expect("no name", p.open(b">s\nACGT\n>\nAC\n"), "at byte 9", "a.fa, line 3", "after 1 record")
    p.expect("no index fits", p.open(b">s\nACGT\nAC\nACGT\n"), "refused 42", "line 4")
    p.expect("M3, in parts", p.open(b">s\nACGT\n\n\n", strict=True), "refused 6 (found 0, expected 4)", "line 3")
    p.expect("M4, in parts", p.open(b">s\nACGT\nACGT\r\n", strict=True), "refused 7 (found 6, expected 5)", "line 3")
    p.expect("an empty pair", p.open(b"", b""), "Accepted", "0 records")
    for test in (pain_of_the_clipped_read, pain_of_the_buffer, records, sheets, exercises, primers):
        test(p, samples)


ALL = [marked_examples, pain_of_the_clipped_read, pain_of_the_stale_index, pain_of_the_buffer, bad_files, fastq, records, more_than_is_shown, from_the_disk, sheets, exercises, primers]
IN_PARTS = [files_in_parts, fastq_in_parts]
