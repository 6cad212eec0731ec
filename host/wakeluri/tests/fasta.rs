//! A file that is opened: what its rows rest on, what it reads, and that a change is noticed.

use questions::generate::Chance;
use std::fs;
use std::path::{Path, PathBuf};
use std::time::Duration;
use wakeluri::fasta::{MAPPED_FROM, Trust};
use wakeluri::{Error, Fasta, Reason};

/// A folder of a test's own, which is there and empty.
fn folder(name: &str) -> PathBuf {
    let folder = Path::new(env!("CARGO_TARGET_TMPDIR")).join("fasta").join(name);
    let _ = fs::remove_dir_all(&folder);
    fs::create_dir_all(&folder).expect("a folder");
    folder
}

fn file(folder: &Path, name: &str, bytes: impl AsRef<[u8]>) -> PathBuf {
    let path = folder.join(name);
    fs::write(&path, bytes).expect("a file");
    path
}

const TWO: &[u8] = b">s one\nACGT\nAC\n>t\nGG\n";

#[test]
fn it_can_be_shared_and_sent() {
    fn shared<T: Send + Sync + 'static>() {}
    shared::<Fasta>();
    shared::<Error>();
    shared::<wakeluri::Refusal>();
    fn sent<T: Send + Sync>(_: T) {}
    let fasta = Fasta::from_bytes(TWO).unwrap();
    sent(fasta.record("s").unwrap());
}

#[test]
fn an_index_is_found_made_checked_or_believed() {
    let folder = folder("trust");
    let path = file(&folder, "ref.fa", TWO);
    let made = Fasta::open(&path).unwrap();
    assert_eq!((made.trust(), made.len(), made.is_empty(), made.is_mapped()), (Trust::Made, 2, false, false));
    assert_eq!(made.save_index().unwrap(), folder.join("ref.fa.fai"));
    assert_eq!(fs::read(folder.join("ref.fa.fai")).unwrap(), b"s\t6\t7\t4\t5\nt\t2\t18\t2\t3\n");
    assert_eq!(fs::read_dir(&folder).unwrap().count(), 2, "no other file is left");

    let found = Fasta::open(&path).unwrap();
    assert_eq!(found.trust(), Trust::Checked);
    for fasta in [&made, &found] {
        assert_eq!(fasta.read("s:4-5").unwrap(), b"TA");
        assert_eq!(fasta.read("t").unwrap(), b"GG");
        assert_eq!(fasta.bytes(), TWO);
        assert_eq!(fasta.index_text().unwrap(), b"s\t6\t7\t4\t5\nt\t2\t18\t2\t3\n");
    }

    // an index that leads elsewhere is refused, and named
    let wrong = file(&folder, "wrong.fai", "s\t6\t7\t4\t6\nt\t2\t18\t2\t3\n");
    let error = Fasta::options().index(&wrong).open(&path).unwrap_err();
    assert_eq!(error.reason(), Some(Reason::BaseElsewhere { record: 1, base: 5 }));
    assert!(error.to_string().contains("wrong.fai: base 5 of record 1 is not where"), "{error}");
    let believed = Fasta::options().index(&wrong).unchecked().open(&path).unwrap();
    assert_eq!((believed.trust(), believed.read("s:5-5").unwrap()), (Trust::Unchecked, b"C".to_vec()));
    fs::write(folder.join("ref.fa.fai"), "nonsense").unwrap();
    assert_eq!(Fasta::options().no_index().open(&path).unwrap().trust(), Trust::Made);
    assert!(matches!(Fasta::open(&path), Err(Error::Refused { .. })));

    // what isn't there
    assert!(matches!(Fasta::open(folder.join("no.fa")), Err(Error::File { .. })));
    assert!(matches!(Fasta::options().index(folder.join("no.fai")).open(&path), Err(Error::File { .. })));
    assert!(matches!(Fasta::open(&folder), Err(Error::File { .. })));
    let bad = file(&folder, "bad.fa", "no FASTA\n");
    assert_eq!(Fasta::open(bad).unwrap_err().reason(), Some(Reason::NoPrefix { record: None, offset: 0 }));
    let empty = Fasta::open(file(&folder, "empty.fa", "")).unwrap();
    assert!(empty.is_empty() && empty.records().next().is_none());
}

#[test]
fn descriptions_are_those_of_the_file() {
    let folder = folder("descriptions");
    let text = b">s  one \t1\r\nACGT\r\n>t\n>u\tno bases \n\n>v two\n\n\r\nGG\n>w\nA\n>s twin\nCC\n";
    let path = file(&folder, "ref.fa", text);
    let expected = [Some("one \t1"), None, Some("no bases"), Some("two"), None, Some("twin")];
    let described = |fasta: &Fasta| -> Vec<Option<String>> {
        let text = |text: &[u8]| String::from_utf8(text.to_vec()).unwrap();
        fasta.records().map(|record| record.description().map(text)).collect()
    };
    let made = Fasta::open(&path).unwrap();
    assert_eq!(described(&made), expected.map(|text| text.map(String::from)));
    made.save_index().unwrap();
    let found = Fasta::open(&path).unwrap();
    assert_eq!((found.trust(), described(&found)), (Trust::Checked, described(&made)));
    // of a record without bases an index may say anything
    let index = fs::read_to_string(folder.join("ref.fa.fai")).unwrap();
    let odd: String = index
        .lines()
        .map(|line| if line.contains("\t0\t") { line.replace("\t0\t", "\t0\t9") } else { line.into() } + "\n")
        .collect();
    assert_ne!(odd, index);
    let odd = Fasta::options().index(file(&folder, "odd.fai", odd)).open(&path).unwrap();
    assert_eq!((odd.trust(), described(&odd)), (Trust::Checked, described(&made)));
}

#[test]
fn regions_and_what_is_no_region() {
    let fasta = Fasta::from_bytes(b">a\nACGTACGTAC\n>a:5\nGG\n>b x\nTTT\n>HLA:A\nCC\n".to_vec()).unwrap();
    for (region, bases) in
        [("b", "TTT"), ("b:2", "TT"), ("b:2-2", "T"), ("{a}:5-6", "AC"), ("HLA:A", "CC"), ("HLA:A:2", "C")]
    {
        assert_eq!(fasta.read(region).unwrap(), bases.as_bytes(), "{region}");
    }
    for (region, says) in [
        ("a:5", "a:5: it can be read in more than one way: write {a:5} or {a}:5"),
        ("b:x", "b:x: this is no region: 'x' is no number"),
        ("c:1-2", "c: no record has that name: refused 15"),
        ("b:0-2", "b: the region's start is after its end, or a bound is 0: refused 16"),
        ("b:1-4", "b: the record has 3 bases, and the region goes past them: refused 17 (length 3)"),
        ("b:1-99999999999999999999", "b: the record has 3 bases, and the region goes past them: refused 17 (length 3)"),
        ("b:99999999999999999999-1", "b: the region's start is after its end, or a bound is 0: refused 16"),
    ] {
        assert_eq!(fasta.read(region).unwrap_err().to_string(), says, "{region}");
    }
    let error = std::io::Error::from(fasta.read("b:9").unwrap_err());
    assert_eq!(error.kind(), std::io::ErrorKind::InvalidInput);
    let mut room = [b'.'; 4];
    assert!(fasta.record("b").unwrap().read_into(1..=5, &mut room).is_err());
    assert_eq!((fasta.record("b").unwrap().read_into(2..=3, &mut room).unwrap(), &room), (2, b"TT.."));
}

/// A file of some records by chance, with names that come twice.
fn by_chance(chance: &mut Chance) -> Vec<u8> {
    let mut text = vec![];
    for _ in 0..chance.below(40) {
        let bases: Vec<u8> = (0..chance.below(30)).map(|_| chance.one_of(b"ACGTN")).collect();
        let name = format!("n{}", chance.below(50));
        let record = wakeluri::write_record(name.as_bytes(), None, &bases, chance.below(9) as u64 + 1);
        text.extend(record.expect("a good record"));
    }
    text
}

#[test]
fn it_finds_and_reads_what_a_table_does() {
    let mut chance = Chance::new(29);
    for _ in 0..300 {
        let text = by_chance(&mut chance);
        let table = wakeluri::index(&text).unwrap();
        let fasta = Fasta::from_bytes(text.clone()).unwrap();
        for name in (0..50).map(|number| format!("n{number}").into_bytes()) {
            let found = fasta.record(&name).map(|record| record.number());
            match table.find(&name) {
                Ok(row) => assert_eq!(found.ok(), Some(row.number())),
                Err(refusal) => assert_eq!(found.unwrap_err().refusal(), Some(&refusal)),
            }
        }
        for (record, row) in fasta.records().zip(table.rows()) {
            let said = table.record(row).unwrap();
            let numbers = (record.name(), record.length(), record.position(), record.line_bases(), record.line_width());
            assert_eq!(numbers, (said.name, said.length, said.position, said.line_bases, said.line_width));
            let bound = |chance: &mut Chance| (!chance.once_in(4)).then(|| chance.below(32) as u64);
            let bounds = (bound(&mut chance), bound(&mut chance));
            let read = record.read(bounds).map_err(|error| *error.refusal().unwrap());
            assert_eq!(read, table.read_exact(&text, row, bounds));
        }
    }
}

#[test]
fn threads_read_one_file() {
    let text = [b">s\n".to_vec(), b"ACGTACGTAC\n".repeat(1000)].concat();
    let fasta = Fasta::from_bytes(text).unwrap();
    std::thread::scope(|scope| {
        for thread in 0..4_u64 {
            let fasta = &fasta;
            scope.spawn(move || {
                for at in (1..=9000).skip(thread as usize).step_by(7) {
                    let bases = fasta.record("s").unwrap().read(at..=at + 999).unwrap();
                    assert_eq!((bases.len(), bases[0]), (1000, b"ACGTACGTAC"[(at as usize - 1) % 10]));
                }
            });
        }
    });
}

/// A change is noticed at once by a look, and by a read that comes after a while; and it stays noticed.
fn noticed(fasta: &Fasta) {
    std::thread::sleep(Duration::from_millis(50));
    assert!(matches!(fasta.read("s:1-1"), Err(Error::Changed { .. })));
    assert!(matches!(fasta.unchanged(), Err(Error::Changed { .. })));
    assert!(matches!(fasta.record("s").unwrap().read_into(1..=1, &mut [0]), Err(Error::Changed { .. })));
}

#[test]
fn a_change_is_noticed() {
    let folder = folder("changes");
    let path = file(&folder, "ref.fa", TWO);

    let longer = Fasta::open(&path).unwrap();
    assert!(longer.unchanged().is_ok() && longer.read("s:1-1").is_ok());
    fs::OpenOptions::new()
        .append(true)
        .open(&path)
        .and_then(|mut file| std::io::Write::write_all(&mut file, b">u\nA\n"))
        .unwrap();
    noticed(&longer);

    let gone = Fasta::open(&path).unwrap();
    fs::remove_file(&path).unwrap();
    noticed(&gone);

    // the same length and the same time, but another file
    fs::write(&path, TWO).unwrap();
    let replaced = Fasta::open(&path).unwrap();
    let other = file(&folder, "other.fa", TWO);
    let time = fs::metadata(&path).and_then(|meta| meta.modified()).unwrap();
    fs::File::options().write(true).open(&other).and_then(|file| file.set_modified(time)).unwrap();
    fs::rename(&other, &path).unwrap();
    noticed(&replaced);

    // the same file and length, written to later
    let written = Fasta::open(&path).unwrap();
    let later = time + Duration::from_secs(1);
    fs::File::options().write(true).open(&path).and_then(|file| file.set_modified(later)).unwrap();
    noticed(&written);
    assert!(Fasta::open(&path).is_ok());
}

#[test]
fn a_long_file_is_mapped() {
    let folder = folder("mapped");
    let lines = MAPPED_FROM as usize / 61 + 1;
    let text = [b">s long\n".to_vec(), [[b'A'; 60].as_slice(), b"\n"].concat().repeat(lines)].concat();
    let path = file(&folder, "ref.fa", &text);
    let (mapped, held) = (Fasta::open(&path).unwrap(), Fasta::options().hold().open(&path).unwrap());
    assert_eq!((mapped.is_mapped(), held.is_mapped()), (cfg!(target_os = "linux"), false));
    assert_eq!(mapped.bytes(), held.bytes());
    let last = mapped.record("s").unwrap().length();
    assert_eq!(last, lines as u64 * 60);
    assert_eq!(mapped.read(format!("s:{}-{last}", last - 99)).unwrap(), [b'A'; 100]);
    // what is put in its place is noticed, and the map keeps what was there
    fs::rename(file(&folder, "new.fa", ">s\nC\n"), &path).unwrap();
    assert_eq!(mapped.bytes().len(), text.len());
    noticed(&mapped);
    noticed(&held);
    fs::remove_dir_all(&folder).unwrap();
}

/// The cases have the numbers and the names that the proved table of refusals has.
#[test]
fn reasons_are_those_of_the_proved_table() {
    let table = Path::new(env!("CARGO_MANIFEST_DIR")).join("../../crates/refusal/specs/Numbers.antt");
    let table = fs::read_to_string(table).unwrap();
    let mut last = 0;
    for line in table.lines().filter_map(|line| line.strip_prefix("numbers_of ")?.split_once(" = told ")) {
        let (case, numbers) = (line.0.trim_matches(['(', ')']), line.1.split(' ').collect::<Vec<_>>());
        let case: Vec<&str> = case.strip_prefix("is.").unwrap().split(' ').collect();
        let number: u64 = numbers[0].parse().unwrap();
        let refusal = wakeluri::Refusal::new(wakeluri::Call::Check, number, 3, 4);
        let reason = refusal.reason();
        assert_eq!((reason.number(), reason.name()), (number, case[0]));
        let fields = case[1..].iter().map(|field| field.trim_end_matches('\''));
        let expected: Vec<(&str, u64)> = match number {
            2..=4 => vec![("record", 3), ("offset", 4)],
            _ => fields.zip([3, 4]).collect(),
        };
        assert_eq!(reason.places(), expected, "{}", reason.name());
        assert!(!Reason::words_of(number).contains("no words for"), "{number}");
        assert!(reason.to_string().starts_with(Reason::words_of(number)));
        last = last.max(number);
    }
    assert_eq!(last, Reason::LAST);
    assert!(Reason::words_of(last + 1).contains("no words for"));
    let unknown = wakeluri::Refusal::new(wakeluri::Call::Find, 99, 1, 2).reason();
    assert_eq!(unknown, Reason::Other { number: 99, first: 1, second: 2 });
}
