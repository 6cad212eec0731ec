//! `--json`: an object to a line for each answer; and names of any bytes.

mod common;

use common::Folder;

#[test]
fn answers() {
    let folder = Folder::new("json-answers");
    folder.write("f.fa", b">s\xff\nACGT\nAC\n>\"q\\\nGG\n");
    folder.run(&["--json", "index", "f.fa"]).gave(concat!(
        "{\"file\":\"f.fa\",\"index\":\"f.fa.fai\",\"records\":2,\"bases\":8,",
        "\"records_with_blank_lines\":0,\"records_without_bases\":0}\n",
    ));
    folder.write("sheet.txt", b"s\xff:4-5\n\"q\\\n");
    folder.run(&["--json", "read", "f.fa", "-r", "sheet.txt"]).gave(concat!(
        "{\"region_hex\":\"73ff3a342d35\",\"name_hex\":\"73ff\",\"start\":4,\"end\":5,\"length\":6,\"bases\":\"TA\"}\n",
        "{\"region\":\"\\\"q\\\\\",\"name\":\"\\\"q\\\\\",\"start\":1,\"end\":2,\"length\":2,\"bases\":\"GG\"}\n",
    ));
    folder.run(&["revcomp", "--json", "f.fa", "\"q\\:1-1"]).gave(concat!(
        "{\"region\":\"\\\"q\\\\:1-1\",\"name\":\"\\\"q\\\\\",\"start\":1,\"end\":1,\"length\":2,",
        "\"turned\":\"reverse complement\",\"bases\":\"C\"}\n",
    ));
    folder.piped(&["--json", "complement"], b"ACGT\n", 1).gave("{\"line\":1,\"bases\":\"TGCA\"}\n");
}

#[test]
fn refusals_and_errors() {
    let folder = Folder::new("json-refusals");
    folder.write("f.fa", ">s\nACGT\n\nAC\nA\n");
    let one = |words: &[&str], status: i32, starts: &str| {
        let answer = folder.run(words);
        answer.failed(status, &[]);
        assert!(answer.err.starts_with(starts), "{}", answer.err);
        assert_eq!((answer.err.lines().count(), answer.err.ends_with("}\n")), (1, true));
    };
    one(
        &["--json", "index", "f.fa"],
        1,
        "{\"status\":1,\"file\":\"f.fa\",\"refused\":42,\"first\":12,\"second\":7,\"line\":5,\"byte\":12,\"words\":\"",
    );
    one(
        &["--json", "index", "--strict", "f.fa"],
        1,
        "{\"status\":1,\"file\":\"f.fa\",\"refused\":6,\"first\":0,\"second\":4,\"line\":3,\"byte\":8,\"words\":\"",
    );
    one(&["--json", "index", "no.fa"], 3, "{\"status\":3,\"words\":\"no.fa: there is no such file\"");
    one(&["--json", "check", "-", "-"], 2, "{\"status\":2,\"words\":\"");
    folder.write("f.fa", ">s\nACGT\n");
    folder.write("sheet.txt", "s:1\ns:5\n");
    one(
        &["--json", "read", "f.fa", "-r", "sheet.txt"],
        1,
        "{\"status\":1,\"file\":\"f.fa\",\"region\":\"s:5\",\"sheet\":\"sheet.txt\",\"sheet_line\":2,\"refused\":17,\"first\":4,",
    );
}

#[test]
fn a_sheet_on_standard_input() {
    let folder = Folder::new("sheet-in");
    folder.write("f.fa", ">s\nACGT\n>t\nGG\n");
    folder.piped(&["read", "f.fa", "t", "-r", "-"], b"s:2-3\r\n\r\n\ts:4 ", 2).gave(">t\nGG\n>s:2-3\nCG\n>s:4\nT\n");
}
