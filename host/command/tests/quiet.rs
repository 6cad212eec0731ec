//! `-q`: no warnings and no summaries; answers, refusals and errors stay.

mod common;

use common::Folder;

#[test]
fn quiet() {
    let folder = Folder::new("quiet");
    folder.write("f.fa", ">s\nAC GT\n>s\nA\n");
    for words in
        [&["index", "f.fa"][..], &["check", "f.fa"], &["wrap", "f.fa", "-o", "new.fa"], &["--json", "check", "f.fa"]]
    {
        folder.run(&[words, &["-q"]].concat()).gave("");
        folder.run(&[&["--quiet"], words].concat()).gave("");
    }
    folder.run(&["read", "-q", "f.fa", "s:1-3", "--unchecked"]).gave(">s:1-3\nAC \n");
    folder.run(&["index", "f.fa", "-o", "-", "-q"]).gave("s\t5\t3\t5\t6\ns\t1\t12\t1\t2\n");
    folder.run(&["read", "-q", "f.fa", "s:9"]).refused("refused 17 (length 5)", &["s has 5 bases"]);
    folder.run(&["index", "-q", "no.fa"]).failed(3, &["there is no such file"]);
}
