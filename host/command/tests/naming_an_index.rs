//! Fault 14: an index is named in one way in every command, behind the file or with -i; both are taken everywhere.

mod common;

use common::Folder;

#[test]
fn fault_14_both_ways_in_every_command() {
    let folder = Folder::new("fault-14");
    folder.write("f.fa", ">s\nACGT\n>x.fai\nG\n");
    let index = "s\t4\t3\t4\t5\nx.fai\t1\t15\t1\t2\n";
    let told = "i.fai: 2 records, 5 bases\n";
    for words in [
        &["index", "f.fa", "i.fai"][..],
        &["index", "f.fa", "-i", "i.fai"],
        &["index", "f.fa", "--index", "i.fai"],
        &["index", "f.fa", "-o", "i.fai"],
    ] {
        folder.run(words).gave(told);
        assert_eq!(folder.read("i.fai"), index.as_bytes());
        std::fs::remove_file(folder.at("i.fai")).unwrap();
    }
    folder.write("i.fai", index);
    let accepted = "accepted: i.fai leads to every base of f.fa (2 records, 5 bases)\n";
    for words in
        [&["check", "f.fa", "i.fai"][..], &["check", "f.fa", "-i", "i.fai"], &["check", "--index", "i.fai", "f.fa"]]
    {
        folder.run(words).gave(accepted);
    }
    // a wrong index shows that it is the one that is used
    folder.write("wrong.fai", "s\t3\t3\t4\t5\n");
    for (command, answer) in [("read", ">s:1-2\nAC\n"), ("revcomp", ">s:1-2 reverse complement\nGT\n")] {
        for way in
            [&["f.fa", "i.fai", "s:1-2"][..], &["f.fa", "-i", "i.fai", "s:1-2"], &["f.fa", "s:1-2", "-i", "i.fai"]]
        {
            folder.run(&[&[command], way].concat()).gave(answer);
            let wrong: Vec<&str> = way.iter().map(|word| if *word == "i.fai" { "wrong.fai" } else { word }).collect();
            folder.run(&[&[command], &wrong[..]].concat()).refused("refused 22 (record 1)", &["wrong.fai, line 1"]);
        }
    }
    folder.write("sheet.txt", "s:1-2\n");
    folder.run(&["read", "f.fa", "i.fai", "-r", "sheet.txt"]).gave(">s:1-2\nAC\n");
    folder
        .run(&["wrap", "f.fa", "-o", "new.fa", "--index=other.fai"])
        .gave("new.fa: 2 records, 5 bases, in lines of 60\n");
    folder
        .run(&["check", "new.fa", "other.fai"])
        .gave("accepted: other.fai leads to every base of new.fa (2 records, 5 bases)\n");
    // a record of such a name is a record where there is no such file, and in braces
    folder.run(&["read", "f.fa", "x.fai"]).gave(">x.fai\nG\n");
    folder.write("x.fai", index);
    folder.run(&["read", "f.fa", "{x.fai}"]).gave(">{x.fai}\nG\n");
    folder.run(&["read", "f.fa", "x.fai"]).gave(">s\nACGT\n>x.fai\nG\n");
    folder.run(&["read", "f.fa", "-i", "i.fai", "x.fai"]).gave(">x.fai\nG\n");
    // nothing is written to a name that is no index's, and two are one too many
    folder.run(&["index", "f.fa", "g.txt"]).failed(2, &["to write the index to g.txt, say --output"]);
    folder.run(&["index", "f.fa", "i.fai", "-o", "i.fai"]).failed(2, &[]);
    folder.run(&["check", "f.fa", "i.fai", "-i", "i.fai"]).failed(2, &["two indexes are named"]);
}
