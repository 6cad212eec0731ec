//! Colour in messages, where they go to a terminal and nobody has said NO_COLOR (no-color.org).

use std::io::IsTerminal;

const BOLD: &str = "\x1b[1m";
const GREEN: &str = "\x1b[32m";
const RED: &str = "\x1b[31m";
const YELLOW: &str = "\x1b[33m";
const PLAIN: &str = "\x1b[0m";

/// Whether what goes there is shown in colour.
fn is_wanted(place: &impl IsTerminal) -> bool {
    let is_said = |word: &str| std::env::var_os(word).is_some_and(|said| !said.is_empty());
    place.is_terminal() && !is_said("NO_COLOR") && std::env::var_os("TERM").is_none_or(|term| term != "dumb")
}

/// What goes to standard error, its beginnings and the line for a program in colour where that is wanted. The words stay as they are.
pub fn of_messages(text: String) -> String {
    if is_wanted(&std::io::stderr()) { painted(&text) } else { text }
}

/// What goes to standard output of several files.
pub fn of_answers(text: String) -> String {
    if is_wanted(&std::io::stdout()) { painted(&text) } else { text }
}

fn painted(text: &str) -> String {
    text.split_inclusive('\n').map(painted_line).collect()
}

/// A line that begins as one of ours; any other is as it was.
fn painted_line(line: &str) -> String {
    let begins = [
        ("wakeluri: warning:", YELLOW),
        ("wakeluri:", RED),
        ("error:", RED),
        ("accepted:", GREEN),
        ("indexed:", GREEN),
        ("refused:", RED),
        ("failed:", RED),
    ];
    if let Some((start, colour)) = begins.into_iter().find(|(start, _)| line.starts_with(start)) {
        let rest = line.get(start.len()..).unwrap_or_default();
        return format!("{BOLD}{colour}{start}{PLAIN}{rest}");
    }
    if line.starts_with("refused ") {
        let (words, end) = line.strip_suffix('\n').map_or((line, ""), |words| (words, "\n"));
        return format!("{BOLD}{words}{PLAIN}{end}");
    }
    line.to_string()
}

#[cfg(test)]
mod tests {
    use super::*;

    #[test]
    fn only_beginnings_are_painted() {
        let told = "wakeluri: f.fa: s:9 was asked for\n  to read to the end: s:1-4\nrefused 17 (length 4)\n";
        let seen = painted(told);
        assert!(seen.starts_with("\x1b[1m\x1b[31mwakeluri:\x1b[0m f.fa"), "{seen:?}");
        assert!(seen.ends_with("\n\x1b[1mrefused 17 (length 4)\x1b[0m\n"), "{seen:?}");
        let words = |text: &str| text.replace(BOLD, "").replace(RED, "").replace(YELLOW, "").replace(PLAIN, "");
        assert_eq!(words(&seen), told);
        assert_eq!(painted("s\tACGT\n"), "s\tACGT\n");
    }
}
