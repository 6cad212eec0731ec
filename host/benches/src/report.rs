//! What was found, as Markdown.

use crate::cores::AllCored;
use crate::fed::AllFed;
use crate::levels::{Levelled, levels};
use std::fmt;

/// A work of both sides. Times are in seconds.
pub struct Compared {
    pub work: String,
    pub size: String,
    /// How many times as fast as the original it is to be.
    pub goal: f64,
    /// How many bytes it goes through.
    pub bytes: usize,
    pub ours: f64,
    /// The original over the crate memchr.
    pub by_crate: f64,
    /// The original over the C library's memchr, where that is another.
    pub by_c: Option<f64>,
    /// A plain copy of the same bytes, and a plain sum, where they are a limit.
    pub limits: Option<[f64; 2]>,
}

/// The checker on a file, beside the indexer.
pub struct Checked {
    pub file: String,
    pub bytes: usize,
    pub index: f64,
    pub check: f64,
}

/// A FASTQ file, beside a FASTA file of as many bytes in lines of 60.
pub struct Fastq {
    pub file: String,
    pub bytes: usize,
    /// Indexing into a lent table, and into a fresh one.
    pub into: f64,
    pub index: f64,
    pub check: f64,
    /// Writing its index text.
    pub write: f64,
    /// Indexing the FASTA file, a byte.
    pub fasta: f64,
    /// So much of the speed of FASTA indexing is the goal; none for short reads.
    pub goal: Option<f64>,
}

impl Fastq {
    /// Its speed, as a part of that of FASTA indexing a byte.
    fn part(&self) -> f64 {
        self.fasta / (self.into / self.bytes as f64)
    }
}

/// Longer and longer files.
pub struct Grown {
    pub bytes: usize,
    pub index: f64,
    pub check: f64,
    pub original: f64,
    pub sum: f64,
}

/// What a fresh vector costs a work, beside a room that is lent.
pub struct HandedOut {
    pub work: String,
    pub bytes: usize,
    /// A fresh vector of that size, each page written to once, and no work.
    pub pages: f64,
    /// The work into a lent room.
    pub into: f64,
    /// The work into a fresh vector.
    pub fresh: f64,
}

/// More and more names, looked up in one walk over more and more records.
pub struct LookedUp {
    pub records: usize,
    pub regions: usize,
    pub seconds: f64,
}

/// Look-ups of names by the proved walk and by the map, with its building and without.
pub struct Mapped {
    pub names: usize,
    pub look_ups: usize,
    pub walk: f64,
    pub built: f64,
    pub used: f64,
}

/// Answers to one exercise scored, beside a plain comparison of the same bytes.
pub struct Scored {
    pub work: String,
    pub answers: usize,
    pub bases: usize,
    pub ours: f64,
    pub plain: f64,
}

/// All that was found.
#[derive(Default)]
pub struct Report {
    pub memchrs: [f64; 2],
    pub compared: Vec<Compared>,
    pub checked: Vec<Checked>,
    pub fastq: Vec<Fastq>,
    pub grown: Vec<Grown>,
    pub handed_out: Vec<HandedOut>,
    pub looked_up: Vec<LookedUp>,
    pub mapped: Vec<Mapped>,
    pub levelled: Vec<Levelled>,
    pub scored: Vec<Scored>,
    pub sheeted: Vec<Sheeted>,
    pub fed: AllFed,
    pub cored: AllCored,
}

/// A goal, and what was found.
pub struct Goal {
    pub of: String,
    pub goal: f64,
    pub found: f64,
}

impl Goal {
    pub fn met(&self) -> bool {
        self.found >= self.goal
    }
}

/// Regions read in one call, and by a call for each: all rows are known.
pub struct Sheeted {
    pub regions: usize,
    pub bases: usize,
    pub singles: f64,
    pub sheet: f64,
}

/// The goal of a sheet: so many times as fast as a call for each of its regions.
const SHEET_GOAL: f64 = 1.0;

/// The checker's goal: so much of the speed of indexing.
const CHECK_GOAL: f64 = 0.8;

/// The goal of the map of names: with its building, so many times as fast as the walks.
const MAP_GOAL: f64 = 10.0;

/// The goal of scoring 100 answers of 1,000 bases, in seconds.
const SCORE_GOAL: f64 = 0.002;

/// A number with commas.
pub fn number(n: usize) -> String {
    let digits = n.to_string();
    let mut told = String::new();
    for (k, digit) in digits.chars().enumerate() {
        if k > 0 && (digits.len() - k) % 3 == 0 {
            told.push(',');
        }
        told.push(digit);
    }
    told
}

/// So many of a thing.
pub fn counted(n: usize, thing: &str) -> String {
    format!("{} {thing}{}", number(n), if n == 1 { "" } else { "s" })
}

fn gigabytes(bytes: usize, seconds: f64) -> String {
    format!("{:.2}", bytes as f64 / seconds / 1e9)
}

fn time(seconds: f64) -> String {
    match seconds {
        s if s >= 1.0 => format!("{s:.2} s"),
        s if s >= 1e-3 => format!("{:.2} ms", s * 1e3),
        s => format!("{:.2} µs", s * 1e6),
    }
}

impl Compared {
    /// The faster original.
    fn original(&self) -> f64 {
        self.by_c.unwrap_or(self.by_crate).min(self.by_crate)
    }

    /// How many times as fast as the faster original.
    pub fn ratio(&self) -> f64 {
        self.original() / self.ours
    }

    fn row(&self, f: &mut fmt::Formatter) -> fmt::Result {
        let Self { work, size, goal, bytes, ours, by_crate, by_c, limits } = self;
        let ratio = self.ratio();
        let verdict = if ratio >= *goal { "reached" } else { "**not reached**" };
        let by_c = by_c.map_or("the same".to_string(), time);
        write!(
            f,
            "| {work} | {size} | {goal} | {ratio:.2} | {verdict} | {} | {} | {by_c} ",
            time(*ours),
            time(*by_crate)
        )?;
        match limits {
            Some(limits) => {
                let [copy, sum] = limits.map(|limit| gigabytes(*bytes, limit));
                writeln!(f, "| {} | {copy} | {sum} |", gigabytes(*bytes, *ours))
            }
            None => writeln!(f, "| | | |"),
        }
    }
}

impl Report {
    /// Every goal of this run, in the order of the tables.
    pub fn goals(&self) -> Vec<Goal> {
        let compared = self.compared.iter().map(|c| Goal {
            of: format!("{}, {}: times the original", c.work, c.size),
            goal: c.goal,
            found: c.ratio(),
        });
        let checked = self.checked.iter().map(|c| Goal {
            of: format!("check, {}: part of the speed of indexing", c.file),
            goal: CHECK_GOAL,
            found: c.index / c.check,
        });
        let wrapped = self.fastq.iter().filter_map(|q| {
            let of = format!("index, FASTQ, {}: part of the speed of FASTA indexing", q.file);
            q.goal.map(|goal| Goal { of, goal, found: q.part() })
        });
        let fastq = self.fastq.iter().map(|q| Goal {
            of: format!("check, FASTQ, {}: part of the speed of indexing", q.file),
            goal: CHECK_GOAL,
            found: q.into / q.check,
        });
        let mapped = self.mapped.iter().map(|m| Goal {
            of: format!("{} look-ups among {} names: times the walks", number(m.look_ups), number(m.names)),
            goal: MAP_GOAL,
            found: m.walk / m.built,
        });
        let sheeted = self.sheeted.iter().map(|s| Goal {
            of: format!("a sheet of {} regions of {} bases: times a call for each", s.regions, s.bases),
            goal: SHEET_GOAL,
            found: s.singles / s.sheet,
        });
        let scored = self.scored.iter().map(|s| Goal {
            of: format!("{}: part of the time that is allowed", s.work),
            goal: 1.0,
            found: SCORE_GOAL / s.ours,
        });
        let compared = compared.chain(checked).chain(wrapped).chain(fastq).chain(mapped);
        compared.chain(sheeted).chain(scored).chain(self.fed.goals()).chain(self.cored.goals()).collect()
    }

    /// The same for machines: each work's seconds, and each goal, as one JSON object.
    pub fn json(&self) -> String {
        let text = |text: &str| format!("\"{}\"", text.replace('\\', "\\\\").replace('"', "\\\""));
        let goals = self.goals();
        let goals = goals.iter().map(|g| {
            format!("{{\"of\":{},\"goal\":{},\"found\":{:.4},\"met\":{}}}", text(&g.of), g.goal, g.found, g.met())
        });
        let works = self.compared.iter().map(|c| {
            let (work, size, original) = (text(&c.work), text(&c.size), c.original());
            format!(
                "{{\"work\":{work},\"size\":{size},\"bytes\":{},\"seconds\":{:e},\"original\":{original:e}}}",
                c.bytes, c.ours
            )
        });
        let levelled = self.levelled.iter().map(|l| {
            let seconds: Vec<String> = l.seconds.iter().map(|seconds| format!("{seconds:e}")).collect();
            format!("{{\"work\":{},\"bytes\":{},\"seconds\":[{}]}}", text(&l.work), l.bytes, seconds.join(","))
        });
        let list = |items: Vec<String>| items.join(",");
        format!(
            "{{\"goals\":[{}],\"works\":[{}],\"levels\":{:?},\"levelled\":[{}]}}\n",
            list(goals.collect()),
            list(works.collect()),
            levels(),
            list(levelled.collect())
        )
    }

    /// Which goals are met and which are missed, the missed ones first.
    fn summary(&self, f: &mut fmt::Formatter) -> fmt::Result {
        let mut goals = self.goals();
        if goals.is_empty() {
            return Ok(());
        }
        goals.sort_by_key(Goal::met);
        let met = goals.iter().filter(|goal| goal.met()).count();
        writeln!(f, "\n| goals: {met} met, {} missed | goal | found | |", goals.len() - met)?;
        writeln!(f, "|---|---|---|---|")?;
        for goal in &goals {
            let verdict = if goal.met() { "met" } else { "**missed**" };
            writeln!(f, "| {} | {} | {:.2} | {verdict} |", goal.of, goal.goal, goal.found)?;
        }
        Ok(())
    }
}

impl fmt::Display for Report {
    fn fmt(&self, f: &mut fmt::Formatter) -> fmt::Result {
        let [by_crate, by_c] = self.memchrs.map(|speed| speed / 1e9);
        writeln!(f, "memchr over a megabyte: the crate's {by_crate:.1} GB/s, the C library's {by_c:.1} GB/s.")?;
        writeln!(
            f,
            "Every page of the buffers, and of rooms that are lent, was written to before anything was timed.\n"
        )?;
        if !self.compared.is_empty() {
            writeln!(
                f,
                "| work | size | goal | times as fast | | ours | original, memchr of the crate | of the C library | GB/s | a copy | a sum |"
            )?;
            writeln!(f, "|---|---|---|---|---|---|---|---|---|---|---|")?;
            self.compared.iter().try_for_each(|compared| compared.row(f))?;
        }
        if !self.checked.is_empty() {
            writeln!(f, "\n| checking, as a part of the speed of indexing | goal | | | index GB/s | check GB/s |")?;
            writeln!(f, "|---|---|---|---|---|---|")?;
        }
        for Checked { file, bytes, index, check } in &self.checked {
            let part = index / check;
            let verdict = if part >= CHECK_GOAL { "reached" } else { "**not reached**" };
            let (index, check) = (gigabytes(*bytes, *index), gigabytes(*bytes, *check));
            writeln!(f, "| {file} | {CHECK_GOAL} | {part:.2} | {verdict} | {index} | {check} |")?;
        }
        if !self.fastq.is_empty() {
            writeln!(
                f,
                "\n| FASTQ | index GB/s, into a lent table | into a fresh one | part of FASTA indexing | goal | check GB/s | part of indexing | goal | writing its index |"
            )?;
            writeln!(f, "|---|---|---|---|---|---|---|---|---|")?;
        }
        for fastq in &self.fastq {
            let [into, index, check] = [fastq.into, fastq.index, fastq.check].map(|work| gigabytes(fastq.bytes, work));
            let (part, goal) = (fastq.part(), fastq.goal.map_or(String::new(), |goal| goal.to_string()));
            let (checked, written) = (fastq.into / fastq.check, time(fastq.write));
            writeln!(
                f,
                "| {} | {into} | {index} | {part:.2} | {goal} | {check} | {checked:.2} | {CHECK_GOAL} | {written} |",
                fastq.file
            )?;
        }
        if !self.handed_out.is_empty() {
            writeln!(
                f,
                "\n| what a fresh vector costs | bytes | its pages alone | into a lent room | into a fresh vector |"
            )?;
            writeln!(f, "|---|---|---|---|---|")?;
        }
        for HandedOut { work, bytes, pages, into, fresh } in &self.handed_out {
            let [pages, into, fresh] = [*pages, *into, *fresh].map(time);
            writeln!(f, "| {work} | {} | {pages} | {into} | {fresh} |", number(*bytes))?;
        }
        if !self.mapped.is_empty() {
            writeln!(
                f,
                "\n| look-ups | among names | goal | times as fast as the walk | | the walks | the map, built and used | used alone |"
            )?;
            writeln!(f, "|---|---|---|---|---|---|---|---|")?;
        }
        for Mapped { names, look_ups, walk, built, used } in &self.mapped {
            let ratio = walk / built;
            let verdict = if ratio >= MAP_GOAL { "reached" } else { "**not reached**" };
            let ([look_ups, names], [walk, built, used]) =
                ([*look_ups, *names].map(number), [*walk, *built, *used].map(time));
            writeln!(f, "| {look_ups} | {names} | {MAP_GOAL} | {ratio:.1} | {verdict} | {walk} | {built} | {used} |")?;
        }
        if !self.sheeted.is_empty() {
            writeln!(
                f,
                "\n| regions | bases of each | goal | times as fast as a call for each | | a call for each | a sheet |"
            )?;
            writeln!(f, "|---|---|---|---|---|---|---|")?;
        }
        for Sheeted { regions, bases, singles, sheet } in &self.sheeted {
            let ratio = singles / sheet;
            let verdict = if ratio >= SHEET_GOAL { "reached" } else { "**not reached**" };
            let [singles, sheet] = [*singles, *sheet].map(time);
            writeln!(f, "| {regions} | {bases} | {SHEET_GOAL} | {ratio:.2} | {verdict} | {singles} | {sheet} |")?;
        }
        if !self.scored.is_empty() {
            writeln!(f, "\n| scored | answers | bases | goal | time | | a plain comparison | times as long |")?;
            writeln!(f, "|---|---|---|---|---|---|---|---|")?;
        }
        for Scored { work, answers, bases, ours, plain } in &self.scored {
            let verdict = if *ours <= SCORE_GOAL { "reached" } else { "**not reached**" };
            let (ratio, goal, ours, plain) = (ours / plain, time(SCORE_GOAL), time(*ours), time(*plain));
            let (answers, bases) = (number(*answers), number(*bases));
            writeln!(f, "| {work} | {answers} | {bases} | {goal} | {ours} | {verdict} | {plain} | {ratio:.1} |")?;
        }
        if !self.looked_up.is_empty() {
            writeln!(f, "\n| records | regions of one base | time | ns for a record or region |")?;
            writeln!(f, "|---|---|---|---|")?;
        }
        for LookedUp { records, regions, seconds } in &self.looked_up {
            let each = seconds * 1e9 / (records + regions) as f64;
            writeln!(f, "| {} | {} | {} | {each:.1} |", number(*records), number(*regions), time(*seconds))?;
        }
        if !self.grown.is_empty() {
            writeln!(
                f,
                "\n| lines of 60, bytes | index, ns a byte | check | the original's index | a sum | times as fast |"
            )?;
            writeln!(f, "|---|---|---|---|---|---|")?;
        }
        for Grown { bytes, index, check, original, sum } in &self.grown {
            let each = |seconds: f64| format!("{:.3}", seconds * 1e9 / *bytes as f64);
            let (bytes, ratio) = (number(*bytes), original / index);
            let [index, check, original, sum] = [*index, *check, *original, *sum].map(each);
            writeln!(f, "| {bytes} | {index} | {check} | {original} | {sum} | {ratio:.2} |")?;
        }
        if !self.levelled.is_empty() {
            let levels = levels();
            let columns = |cell: fn(&u64) -> String| levels.iter().map(cell).collect::<Vec<_>>().join(" | ");
            writeln!(f, "\n| times as fast as level 1 of x86-64 | {} |", columns(|level| format!("level {level}")))?;
            writeln!(f, "|---|{}|", columns(|_| "---".to_string()).replace(' ', ""))?;
        }
        for Levelled { work, bytes, seconds } in &self.levelled {
            let cell = |s: &f64| format!("{:.2} ({} GB/s)", seconds[0] / s, gigabytes(*bytes, *s));
            writeln!(f, "| {work} | {} |", seconds.iter().map(cell).collect::<Vec<_>>().join(" | "))?;
        }
        write!(f, "{}", self.fed)?;
        write!(f, "{}", self.cored)?;
        self.summary(f)
    }
}

#[cfg(test)]
mod tests {
    use super::*;

    #[test]
    fn numbers_have_commas() {
        assert_eq!([0, 999, 1000, 64_000_000].map(number), ["0", "999", "1,000", "64,000,000"]);
        assert_eq!([counted(1, "base"), counted(2, "base")], ["1 base", "2 bases"]);
    }

    #[test]
    fn the_faster_original_is_compared_with() {
        let mut found = Compared {
            work: String::new(),
            size: String::new(),
            goal: 2.0,
            bytes: 1,
            ours: 1.0,
            by_crate: 4.0,
            by_c: Some(3.0),
            limits: None,
        };
        assert_eq!(found.ratio(), 3.0);
        found.by_crate = 2.0;
        assert_eq!(found.ratio(), 2.0);
        found.by_c = None;
        assert_eq!(found.ratio(), 2.0);
    }
}
