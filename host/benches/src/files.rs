//! The files that are timed: made up, the same each time, and every page of them written to.

/// Numbers that look random, the same for the same seed.
pub struct Numbers(u64);

impl Numbers {
    /// From a seed.
    pub fn new(seed: u64) -> Self {
        Self(seed.wrapping_mul(0x9e37_79b9_7f4a_7c15) | 1)
    }

    /// A number below another.
    pub fn below(&mut self, n: u64) -> u64 {
        self.0 ^= self.0 << 13;
        self.0 ^= self.0 >> 7;
        self.0 ^= self.0 << 17;
        ((u128::from(self.0) * u128::from(n)) >> 64) as u64
    }

    /// So many letters, each of them as likely.
    pub fn letters(&mut self, letters: &[u8], n: usize) -> Vec<u8> {
        (0..n).map(|_| letters[self.below(letters.len() as u64) as usize]).collect()
    }
}

/// How the lines of a file are made.
#[derive(Clone, Copy)]
pub struct Lines {
    /// Bases in a line.
    pub bases: usize,
    /// What ends it.
    pub end: &'static [u8],
}

impl Lines {
    /// Adds a record of so many bases.
    fn add(self, file: &mut Vec<u8>, name: &str, bases: &[u8]) {
        file.extend_from_slice(b">");
        file.extend_from_slice(name.as_bytes());
        file.extend_from_slice(self.end);
        for line in bases.chunks(self.bases) {
            file.extend_from_slice(line);
            file.extend_from_slice(self.end);
        }
    }

    /// A file of about so many bytes, in four records of the same length, as of a small genome.
    pub fn genome(self, bytes: usize) -> Vec<u8> {
        let mut numbers = Numbers::new(1);
        let lines = bytes / (self.bases + self.end.len()) / 4;
        let bases = lines * self.bases - self.bases / 3;
        let mut file = Vec::with_capacity(bytes + 4096);
        for record in 1..=4 {
            let bases = numbers.letters(b"ACGT", bases);
            self.add(&mut file, &format!("chr{record}"), &bases);
        }
        file
    }

    /// A file of so many records of about so many bytes each, as of a genome's chromosomes.
    pub fn chromosomes(self, records: usize, bytes: usize, numbers: &mut Numbers) -> Vec<u8> {
        let bases = bytes / (self.bases + self.end.len()) * self.bases - self.bases / 3;
        let mut file = Vec::with_capacity(records * (bytes + 64));
        for record in 1..=records {
            let bases = numbers.letters(b"ACGT", bases);
            self.add(&mut file, &format!("chr{record}"), &bases);
        }
        file
    }

    /// A file of so many records, of one to three lines each.
    pub fn records(self, records: usize) -> Vec<u8> {
        let mut numbers = Numbers::new(2);
        let mut file = vec![];
        for record in 0..records {
            let lines = numbers.below(3) as usize;
            let last = 1 + numbers.below(self.bases as u64) as usize;
            let bases = numbers.letters(b"ACGT", lines * self.bases + last);
            self.add(&mut file, &format!("contig{record:06} made up"), &bases);
        }
        file
    }
}

/// What qualities are made of; '@' and '+' stand among them.
const QUALITIES: &[u8] = b"FFFFFFFF:,#@+I";

/// A FASTQ file of so many reads of 150 bases, four lines each, as a sequencer writes them.
pub fn short_reads(reads: usize) -> Vec<u8> {
    let mut numbers = Numbers::new(8);
    let mut file = vec![];
    for read in 0..reads {
        let (bases, qualities) = (numbers.letters(b"ACGT", 150), numbers.letters(QUALITIES, 150));
        let name = format!("@A00123:45:HXXXXDSXX:1:1101:{}:{read} 1:N:0:ACGT\n", 1000 + read % 31_000);
        file.extend([name.as_bytes(), &bases, b"\n+\n", &qualities, b"\n"].concat());
    }
    file
}

/// A FASTQ file of about so many bytes, of reads of some 20,000 bases in lines of 60.
pub fn long_reads(bytes: usize) -> Vec<u8> {
    let mut numbers = Numbers::new(9);
    let mut file = vec![];
    while file.len() < bytes {
        let length = 10_000 + numbers.below(20_000) as usize;
        file.extend(format!("@read{} made up\n", file.len()).as_bytes());
        for letters in [&b"ACGT"[..], QUALITIES] {
            let bytes = numbers.letters(letters, length);
            bytes.chunks(60).for_each(|line| file.extend([line, b"\n"].concat()));
            file.extend_from_slice(if letters == QUALITIES { b"" } else { b"+\n" });
        }
    }
    file
}

/// A file of one line of so many bases.
pub fn one_line(bases: usize) -> Vec<u8> {
    let bases = Numbers::new(3).letters(b"ACGT", bases);
    [b">long\n", &bases[..], b"\n"].concat()
}

/// A room of so many bytes, each of them written to.
pub fn room(bytes: usize) -> Vec<u8> {
    let mut room = vec![1; bytes];
    std::hint::black_box(&mut room[..]).fill(0);
    room
}
