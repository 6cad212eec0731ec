//! What the tests of several threads make up: numbers by chance, and indexes of other programs.

/// Numbers by chance, the same at each run.
pub struct Chance(pub u64);

impl Chance {
    pub fn below(&mut self, n: usize) -> usize {
        self.0 ^= self.0 << 13;
        self.0 ^= self.0 >> 7;
        self.0 ^= self.0 << 17;
        (self.0 % n as u64) as usize
    }

    pub fn once_in(&mut self, n: usize) -> bool {
        self.below(n) == 0
    }
}

/// An index that another program might have written, or one that is wrong.
pub fn other_index(chance: &mut Chance, index: &[u8]) -> Vec<u8> {
    let mut lines: Vec<Vec<u8>> = index.split_inclusive(|byte| *byte == b'\n').map(<[u8]>::to_vec).collect();
    let at = chance.below(lines.len().max(1));
    match chance.below(8) {
        _ if lines.is_empty() => lines.push(b"s\t1\t3\t1\t2\n".to_vec()),
        0 => drop(lines.remove(at)),
        1 => lines.insert(at, lines[at].clone()),
        2 => lines.reverse(),
        3 => lines[at] = b"\n".to_vec(),
        4 => {
            let digit = lines[at].iter().rposition(u8::is_ascii_digit).unwrap_or(0);
            lines[at][digit] = b'0' + chance.below(10) as u8;
        }
        // a CR before each LF, which reads the same; and no LF at the end
        5 => lines.iter_mut().for_each(|line| drop(line.splice(line.len() - 1.., *b"\r\n"))),
        6 => drop(lines.last_mut().and_then(Vec::pop)),
        _ => (),
    }
    lines.concat()
}
