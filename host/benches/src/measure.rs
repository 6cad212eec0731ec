//! Times works in turns: a round runs each once, so that what else the machine does falls on all of them alike. What is told is the
//! time of the thread on its processor, the system's work for it included, and not the time that it waits for others to leave it.

use std::hint::black_box;
use std::time::Duration;

/// Something to time: it does the whole work once, and returns a number of its answer, so that nothing is left out.
pub type Work<'w> = Box<dyn FnMut() -> u64 + 'w>;

/// The time that this thread has run.
fn now() -> Duration {
    let mut time = libc::timespec { tv_sec: 0, tv_nsec: 0 };
    // SAFETY: the struct is lent to this call alone, which writes it.
    let answer = unsafe { libc::clock_gettime(libc::CLOCK_THREAD_CPUTIME_ID, &mut time) };
    assert_eq!(answer, 0, "the thread has a clock");
    Duration::new(time.tv_sec as u64, time.tv_nsec as u32)
}

/// A sample shorter than this is repeated until it isn't.
const LEAST: Duration = Duration::from_millis(2);

/// How long each work takes, in seconds: the median of so many rounds. A first run, which is not counted, brings code and data in; the
/// order changes with each round.
pub fn in_turns(rounds: usize, works: &mut [Work]) -> Vec<f64> {
    let mut repeats = vec![];
    for work in works.iter_mut() {
        black_box(work());
        let started = now();
        black_box(work());
        let once = (now() - started).max(Duration::from_nanos(1));
        repeats.push(LEAST.as_nanos().div_ceil(once.as_nanos()).max(1) as u32);
    }
    let mut samples = vec![vec![]; works.len()];
    for round in 0..rounds {
        for turn in 0..works.len() {
            let k = (turn + round) % works.len();
            let started = now();
            for _ in 0..repeats[k] {
                black_box(works[k]());
            }
            samples[k].push((now() - started).as_secs_f64() / f64::from(repeats[k]));
        }
    }
    samples.into_iter().map(median).collect()
}

/// The middle one of some numbers, or the mean of the middle two.
pub fn median(mut numbers: Vec<f64>) -> f64 {
    numbers.sort_by(f64::total_cmp);
    let n = numbers.len();
    if n % 2 == 1 { numbers[n / 2] } else { (numbers[n / 2 - 1] + numbers[n / 2]) / 2.0 }
}

/// The physical limits of a work on a buffer: a plain copy of it to a room that was written to before, and a plain sum of its words.
pub fn limits<'w>(buffer: &'w [u8], room: &'w mut [u8]) -> [Work<'w>; 2] {
    let length = buffer.len();
    let copy = move || {
        black_box(&mut room[..length]).copy_from_slice(black_box(buffer));
        length as u64
    };
    [Box::new(copy), Box::new(move || sum(black_box(buffer)))]
}

/// A fresh vector of so many bytes, as the library makes one for an answer, of which each page is written to once: what the system takes
/// to hand it out.
pub fn fresh_pages(bytes: usize) -> u64 {
    const PAGE: usize = 4096;
    let mut fresh = black_box(vec![0; bytes]);
    fresh.iter_mut().step_by(PAGE).for_each(|byte: &mut u8| *byte = 1);
    black_box(&fresh).len() as u64
}

/// The sum of a buffer's words of eight bytes, which wraps.
pub fn sum(buffer: &[u8]) -> u64 {
    let words = buffer.chunks_exact(8);
    let rest = words.remainder().iter().map(|byte| u64::from(*byte)).sum::<u64>();
    words.map(|word| u64::from_le_bytes(word.try_into().expect("eight bytes"))).fold(rest, u64::wrapping_add)
}

#[cfg(test)]
mod tests {
    use super::*;

    #[test]
    fn the_median_is_in_the_middle() {
        assert_eq!(median(vec![3.0, 1.0, 2.0]), 2.0);
        assert_eq!(median(vec![4.0, 1.0, 2.0, 3.0]), 2.5);
    }

    #[test]
    fn every_work_is_run_and_the_longer_takes_longer() {
        let (mut short, mut long) = (0, 0);
        let busy = |count: &mut u64, millis| {
            *count += 1;
            let started = now();
            while now() - started < Duration::from_millis(millis) {}
            *count
        };
        let mut works: [Work; 2] = [Box::new(|| busy(&mut short, 3)), Box::new(|| busy(&mut long, 30))];
        let taken = in_turns(3, &mut works);
        drop(works);
        assert_eq!((short, long), (5, 5));
        assert!(taken[0] < taken[1], "{taken:?}");
    }

    #[test]
    fn the_sum_takes_every_byte() {
        let bytes: Vec<u8> = (1..=19).collect();
        let mut more = bytes.clone();
        for place in 0..bytes.len() {
            more[place] += 1;
            assert_ne!(sum(&bytes), sum(&more));
            more[place] -= 1;
        }
    }
}
