//! Work in parts, on all cores that may be used. Nothing is shared between two parts, so that the answers are the same however many cores
//! there are.

use std::sync::atomic::{AtomicUsize, Ordering};
use std::thread;
use wakeluri::Cores;

/// How many cores may be used.
pub fn count() -> usize {
    Cores::default().threads()
}

/// What a work gives for each part, by its number, in the order of the parts.
pub fn at_once<T: Send>(parts: usize, work: impl Fn(usize) -> T + Sync) -> Vec<T> {
    let cores = count().min(parts);
    if cores < 2 {
        return (0..parts).map(work).collect();
    }
    let next = AtomicUsize::new(0);
    let own = || {
        let numbers =
            std::iter::from_fn(|| Some(next.fetch_add(1, Ordering::Relaxed)).filter(|number| *number < parts));
        numbers.map(|number| (number, work(number))).collect::<Vec<_>>()
    };
    let mut given = thread::scope(|scope| {
        let others: Vec<_> = (1..cores).map(|_| scope.spawn(own)).collect();
        let mut given = own();
        for other in others {
            given.extend(other.join().unwrap_or_else(|panic| std::panic::resume_unwind(panic)));
        }
        given
    });
    given.sort_unstable_by_key(|(number, _)| *number);
    given.into_iter().map(|(_, given)| given).collect()
}

#[cfg(test)]
mod tests {
    use super::*;

    #[test]
    fn each_part_once_and_in_order() {
        for parts in [0, 1, 2, 3, 100] {
            assert!(at_once(parts, |part| part).into_iter().eq(0..parts), "{parts}");
        }
    }
}
