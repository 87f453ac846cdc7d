//! What a search remembers of the configurations that it has been in. A configuration is the set of
//! the operations placed so far and the contents of the queue.

use std::collections::{HashMap, HashSet};
use std::hash::{BuildHasherDefault, Hasher};

use crate::placed::Placed;
use crate::queue::Queue;

pub trait Memory {
    /// Whether the configuration is to be entered: not if it is known that the search has been there.
    /// If so, it counts as entered.
    fn enter(&mut self, placed: &Placed, queue: &Queue) -> bool;

    /// How many configurations were entered.
    fn entered(&self) -> usize;
}

/// Nothing is remembered, so that configurations are entered again and again.
#[derive(Default)]
pub struct NoCache {
    entered: usize,
}

impl Memory for NoCache {
    fn enter(&mut self, _: &Placed, _: &Queue) -> bool {
        self.entered += 1;
        true
    }

    fn entered(&self) -> usize {
        self.entered
    }
}

/// Lowe's cache: all configurations that were entered. They are compared in full; the hash only says
/// where to look.
#[derive(Default)]
pub struct Cache {
    /// The latest configuration of each hash.
    latest: HashMap<u64, u32, BuildHasherDefault<AsGiven>>,
    kept: Kept,
}

impl Memory for Cache {
    fn enter(&mut self, placed: &Placed, queue: &Queue) -> bool {
        let latest = self.latest.entry(placed.hash() ^ queue.hash());
        let latest = latest.or_insert(NONE);
        let is_new = !self.kept.has(*latest, placed, queue);
        if is_new {
            *latest = self.kept.push(placed, queue, *latest);
        }
        is_new
    }

    fn entered(&self) -> usize {
        self.kept.configurations.len()
    }
}

impl Cache {
    /// How many different sets of placed operations the configurations have.
    pub fn sets(&self) -> usize {
        let sets = (0..self.entered()).map(|number| self.kept.at(number).0);
        sets.collect::<HashSet<_>>().len()
    }
}

/// The configurations with their words and values, one behind the other.
#[derive(Default)]
struct Kept {
    configurations: Vec<Configuration>,
    words: Vec<u64>,
    values: Vec<u32>,
}

struct Configuration {
    /// How many words of the set are full before those that are kept.
    full: u32,
    /// Where its words and its values end. They begin where those of the one before it end.
    words_end: u32,
    values_end: u32,
    /// The configuration before it that has the same hash, or `NONE`.
    earlier: u32,
}

const NONE: u32 = u32::MAX;

impl Kept {
    /// Whether the configuration is the one with this number or one before it of the same hash.
    fn has(&self, latest: u32, placed: &Placed, queue: &Queue) -> bool {
        let mut number = latest;
        while number != NONE {
            if self.is_at(number as usize, placed, queue) {
                return true;
            }
            number = self.configurations[number as usize].earlier;
        }
        false
    }

    fn is_at(&self, number: usize, placed: &Placed, queue: &Queue) -> bool {
        let (set, contents) = self.at(number);
        set == placed.window() && contents == queue.contents()
    }

    /// The set of the placed operations, as a window, and the contents of the queue.
    #[inline]
    fn at(&self, number: usize) -> ((usize, &[u64]), &[u32]) {
        let (words_start, values_start) = match number.checked_sub(1) {
            Some(before) => self.ends(before),
            None => (0, 0),
        };
        let (words_end, values_end) = self.ends(number);
        let full = self.configurations[number].full as usize;
        (
            (full, &self.words[words_start..words_end]),
            &self.values[values_start..values_end],
        )
    }

    fn ends(&self, number: usize) -> (usize, usize) {
        let configuration = &self.configurations[number];
        let words_end = configuration.words_end as usize;
        (words_end, configuration.values_end as usize)
    }

    /// Keeps the configuration; its number.
    fn push(&mut self, placed: &Placed, queue: &Queue, earlier: u32) -> u32 {
        let (full, words) = placed.window();
        self.words.extend(words);
        self.values.extend(queue.contents());
        let number = self.configurations.len();
        self.configurations.push(Configuration {
            full: full as u32,
            words_end: number_of(&self.words),
            values_end: number_of(&self.values),
            earlier,
        });
        number as u32
    }
}

/// How many items there are.
fn number_of<T>(items: &[T]) -> u32 {
    u32::try_from(items.len()).expect("a cache of fewer than 2^32 items")
}

/// Takes a number that is a hash already for its own hash.
#[derive(Default)]
struct AsGiven(u64);

impl Hasher for AsGiven {
    fn finish(&self) -> u64 {
        self.0
    }

    fn write(&mut self, _: &[u8]) {
        unreachable!("only numbers are hashed");
    }

    fn write_u64(&mut self, number: u64) {
        self.0 = number;
    }
}

#[cfg(test)]
mod tests {
    use super::{Cache, Kept, Memory, NoCache, NONE};
    use crate::placed::Placed;
    use crate::queue::Queue;
    use yauponroof_tests::model::history::Action;

    const OPERATIONS: usize = 130;

    fn placed(numbers: impl IntoIterator<Item = u16>) -> Placed {
        let mut placed = Placed::none_of(OPERATIONS);
        numbers.into_iter().for_each(|number| placed.insert(number));
        placed
    }

    fn queue(values: &[u32]) -> Queue {
        let mut queue = Queue::new(OPERATIONS);
        assert!(values.iter().all(|&value| queue.run(Action::Add(value))));
        queue
    }

    fn configurations() -> [(Placed, Queue); 4] {
        [
            (placed([]), queue(&[])),
            (placed([0, 1]), queue(&[5, 6])),
            (placed([0, 1]), queue(&[6, 5])),
            (placed([0, 2]), queue(&[5, 6])),
        ]
    }

    #[test]
    fn a_configuration_is_new_once() {
        let mut cache = Cache::default();
        for is_new in [true, false] {
            for (placed, queue) in configurations() {
                assert_eq!(cache.enter(&placed, &queue), is_new);
            }
        }
        assert_eq!((cache.entered(), cache.sets()), (4, 3));
    }

    #[test]
    fn without_a_cache_a_configuration_is_always_new() {
        let mut nothing = NoCache::default();
        for (placed, queue) in configurations().iter().chain(&configurations()) {
            assert!(nothing.enter(placed, queue));
        }
        assert_eq!(nothing.entered(), 8);
    }

    /// As if they had the same hash, which chance does not give.
    #[test]
    fn configurations_of_one_hash_are_told_apart() {
        let mut kept = Kept::default();
        let one = kept.push(&placed(0..64), &queue(&[5, 6]), NONE);
        let other = kept.push(&placed([3, 128]), &queue(&[7]), one);
        assert!(kept.has(other, &placed(0..64), &queue(&[5, 6])));
        assert!(kept.has(other, &placed([3, 128]), &queue(&[7])));
        assert!(!kept.has(one, &placed([3, 128]), &queue(&[7])));
        for (placed, queue) in [
            (placed(0..64), queue(&[6, 5])),
            (placed(0..64), queue(&[5])),
            (placed(0..63), queue(&[5, 6])),
            (placed([]), queue(&[5, 6])),
            (placed(0..128), queue(&[5, 6])),
            (placed([3, 127]), queue(&[7])),
        ] {
            assert!(!kept.has(other, &placed, &queue));
        }
    }
}
