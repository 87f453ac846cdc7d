//! A queue that takes back what was done to it, and whose hash costs nothing to keep: running an
//! operation, taking it back and hashing the contents take constant time each.

use yauponroof_tests::model::history::Action;
use yauponroof_tests::model::record::Removed;

/// The values that were added, of which the first `removed` are gone again.
pub struct Queue {
    added: Vec<u32>,
    removed: usize,
    /// Of each pending remove that was run, whether it took a value.
    took: Vec<bool>,
    /// At index i the hash of the first i values that were added.
    hashes: Vec<u64>,
    /// At index i the factor to the power of i.
    powers: Vec<u64>,
}

/// The hash of a list of values is a polynomial in this factor, which is odd, so that no power of
/// it is zero.
const FACTOR: u64 = 0xD134_2543_DE82_EF95;

/// The hash of a list with one more value.
fn hash_with(hash: u64, value: u32) -> u64 {
    // Another odd factor spreads the value over all 64 bits.
    let spread = (u64::from(value) + 1).wrapping_mul(0x9E37_79B9_7F4A_7C15);
    hash.wrapping_mul(FACTOR).wrapping_add(spread)
}

impl Queue {
    /// An empty queue to which at most so many values are added.
    pub fn new(most_added: usize) -> Queue {
        let powers = std::iter::successors(Some(1u64), |power| Some(power.wrapping_mul(FACTOR)));
        Queue {
            added: Vec::with_capacity(most_added),
            removed: 0,
            took: Vec::new(),
            hashes: vec![0],
            powers: powers.take(most_added + 1).collect(),
        }
    }

    /// The values in the queue, the front first.
    pub fn contents(&self) -> &[u32] {
        &self.added[self.removed..]
    }

    /// The hash of the contents: that of all that was added, without the part of what is gone.
    #[inline]
    pub fn hash(&self) -> u64 {
        let gone = self.hashes[self.removed].wrapping_mul(self.powers[self.contents().len()]);
        self.hashes[self.added.len()].wrapping_sub(gone)
    }

    /// Runs the operation, if it can have met this queue; whether it did.
    pub fn run(&mut self, action: Action) -> bool {
        match action {
            Action::Add(value) => {
                let hash = self.hashes[self.added.len()];
                self.hashes.push(hash_with(hash, value));
                self.added.push(value);
                true
            }
            Action::Remove(Removed::Value(value)) => {
                let is_front = self.contents().first() == Some(&value);
                self.removed += usize::from(is_front);
                is_front
            }
            Action::Remove(Removed::Empty) => self.contents().is_empty(),
            Action::PendingRemove => {
                let takes = !self.contents().is_empty();
                self.removed += usize::from(takes);
                self.took.push(takes);
                true
            }
        }
    }

    /// Takes back the operation that was run last.
    pub fn take_back(&mut self, action: Action) {
        match action {
            Action::Add(_) => {
                self.added.pop();
                self.hashes.pop();
            }
            Action::Remove(Removed::Value(_)) => self.removed -= 1,
            Action::Remove(Removed::Empty) => {}
            Action::PendingRemove => {
                let took = self.took.pop().expect("a pending remove was run");
                self.removed -= usize::from(took);
            }
        }
    }
}

#[cfg(test)]
mod tests {
    use super::Queue;
    use yauponroof_tests::model::history::Action::{Add, PendingRemove, Remove};
    use yauponroof_tests::model::record::Removed::{Empty, Value};

    #[test]
    fn it_runs_operations_and_takes_them_back() {
        let mut queue = Queue::new(3);
        assert!(queue.run(Remove(Empty)));
        assert!(queue.run(Add(5)) && queue.run(Add(6)));
        assert!(!queue.run(Remove(Empty)));
        assert!(!queue.run(Remove(Value(6))));
        assert!(queue.run(Remove(Value(5))));
        assert_eq!(queue.contents(), [6]);
        queue.take_back(Remove(Value(5)));
        assert_eq!(queue.contents(), [5, 6]);
        queue.take_back(Add(6));
        assert_eq!(queue.contents(), [5]);
    }

    #[test]
    fn a_pending_remove_takes_the_front_value_if_there_is_one() {
        let mut queue = Queue::new(2);
        assert!(queue.run(PendingRemove) && queue.run(Add(5)) && queue.run(Add(6)));
        assert!(queue.run(PendingRemove));
        assert_eq!(queue.contents(), [6]);
        queue.take_back(PendingRemove);
        assert_eq!(queue.contents(), [5, 6]);
        queue.take_back(Add(6));
        queue.take_back(Add(5));
        queue.take_back(PendingRemove);
        assert!(queue.contents().is_empty());
    }

    #[test]
    fn the_hash_tells_the_contents_and_their_order_alone() {
        let hash_after = |actions: &[_]| {
            let mut queue = Queue::new(actions.len());
            assert!(actions.iter().all(|&action| queue.run(action)));
            queue.hash()
        };
        let direct = hash_after(&[Add(5), Add(6)]);
        assert_eq!(
            hash_after(&[Add(9), Add(5), Remove(Value(9)), Add(6)]),
            direct
        );
        assert_ne!(hash_after(&[Add(6), Add(5)]), direct);
        assert_eq!(hash_after(&[Add(6), Remove(Value(6))]), hash_after(&[]));
    }
}
