//! The set of the operations placed so far, a bit for each, with its hash.

use yauponroof_tests::random::Random;

pub struct Placed {
    words: Vec<u64>,
    /// The index of the first word that is not full.
    first: usize,
    count: u32,
    /// The exclusive or of the keys of the operations in the set.
    hash: u64,
    /// A random number for each operation.
    keys: Vec<u64>,
}

const WORD: usize = u64::BITS as usize;

impl Placed {
    /// No operation of so many.
    pub fn none_of(operations: usize) -> Placed {
        let mut random = Random::new(1);
        Placed {
            // One bit more than there are operations, so that the last word is never full.
            words: vec![0; operations / WORD + 1],
            first: 0,
            count: 0,
            hash: 0,
            keys: (0..operations).map(|_| random.next_u64()).collect(),
        }
    }

    pub fn insert(&mut self, number: u16) {
        self.flip(number);
        self.count += 1;
        while self.words[self.first] == u64::MAX {
            self.first += 1;
        }
    }

    pub fn remove(&mut self, number: u16) {
        self.flip(number);
        self.count -= 1;
        self.first = self.first.min(usize::from(number) / WORD);
    }

    fn flip(&mut self, number: u16) {
        let number = usize::from(number);
        self.words[number / WORD] ^= 1 << (number % WORD);
        self.hash ^= self.keys[number];
    }

    pub fn hash(&self) -> u64 {
        self.hash
    }

    /// How many words are full before the first that is not, and the words from there to the last
    /// that has a bit. They tell the set, and are few, since what is placed at any time lies close
    /// together.
    pub fn window(&self) -> (usize, &[u64]) {
        let mut left = self.count - (self.first * WORD) as u32;
        let mut end = self.first;
        while left > 0 {
            left -= self.words[end].count_ones();
            end += 1;
        }
        (self.first, &self.words[self.first..end])
    }
}

#[cfg(test)]
mod tests {
    use super::Placed;

    #[test]
    fn the_window_leaves_out_full_and_empty_words() {
        let mut placed = Placed::none_of(300);
        assert_eq!(placed.window(), (0, &[][..]));
        for number in 0..130 {
            placed.insert(number);
        }
        assert_eq!(placed.window(), (2, &[3][..]));
        placed.insert(192);
        assert_eq!(placed.window(), (2, &[3, 1][..]));
        placed.remove(64);
        assert_eq!(placed.window(), (1, &[u64::MAX - 1, 3, 1][..]));
    }

    #[test]
    fn the_hash_is_that_of_the_set() {
        let mut placed = Placed::none_of(64);
        placed.insert(63);
        let hash = placed.hash();
        placed.insert(5);
        assert_ne!(placed.hash(), hash);
        placed.remove(5);
        assert_eq!(placed.hash(), hash);
    }
}
