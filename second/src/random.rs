//! A small seeded source of pseudo-random numbers: splitmix64.
//!
//! The state is one 64-bit word that grows by a fixed odd number; each number drawn is that word mixed by two
//! multiplications. Everything is wrapping integer arithmetic, so a seed gives the same numbers on any machine.

/// The step of the state: 2^64 divided by the golden ratio, made odd.
const STEP: u64 = 0x9E37_79B9_7F4A_7C15;

#[derive(Clone, Debug)]
pub struct Random {
    state: u64,
}

impl Random {
    pub fn new(seed: u64) -> Random {
        Random { state: seed }
    }

    /// An own source for each index, so that the item of an index doesn't depend on those before it.
    pub fn of_index(seed: u64, index: u64) -> Random {
        let start = mixed(seed.wrapping_add(STEP)) ^ mixed(index.wrapping_mul(STEP));
        Random::new(start)
    }

    /// A source of its own, which takes no number of this one.
    pub fn beside(&self) -> Random {
        Random::new(mixed(self.state))
    }

    pub fn next(&mut self) -> u64 {
        self.state = self.state.wrapping_add(STEP);
        mixed(self.state)
    }

    /// A number from 0 to `bound` - 1. The bound isn't 0.
    pub fn below(&mut self, bound: usize) -> usize {
        assert!(bound > 0, "no number is below 0");
        (self.next() % bound as u64) as usize
    }

    /// A number from `low` to `high`, both included.
    pub fn between(&mut self, low: usize, high: usize) -> usize {
        low + self.below(high - low + 1)
    }

    /// True in `percent` of a hundred draws.
    pub fn chance(&mut self, percent: usize) -> bool {
        self.below(100) < percent
    }

    /// One of the items, which aren't empty.
    pub fn pick<T: Copy>(&mut self, items: &[T]) -> T {
        items[self.below(items.len())]
    }

    /// The index of one of the weights, drawn in proportion to them. Their sum isn't 0.
    pub fn weighted(&mut self, weights: &[usize]) -> usize {
        let mut rest = self.below(weights.iter().sum());
        for (index, weight) in weights.iter().enumerate() {
            if rest < *weight {
                return index;
            }
            rest -= weight;
        }
        unreachable!("the number drawn is below the sum")
    }

    pub fn shuffle<T>(&mut self, items: &mut [T]) {
        for last in (1..items.len()).rev() {
            items.swap(last, self.below(last + 1));
        }
    }

    /// Any byte.
    pub fn byte(&mut self) -> u8 {
        self.next() as u8
    }
}

fn mixed(word: u64) -> u64 {
    let word = (word ^ (word >> 30)).wrapping_mul(0xBF58_476D_1CE4_E5B9);
    let word = (word ^ (word >> 27)).wrapping_mul(0x94D0_49BB_1331_11EB);
    word ^ (word >> 31)
}

#[cfg(test)]
mod tests {
    use super::*;

    #[test]
    fn the_published_numbers_of_splitmix64_come_out() {
        let mut random = Random::new(1234567);
        let drawn: Vec<u64> = (0..3).map(|_| random.next()).collect();
        let published = [
            6457827717110365317,
            3203168211198807973,
            9817491932198370423,
        ];
        assert_eq!(drawn, published);
    }

    #[test]
    fn each_index_has_its_own_numbers() {
        let first = Random::of_index(1, 0).next();
        assert_eq!(first, Random::of_index(1, 0).next());
        assert_ne!(first, Random::of_index(1, 1).next());
        assert_ne!(first, Random::of_index(2, 0).next());
    }

    #[test]
    fn a_source_beside_another_leaves_it_as_it_was() {
        let mut random = Random::new(7);
        let mut beside = random.beside();
        let drawn: Vec<u64> = (0..3).map(|_| beside.next()).collect();
        let mut again = Random::new(7);
        for _ in 0..3 {
            let next = random.next();
            assert_eq!(next, again.next());
            assert!(!drawn.contains(&next));
        }
    }

    #[test]
    fn weights_of_zero_are_never_drawn() {
        let mut random = Random::new(5);
        assert!((0..1000).all(|_| random.weighted(&[0, 3, 0, 1]) % 2 == 1));
    }
}
