//! Seeded random numbers (SplitMix64).

/// What is added to the state for each number.
const STEP: u64 = 0x9E37_79B9_7F4A_7C15;

/// The random numbers of one input.
pub struct Dice {
    state: u64,
}

/// Spreads every bit of a number over all 64.
fn mixed(number: u64) -> u64 {
    let once = (number ^ (number >> 30)).wrapping_mul(0xBF58_476D_1CE4_E5B9);
    let twice = (once ^ (once >> 27)).wrapping_mul(0x94D0_49BB_1331_11EB);
    twice ^ (twice >> 31)
}

impl Dice {
    /// The dice of one input, from nothing but the main seed, the sort and the index, so that it can be rerun alone.
    pub fn of_input(seed: u64, sort: u64, index: u64) -> Dice {
        let of_sort = mixed(mixed(seed.wrapping_add(STEP)).wrapping_add(sort));
        Dice {
            state: mixed(of_sort.wrapping_add(index)),
        }
    }

    /// Any 64-bit number.
    pub fn number(&mut self) -> u64 {
        self.state = self.state.wrapping_add(STEP);
        mixed(self.state)
    }

    /// A number below the limit, which is not 0.
    pub fn below(&mut self, limit: u64) -> u64 {
        self.number() % limit
    }

    /// A number from the least to the most, both among them.
    pub fn between(&mut self, least: usize, most: usize) -> usize {
        least + self.below((most - least) as u64 + 1) as usize
    }

    /// True so many times in a hundred.
    pub fn chance(&mut self, percent: u64) -> bool {
        self.below(100) < percent
    }

    /// One of a list.
    pub fn pick<T: Copy>(&mut self, list: &[T]) -> T {
        list[self.between(0, list.len() - 1)]
    }

    /// A place in a list of weights, as often as its weight says.
    pub fn weighted(&mut self, weights: &[u64]) -> usize {
        let mut left = self.below(weights.iter().sum());
        for (place, weight) in weights.iter().enumerate() {
            if left < *weight {
                return place;
            }
            left -= weight;
        }
        unreachable!("a number below the sum falls to one of the weights")
    }

    /// So many bytes.
    pub fn bytes(&mut self, count: usize) -> Vec<u8> {
        (0..count).map(|_| self.number() as u8).collect()
    }
}

#[cfg(test)]
mod tests {
    use super::*;

    /// The same input has the same numbers again, and another input has others.
    #[test]
    fn repeatable() {
        let first = |seed, sort, index| Dice::of_input(seed, sort, index).number();
        assert_eq!(first(1, 2, 3), first(1, 2, 3));
        for other in [first(2, 2, 3), first(1, 3, 3), first(1, 2, 4)] {
            assert_ne!(first(1, 2, 3), other);
        }
    }

    /// Weights of 0 are never drawn, and all others are.
    #[test]
    fn weights() {
        let mut dice = Dice::of_input(1, 1, 1);
        let mut drawn = [0; 4];
        for _ in 0..1_000 {
            drawn[dice.weighted(&[1, 0, 2, 1])] += 1;
        }
        assert_eq!(drawn.map(|times| times > 0), [true, false, true, true]);
    }
}
