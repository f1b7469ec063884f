//! Seeded random numbers: xoshiro256**, started by splitmix64. One seed gives the same numbers on every machine.

pub struct Random {
    state: [u64; 4],
}

impl Random {
    pub fn new(seed: u64) -> Self {
        let mut seed = seed;
        Self {
            state: std::array::from_fn(|_| splitmix(&mut seed)),
        }
    }

    /// Any 64-bit word, each as likely as any other.
    pub fn word(&mut self) -> u64 {
        let s = &mut self.state;
        let result = s[1].wrapping_mul(5).rotate_left(7).wrapping_mul(9);
        let shifted = s[1] << 17;
        s[2] ^= s[0];
        s[3] ^= s[1];
        s[1] ^= s[2];
        s[0] ^= s[3];
        s[2] ^= shifted;
        s[3] = s[3].rotate_left(45);
        result
    }

    /// A number below `end`, which is not 0.
    pub fn below(&mut self, end: u64) -> u64 {
        ((u128::from(self.word()) * u128::from(end)) >> 64) as u64
    }

    /// A place in a list of this length, which is not 0.
    pub fn index(&mut self, length: usize) -> usize {
        self.below(length as u64) as usize
    }

    /// True in so many cases of a hundred.
    pub fn chance(&mut self, hundredths: u64) -> bool {
        self.below(100) < hundredths
    }

    /// One of a list that is not empty.
    pub fn pick<T: Copy>(&mut self, items: &[T]) -> T {
        items[self.index(items.len())]
    }

    /// Puts a list into any order.
    pub fn shuffle<T>(&mut self, items: &mut [T]) {
        for place in 1..items.len() {
            items.swap(place, self.index(place + 1));
        }
    }

    /// One of a list, if it has any.
    pub fn try_pick<T: Copy>(&mut self, items: &[T]) -> Option<T> {
        (!items.is_empty()).then(|| self.pick(items))
    }
}

fn splitmix(seed: &mut u64) -> u64 {
    *seed = seed.wrapping_add(0x9e37_79b9_7f4a_7c15);
    let mut word = *seed;
    word = (word ^ (word >> 30)).wrapping_mul(0xbf58_476d_1ce4_e5b9);
    word = (word ^ (word >> 27)).wrapping_mul(0x94d0_49bb_1331_11eb);
    word ^ (word >> 31)
}

#[cfg(test)]
mod tests {
    use super::Random;

    #[test]
    fn one_seed_gives_one_run_of_numbers() {
        let run = |seed| {
            let mut random = Random::new(seed);
            [0; 8].map(|_| random.word())
        };
        assert_eq!(run(20), run(20));
        assert_ne!(run(20), run(21));
    }

    #[test]
    fn every_number_below_the_end_comes() {
        let mut random = Random::new(1);
        let mut met = [0; 7];
        for _ in 0..1000 {
            met[random.index(7)] += 1;
        }
        assert!(met.iter().all(|&times| times > 50));
    }
}
