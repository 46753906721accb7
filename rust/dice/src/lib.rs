//! Random numbers from a seed: splitmix64. The same seed gives the same numbers everywhere.

const STEP: u64 = 0x9E37_79B9_7F4A_7C15;

/// A generator of random numbers.
pub struct Dice {
    state: u64,
}

impl Dice {
    /// The generator of a seed.
    pub fn new(seed: u64) -> Dice {
        Dice { state: seed }
    }

    /// A random word, every pattern equally likely.
    pub fn word(&mut self) -> u32 {
        self.state = self.state.wrapping_add(STEP);
        (mixed(self.state) >> 32) as u32
    }

    /// A random whole number below `bound`; 0 where the bound is 0.
    pub fn below(&mut self, bound: u32) -> u32 {
        scaled(self.word(), bound)
    }

    /// A random length or place below `bound`.
    pub fn place(&mut self, bound: usize) -> usize {
        self.below(bound as u32) as usize
    }

    /// Whether one chance of so many came.
    pub fn one_of(&mut self, chances: u32) -> bool {
        self.below(chances) == 0
    }

    /// One of some things.
    pub fn pick<T: Copy>(&mut self, things: &[T]) -> T {
        things[self.place(things.len())]
    }

    /// Random bytes.
    pub fn bytes(&mut self, length: usize) -> Vec<u8> {
        (0..length).map(|_| self.word() as u8).collect()
    }

    /// Random words, every pattern equally likely.
    pub fn words(&mut self, length: usize) -> Vec<u32> {
        (0..length).map(|_| self.word()).collect()
    }
}

/// The mixing step, by which a seed and a number make another seed.
pub fn mixed(state: u64) -> u64 {
    let state = (state ^ (state >> 30)).wrapping_mul(0xBF58_476D_1CE4_E5B9);
    let state = (state ^ (state >> 27)).wrapping_mul(0x94D0_49BB_1331_11EB);
    state ^ (state >> 31)
}

/// The whole number below `bound` that stands where a word stands among all words; 0 where the bound is 0.
pub fn scaled(word: u32, bound: u32) -> u32 {
    ((u64::from(word) * u64::from(bound)) >> 32) as u32
}

#[cfg(test)]
mod tests {
    use super::*;

    #[test]
    fn words_are_the_upper_halves_of_splitmix64() {
        let published: [u64; 5] = [
            6_457_827_717_110_365_317,
            3_203_168_211_198_807_973,
            9_817_491_932_198_370_423,
            4_593_380_528_125_082_431,
            16_408_922_859_458_223_821,
        ];
        let wanted = published.map(|bits| (bits >> 32) as u32);
        assert_eq!(Dice::new(1_234_567).words(5), wanted);
    }

    #[test]
    fn numbers_stay_below_their_bound_and_come_to_both_ends() {
        assert_eq!([0, u32::MAX].map(|word| scaled(word, 7)), [0, 6]);
        assert_eq!([0, u32::MAX].map(|word| scaled(word, 0)), [0, 0]);
        assert_eq!(scaled(u32::MAX, u32::MAX), u32::MAX - 1);
    }

    #[test]
    fn what_is_drawn_is_made_of_the_next_words() {
        let (mut dice, mut words) = (Dice::new(1), Dice::new(1));
        assert_eq!(dice.below(10), scaled(words.word(), 10));
        assert_eq!(dice.place(10), scaled(words.word(), 10) as usize);
        assert_eq!(dice.one_of(2), scaled(words.word(), 2) == 0);
        assert_eq!(dice.pick(&[0, 1, 2]), scaled(words.word(), 3));
        assert_eq!(
            dice.bytes(2),
            words
                .words(2)
                .iter()
                .map(|word| *word as u8)
                .collect::<Vec<_>>()
        );
        assert_eq!(dice.word(), words.word());
    }
}
