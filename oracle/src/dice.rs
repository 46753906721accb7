//! The random numbers: dice from a fixed seed, or first what a tape says.
use dice::{mixed, scaled};
use std::vec::IntoIter;

/// The seed of every random input.
pub const SEED: u64 = 0x6B76_6F72_6163_6C65;

/// Bytes of a tape that seed what the tape does not say.
const SEED_BYTES: usize = 8;

/// A generator of random numbers.
pub struct Dice {
    untaped: dice::Dice,
    tape: IntoIter<u8>,
    is_taped: bool,
}

impl Dice {
    /// The generator of one piece of a part: the same inputs on any number of threads.
    pub fn of(part: &str, piece: u64) -> Dice {
        let seed = part
            .bytes()
            .fold(SEED, |seed, byte| mixed(seed ^ u64::from(byte)));
        Dice {
            untaped: dice::Dice::new(mixed(seed ^ piece)),
            tape: Vec::new().into_iter(),
            is_taped: false,
        }
    }

    /// The generator that a tape drives: a seed, then a byte or four for each choice, as long as there are some.
    pub fn on_tape(tape: &[u8]) -> Dice {
        let (seed, tape) = tape.split_at(tape.len().min(SEED_BYTES));
        Dice {
            untaped: dice::Dice::new(number_of(seed)),
            tape: Vec::from(tape).into_iter(),
            is_taped: true,
        }
    }

    /// Whether there is more to make: always, save at the end of a tape.
    pub fn goes_on(&self) -> bool {
        !self.is_taped || self.tape.len() > 0
    }

    /// The next bytes of the tape as a number, where there are so many.
    fn taken(&mut self, bytes: usize) -> Option<u64> {
        let front = self.tape.as_slice().get(..bytes).map(number_of)?;
        self.tape.nth(bytes - 1);
        Some(front)
    }

    /// A random word, every pattern equally likely.
    pub fn word(&mut self) -> u32 {
        match self.taken(4) {
            Some(word) => word as u32,
            None => self.untaped.word(),
        }
    }

    /// A random whole number below `bound`.
    pub fn below(&mut self, bound: u32) -> u32 {
        let few = if bound <= 256 { self.taken(1) } else { None };
        let word = match few {
            Some(byte) => (byte as u32) << 24,
            None => self.word(),
        };
        scaled(word, bound)
    }

    /// A random length or place below `bound`.
    pub fn place(&mut self, bound: usize) -> usize {
        self.below(bound as u32) as usize
    }

    /// A random whole number from `low` to `high`.
    pub fn between(&mut self, low: i32, high: i32) -> i32 {
        low + self.below((high - low + 1) as u32) as i32
    }

    /// Random bytes; a tape is too short for them.
    pub fn bytes(&mut self, length: usize) -> Vec<u8> {
        self.untaped.bytes(length)
    }

    /// Random words, every pattern equally likely; a tape is too short for them.
    pub fn words(&mut self, length: usize) -> Vec<u32> {
        self.untaped.words(length)
    }
}

/// Bytes as a number, the first one the lowest.
fn number_of(bytes: &[u8]) -> u64 {
    bytes
        .iter()
        .rfold(0, |number, byte| number << 8 | u64::from(*byte))
}

#[cfg(test)]
mod tests {
    use super::*;

    /// A tape with a seed of so many equal bytes and some choices after it.
    fn tape(seed: u8, choices: &[u8]) -> Vec<u8> {
        [&[seed; SEED_BYTES], choices].concat()
    }

    #[test]
    fn a_tape_makes_the_choices_and_ends() {
        let mut dice = Dice::on_tape(&tape(0, &[0x80, 0x78, 0x56, 0x34, 0x12]));
        assert_eq!(dice.below(8), 4);
        assert!(dice.goes_on());
        assert_eq!(dice.word(), 0x1234_5678);
        assert!(!dice.goes_on());
        assert!(dice.below(8) < 8);
    }

    #[test]
    fn what_is_too_long_for_a_tape_comes_from_its_seed() {
        let filled = |seed, choices| Dice::on_tape(&tape(seed, choices)).bytes(16);
        assert_eq!(filled(1, &[2]), filled(1, &[3, 4]));
        assert_ne!(filled(1, &[2]), filled(5, &[2]));
    }

    #[test]
    fn dice_without_a_tape_go_on() {
        let mut dice = Dice::of("part", 0);
        let _ = dice.words(100);
        assert!(dice.goes_on());
    }
}
