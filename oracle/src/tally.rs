//! What a part has compared.
use std::fmt::Debug;

/// Differing inputs that are shown of a part.
const SHOWN: usize = 5;

/// The counts of a part and its first differing inputs.
#[derive(Default)]
pub struct Tally {
    pub compared: u64,
    pub differing: u64,
    piece: u64,
    shown: Vec<(u64, String)>,
}

impl Tally {
    /// Turns to another piece of the part; each turn is to a later one.
    pub fn turn_to(&mut self, piece: u64) {
        self.piece = piece;
    }

    /// Compares the answer wanted with the library's; whether they are equal.
    #[inline]
    pub fn equal<T: PartialEq + Debug>(
        &mut self,
        wanted: T,
        ours: T,
        input: impl FnOnce() -> String,
    ) -> bool {
        self.compared += 1;
        let equal = wanted == ours;
        if !equal {
            self.note(&wanted, &ours, input);
        }
        equal
    }

    /// Counts a difference, and keeps its text if it is one of the first.
    #[cold]
    fn note<T: Debug>(&mut self, wanted: &T, ours: &T, input: impl FnOnce() -> String) {
        self.differing += 1;
        if self.shown.len() < SHOWN {
            let text = format!("{}: wanted {wanted:02x?}, ours {ours:02x?}", input());
            self.shown.push((self.piece, text));
        }
    }

    /// Takes in what another tally holds.
    pub fn join(&mut self, other: Tally) {
        self.compared += other.compared;
        self.differing += other.differing;
        self.shown.extend(other.shown);
        self.shown.sort_by_key(|(piece, _)| *piece);
        self.shown.truncate(SHOWN);
    }

    /// The first differing inputs, in the order of the pieces.
    pub fn shown(&self) -> impl Iterator<Item = &str> {
        self.shown.iter().map(|(_, text)| text.as_str())
    }

    /// The counts in words.
    pub fn counts(&self) -> String {
        format!("{} compared, {} differences", self.compared, self.differing)
    }
}
