//! Where two sides of a comparison differ, and how such a call is found again.
use crate::calls::{Answer, Call, Told};
use crate::record::{Lent, Record};
use std::fmt;

/// Where two sides differ, and what one of them has there.
#[derive(Debug, PartialEq)]
pub enum Spot {
    Nowhere,
    Reply(u32),
    Told(Told),
    Output { place: usize, word: u32 },
    Record { place: usize, word: u32 },
    Cells { place: usize, byte: u8 },
    Scales { place: usize, word: u32 },
}

impl Spot {
    /// The spots of two sides that do not differ.
    pub const NONE: (Spot, Spot) = (Spot::Nowhere, Spot::Nowhere);

    /// A word of an output.
    pub fn output(place: usize, word: u32) -> Spot {
        Spot::Output { place, word }
    }

    /// A word of a record.
    pub fn record(place: usize, word: u32) -> Spot {
        Spot::Record { place, word }
    }

    /// A cell byte.
    pub fn cells(place: usize, byte: u8) -> Spot {
        Spot::Cells { place, byte }
    }

    /// A scale word.
    pub fn scales(place: usize, word: u32) -> Spot {
        Spot::Scales { place, word }
    }
}

/// The first spot where two answers differ.
pub fn of_answers(wanted: Answer, ours: Answer) -> Option<(Spot, Spot)> {
    of_replies(wanted.reply, ours.reply).or_else(|| of_told(wanted.told, ours.told))
}

/// Two replies that differ.
pub fn of_replies(wanted: u32, ours: u32) -> Option<(Spot, Spot)> {
    (wanted != ours).then_some((Spot::Reply(wanted), Spot::Reply(ours)))
}

/// The spot where two counts or outputs differ: of two outputs the first place.
fn of_told(wanted: Told, ours: Told) -> Option<(Spot, Spot)> {
    match (&wanted, &ours) {
        (Told::Output(a), Told::Output(b)) => first(a, b, Spot::output),
        _ => (wanted != ours).then_some((Spot::Told(wanted), Spot::Told(ours))),
    }
}

/// The first place where two lists differ, as a spot of each.
pub fn first<T: Copy + PartialEq>(
    wanted: &[T],
    ours: &[T],
    spot: impl Fn(usize, T) -> Spot,
) -> Option<(Spot, Spot)> {
    if wanted == ours {
        return None;
    }
    let place = wanted.iter().zip(ours).position(|(a, b)| a != b)?;
    Some((spot(place, wanted[place]), spot(place, ours[place])))
}

/// A call with all that is needed to find it again.
pub struct Site<'a> {
    pub sequence: u64,
    pub index: u64,
    pub before: Record,
    pub lent: Lent,
    pub call: &'a Call,
}

impl fmt::Display for Site<'_> {
    fn fmt(&self, text: &mut fmt::Formatter) -> fmt::Result {
        let (shape, seq_len) = (self.before.shape(), self.before.seq_len());
        let lengths = self.before.lengths();
        let used = lengths.iter().rposition(|length| *length != 0);
        let lengths = &lengths[..used.map_or(0, |last| last + 1)];
        let Lent { cells, scales } = self.lent;
        write!(
            text,
            "sequence {} call {} on {shape} seq {seq_len} lengths {lengths:?} \
             with {cells} cells and {scales} scales lent: {}",
            self.sequence, self.index, self.call
        )
    }
}
