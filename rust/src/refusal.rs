//! Why a call is refused: the paper's replies by name.
use std::error::Error;
use std::fmt;

/// Why a call was refused; a refused call has changed nothing.
///
/// Where several reasons apply, the one with the lowest [`number`](Refusal::number) is given.
#[derive(Clone, Copy, PartialEq, Eq, Hash, Debug)]
#[non_exhaustive]
pub enum Refusal {
    /// The shape is outside the limits.
    Shape,
    /// The length of the cells or of the scales is not the exact one; in a [`Store`](crate::Store) it always is.
    Room,
    /// A layer's length exceeds the capacity, or one past the layers is not 0; in a [`Store`](crate::Store) neither is so.
    Lengths,
    /// The layer is not below the number of layers.
    Layer,
    /// The head is not below the number of heads.
    Head,
    /// Scores or sums are asked of BF16 or INT8.
    Format,
    /// Keys, values, a query, an output or a group has the wrong length.
    Size,
    /// More scores or weights than positions, or a position that is not there.
    Position,
    /// The new positions exceed the capacity.
    Full,
    /// The sequence length would pass 4,294,967,295.
    Sequence,
    /// The machine has no memory for the buffers; this is no reply of the paper and has no number.
    Memory,
}

/// The refusals that the paper numbers, from 1 on.
const NUMBERED: [Refusal; 10] = [
    Refusal::Shape,
    Refusal::Room,
    Refusal::Lengths,
    Refusal::Layer,
    Refusal::Head,
    Refusal::Format,
    Refusal::Size,
    Refusal::Position,
    Refusal::Full,
    Refusal::Sequence,
];

impl Refusal {
    /// The paper's number, 1 to 10; none for [`Refusal::Memory`].
    ///
    /// ```
    /// use karonjeenu::Refusal;
    ///
    /// assert_eq!(Refusal::Shape.number(), Some(1));
    /// assert_eq!(Refusal::Memory.number(), None);
    /// ```
    #[must_use]
    pub fn number(self) -> Option<u32> {
        let mut numbered = (1..).zip(NUMBERED);
        numbered.find_map(|(number, refusal)| (refusal == self).then_some(number))
    }
}

impl fmt::Display for Refusal {
    fn fmt(&self, f: &mut fmt::Formatter<'_>) -> fmt::Result {
        f.write_str(match self {
            Refusal::Shape => "the shape is outside the limits",
            Refusal::Room => "the length of the cells or of the scales is not the exact one",
            Refusal::Lengths => {
                "a layer's length exceeds the capacity, or one past the layers is not 0"
            }
            Refusal::Layer => "the layer is not below the number of layers",
            Refusal::Head => "the head is not below the number of heads",
            Refusal::Format => "scores and sums are not there in BF16 and INT8",
            Refusal::Size => "keys, values, a query, an output or a group has the wrong length",
            Refusal::Position => "there are not that many positions in the layer",
            Refusal::Full => "the new positions exceed the capacity",
            Refusal::Sequence => "the sequence length would pass 4,294,967,295",
            Refusal::Memory => "the machine has no memory for the buffers",
        })
    }
}

impl Error for Refusal {}

/// What the number of a reply says.
pub(crate) fn answer(reply: u32) -> Result<(), Refusal> {
    match reply {
        0 => Ok(()),
        1..=10 => Err(NUMBERED[reply as usize - 1]),
        // The proof rules this out: only an archive of something else answers so, and nothing it did can be trusted.
        _ => panic!("the library answered {reply}, which is no reply of the paper"),
    }
}

#[cfg(test)]
mod tests {
    use super::{answer, Refusal};

    #[test]
    fn reply_is_the_refusal_of_its_number() {
        assert_eq!(answer(0), Ok(()));
        for reply in 1..=10 {
            let refusal = answer(reply).expect_err("a refusal");
            assert_eq!(refusal.number(), Some(reply));
        }
        assert_eq!(Refusal::Memory.number(), None);
    }

    #[test]
    #[should_panic(expected = "answered 11")]
    fn unknown_reply_is_never_done() {
        assert_eq!(answer(11), Ok(()));
    }
}
