//! The paper's table of replies: the refusals that each call can give, and when each applies.
use crate::record::{Lent, Record, Shape, BF16, INT4, INT8};

/// The largest cell total.
pub const MOST_CELLS: u128 = 1_073_741_824;

/// The reply to a question for a shape's need.
pub fn need(shape: &Shape) -> u32 {
    lowest(&[(1, is_outside(shape))])
}

/// The reply to an open.
pub fn open(shape: &Shape, lent: Lent) -> u32 {
    lowest(&[(1, is_outside(shape)), (2, is_not_exact(shape, lent))])
}

/// The reply to an append of so many keys and values.
pub fn append(record: &Record, lent: Lent, layer: u32, keys: usize, values: usize) -> u32 {
    let shape = record.shape();
    lowest(&[
        (1, is_outside(&shape)),
        (2, is_not_exact(&shape, lent)),
        (3, has_wrong_lengths(record)),
        (4, layer >= shape.layers),
        (7, is_torn(&shape, keys) || keys != values),
        (9, exceeds_capacity(record, layer, keys)),
    ])
}

/// The reply to a truncation, whatever it truncates to.
pub fn truncate(record: &Record, lent: Lent, layer: u32) -> u32 {
    let shape = record.shape();
    lowest(&[
        (1, is_outside(&shape)),
        (2, is_not_exact(&shape, lent)),
        (3, has_wrong_lengths(record)),
        (4, layer >= shape.layers),
    ])
}

/// The reply to an advance.
pub fn advance(record: &Record, count: u32) -> u32 {
    let after = u64::from(record.seq_len()) + u64::from(count);
    lowest(&[
        (1, is_outside(&record.shape())),
        (3, has_wrong_lengths(record)),
        (10, after > 4_294_967_295),
    ])
}

/// The reply to a question for a layer's length.
pub fn cached_len(record: &Record, layer: u32) -> u32 {
    let shape = record.shape();
    lowest(&[
        (1, is_outside(&shape)),
        (3, has_wrong_lengths(record)),
        (4, layer >= shape.layers),
    ])
}

/// The reply to a question for the byte count.
pub fn memory_bytes(record: &Record) -> u32 {
    lowest(&[
        (1, is_outside(&record.shape())),
        (3, has_wrong_lengths(record)),
    ])
}

/// The place of a row in a store.
#[derive(Clone, Copy, Debug, PartialEq)]
pub struct Place {
    pub layer: u32,
    pub side: u32,
    pub head: u32,
    pub position: u32,
}

/// The reply to a row read into an output of so many places.
pub fn read_row(record: &Record, lent: Lent, place: Place, output: usize) -> u32 {
    let shape = record.shape();
    lowest(&[
        (1, is_outside(&shape)),
        (2, is_not_exact(&shape, lent)),
        (3, has_wrong_lengths(record)),
        (4, place.layer >= shape.layers),
        (5, place.head >= shape.heads || place.side > 1),
        (7, output as u64 != u64::from(shape.head_size)),
        (8, place.position >= record.length(place.layer)),
    ])
}

/// One head of a layer.
#[derive(Clone, Copy, Debug, PartialEq)]
pub struct Head {
    pub layer: u32,
    pub head: u32,
}

/// The reply to a query of so many numbers for so many scores.
pub fn scores(record: &Record, lent: Lent, head: Head, query: usize, scores: usize) -> u32 {
    of_head(record, lent, head, query, scores)
}

/// The reply to so many weights for so many sums.
pub fn sums(record: &Record, lent: Lent, head: Head, weights: usize, sums: usize) -> u32 {
    of_head(record, lent, head, sums, weights)
}

/// The reply to a call that lends so many numbers for one row and so many for the first positions.
fn of_head(record: &Record, lent: Lent, head: Head, row: usize, positions: usize) -> u32 {
    let shape = record.shape();
    lowest(&[
        (1, is_outside(&shape)),
        (2, is_not_exact(&shape, lent)),
        (3, has_wrong_lengths(record)),
        (4, head.layer >= shape.layers),
        (5, head.head >= shape.heads),
        (6, shape.format == BF16 || shape.format == INT8),
        (7, row as u64 != u64::from(shape.head_size)),
        (8, positions as u64 > u64::from(record.length(head.layer))),
    ])
}

/// The lowest number that applies, or 0.
fn lowest(refusals: &[(u32, bool)]) -> u32 {
    let applying = refusals.iter().filter(|(_, applies)| *applies);
    applying.map(|(number, _)| *number).min().unwrap_or(0)
}

/// Whether a shape is outside the limits.
fn is_outside(shape: &Shape) -> bool {
    let within = shape.format <= INT4
        && (1..=128).contains(&shape.layers)
        && (1..=64).contains(&shape.heads)
        && (1..=256).contains(&shape.head_size)
        && (1..=4096).contains(&shape.capacity)
        && (shape.format != INT4 || shape.head_size % 32 == 0);
    !within || shape.cells() > MOST_CELLS
}

/// Whether a buffer's length is not the exact one.
fn is_not_exact(shape: &Shape, lent: Lent) -> bool {
    lent.cells as u128 != shape.cells() || lent.scales as u128 != shape.scales()
}

/// Whether a length exceeds the capacity, or one at or past the number of layers is not 0.
fn has_wrong_lengths(record: &Record) -> bool {
    let shape = record.shape();
    let is_wrong = |(length, layer): (&u32, u32)| {
        *length > shape.capacity || (layer >= shape.layers && *length != 0)
    };
    record.lengths().iter().zip(0..).any(is_wrong)
}

/// Whether so many keys are not whole positions.
fn is_torn(shape: &Shape, keys: usize) -> bool {
    (keys as u64).checked_rem(shape.position_numbers()) != Some(0)
}

/// Whether the layer's length and the positions of so many keys exceed the capacity.
fn exceeds_capacity(record: &Record, layer: u32, keys: usize) -> bool {
    let shape = record.shape();
    let new = (keys as u64).checked_div(shape.position_numbers());
    let after = u64::from(record.length(layer)) + new.unwrap_or(0);
    after > u64::from(shape.capacity)
}

/// The number of every call's kind with each reply that the call can give.
#[cfg(test)]
pub fn each() -> std::collections::BTreeSet<(u32, u32)> {
    let replies: [(u32, &[u32]); 9] = [
        (1, &[0, 1, 2]),
        (2, &[0, 1, 2, 3, 4, 7, 9]),
        (3, &[0, 1, 2, 3, 4]),
        (4, &[0, 1, 3, 10]),
        (5, &[0, 1, 3, 4]),
        (6, &[0, 1, 3]),
        (7, &[0, 1, 2, 3, 4, 5, 7, 8]),
        (12, &[0, 1, 2, 3, 4, 5, 6, 7, 8]),
        (13, &[0, 1, 2, 3, 4, 5, 6, 7, 8]),
    ];
    let of_kind =
        |(kind, replies): (u32, &'static [u32])| replies.iter().map(move |reply| (kind, *reply));
    replies.into_iter().flat_map(of_kind).collect()
}

#[cfg(test)]
mod tests {
    use super::*;
    use crate::record::{F32, FIRST_LENGTH, SEQ_LEN, WORDS};

    const SMALL: Shape = Shape {
        format: INT8,
        layers: 2,
        heads: 1,
        head_size: 4,
        capacity: 2,
    };

    fn exact(shape: &Shape) -> Lent {
        Lent::exact(shape).unwrap()
    }

    /// A small store with some record words changed.
    fn with(changes: &[(usize, u32)]) -> Record {
        let mut record = Record::opened(&SMALL);
        for &(place, word) in changes {
            record.0[place] = word;
        }
        record
    }

    fn largest(layers: u32) -> Shape {
        Shape {
            format: F32,
            layers,
            heads: 64,
            head_size: 256,
            capacity: 4096,
        }
    }

    #[test]
    fn the_cell_total_is_taken_at_its_limit_and_refused_past_it() {
        assert_eq!(open(&largest(2), exact(&largest(2))), 0);
        assert_eq!(open(&largest(3), exact(&largest(3))), 1);
        assert_eq!(
            open(
                &largest(128),
                Lent {
                    cells: 0,
                    scales: 0
                }
            ),
            1
        );
    }

    #[test]
    fn int4_wants_whole_groups() {
        for (head_size, reply) in [(32, 0), (48, 1), (64, 0)] {
            let shape = Shape {
                format: INT4,
                head_size,
                ..SMALL
            };
            assert_eq!(open(&shape, exact(&shape)), reply);
        }
    }

    #[test]
    fn every_limit_is_held_at_both_ends() {
        let outside: [fn(&mut Shape); 9] = [
            |shape| shape.format = 4,
            |shape| shape.layers = 0,
            |shape| shape.layers = 129,
            |shape| shape.heads = 0,
            |shape| shape.heads = 65,
            |shape| shape.head_size = 0,
            |shape| shape.head_size = 257,
            |shape| shape.capacity = 0,
            |shape| shape.capacity = 4097,
        ];
        for damage in outside {
            let mut shape = SMALL;
            damage(&mut shape);
            assert_eq!(open(&shape, exact(&shape)), 1, "{shape:?}");
        }
    }

    #[test]
    fn the_widest_words_are_refused_without_overflow() {
        let record = Record([u32::MAX; WORDS]);
        let lent = exact(&SMALL);
        assert_eq!(append(&record, lent, u32::MAX, usize::MAX, 0), 1);
        assert_eq!(advance(&record, u32::MAX), 1);
        assert_eq!(memory_bytes(&record), 1);
    }
    #[test]
    fn the_lowest_number_that_applies_is_given() {
        let lent = exact(&SMALL);
        let short = Lent {
            cells: lent.cells - 1,
            ..lent
        };
        let full = with(&[(FIRST_LENGTH, 2)]);
        let damaged = with(&[(FIRST_LENGTH, 3)]);
        assert_eq!(append(&damaged, short, 2, 5, 4), 2);
        assert_eq!(append(&damaged, lent, 2, 5, 4), 3);
        assert_eq!(append(&full, lent, 2, 5, 4), 4);
        assert_eq!(append(&full, lent, 0, 5, 5), 7);
        assert_eq!(append(&full, lent, 0, 4, 8), 7);
        assert_eq!(append(&full, lent, 0, 4, 4), 9);
        assert_eq!(append(&full, lent, 0, 0, 0), 0);
        let row = |layer, side, head, position| Place {
            layer,
            side,
            head,
            position,
        };
        assert_eq!(read_row(&full, lent, row(2, 2, 1, 2), 3), 4);
        assert_eq!(read_row(&full, lent, row(0, 2, 0, 2), 3), 5);
        assert_eq!(read_row(&full, lent, row(0, 1, 1, 2), 3), 5);
        assert_eq!(read_row(&full, lent, row(0, 1, 0, 2), 3), 7);
        assert_eq!(read_row(&full, lent, row(0, 1, 0, 2), 4), 8);
        assert_eq!(read_row(&full, lent, row(0, 1, 0, 1), 4), 0);
    }

    /// The reply to scores, which that to sums has to be.
    fn head_reply(record: &Record, lent: Lent, head: Head, row: usize, positions: usize) -> u32 {
        let reply = scores(record, lent, head, row, positions);
        assert_eq!(sums(record, lent, head, positions, row), reply);
        reply
    }

    #[test]
    fn scores_and_sums_are_refused_with_the_lowest_number_that_applies() {
        let lent = exact(&SMALL);
        let short = Lent {
            scales: lent.scales - 1,
            ..lent
        };
        let at = |layer, head| Head { layer, head };
        let outside = with(&[(0, 4), (FIRST_LENGTH, 3)]);
        let damaged = with(&[(FIRST_LENGTH, 3)]);
        assert_eq!(head_reply(&outside, short, at(2, 1), 3, 4), 1);
        assert_eq!(head_reply(&damaged, short, at(2, 1), 3, 4), 2);
        assert_eq!(head_reply(&damaged, lent, at(2, 1), 3, 4), 3);
        assert_eq!(head_reply(&with(&[]), lent, at(2, 1), 3, 4), 4);
        assert_eq!(head_reply(&with(&[]), lent, at(1, 1), 3, 4), 5);
        assert_eq!(head_reply(&with(&[]), lent, at(1, 0), 3, 4), 6);
    }

    #[test]
    fn scores_and_sums_want_a_whole_row_and_no_more_positions_than_there_are() {
        let shape = Shape {
            format: F32,
            ..SMALL
        };
        let mut record = Record::opened(&shape);
        record.set_length(1, 2);
        let reply = |head, row, positions| {
            let head = Head {
                layer: head,
                head: 0,
            };
            head_reply(&record, exact(&shape), head, row, positions)
        };
        for (row, positions, number) in [
            (3, 3, 7),
            (3, 0, 7),
            (5, 0, 7),
            (0, 0, 7),
            (4, 3, 8),
            (4, 2, 0),
            (4, 0, 0),
        ] {
            assert_eq!(reply(1, row, positions), number);
        }
        assert_eq!([reply(0, 4, 1), reply(0, 4, 0)], [8, 0]);
    }

    #[test]
    fn scores_and_sums_are_refused_of_bf16_and_int8_alone() {
        for (format, number) in [(F32, 0), (BF16, 6), (INT8, 6), (INT4, 0)] {
            let shape = Shape {
                format,
                head_size: 32,
                ..SMALL
            };
            let head = Head { layer: 1, head: 0 };
            let record = Record::opened(&shape);
            assert_eq!(head_reply(&record, exact(&shape), head, 32, 0), number);
        }
    }

    #[test]
    fn a_length_past_the_layers_has_to_be_0() {
        for (place, word, reply) in [(1, 2, 0), (2, 1, 3), (127, 1, 3), (0, 3, 3)] {
            let record = with(&[(FIRST_LENGTH + place, word)]);
            assert_eq!(memory_bytes(&record), reply);
            assert_eq!(cached_len(&record, 0), reply);
        }
    }

    #[test]
    fn an_advance_ends_at_the_largest_word() {
        let record = with(&[(SEQ_LEN, u32::MAX - 1)]);
        assert_eq!(advance(&record, 1), 0);
        assert_eq!(advance(&record, 2), 10);
    }
}
