//! Every refusal that the safe interface can reach: its name and number, the store as it was, the output untouched.
mod common;

use common::desk::{token, Desk};
use common::{numbers, row_size, shape, with, FIELDS, FORMATS, REFUSALS, SIDES};
use dice::Dice;
use karonjeenu::{Format, Refusal, Side, Store};
use std::collections::BTreeSet;

/// Positions in each layer of a store that calls are tried on.
const LENGTH: usize = 2;

/// Numbers past every limit; the last two would be 0 and 1 if their upper halves were dropped.
const PAST: [usize; 4] = [usize::MAX, u32::MAX as usize, 1 << 32, (1 << 32) + 1];

fn filled(format: Format) -> Store {
    let mut desk = Desk::open(shape(format));
    let mut dice = Dice::new(40);
    for _ in 0..LENGTH {
        desk.put(token(&mut dice, shape(format), numbers::plains));
    }
    desk.store
}

/// An output with a pattern of its own, signalling NaN that no call writes.
fn pattern(length: usize) -> Vec<f32> {
    let words = 0x7F80_0001..;
    words.take(length).map(f32::from_bits).collect()
}

/// The faults that a call is tried with.
struct Faults(Vec<Refusal>);

impl Faults {
    /// The wrong one where the call has the fault, else the right one.
    fn either<T>(&self, fault: Refusal, wrong: T, right: T) -> T {
        if self.0.contains(&fault) {
            wrong
        } else {
            right
        }
    }
}

/// Asks with every set of faults: it is done without any, and else refused for the one with the lowest number.
fn lowest_is_given(faults: &[Refusal], ask: impl Fn(&Faults) -> Result<(), Refusal>) {
    for set in 0..1 << faults.len() {
        let in_set = (0..faults.len()).filter(|place| (set >> place) & 1 == 1);
        let chosen = Faults(in_set.map(|place| faults[place]).collect());
        let answer = ask(&chosen);
        let lowest = REFUSALS
            .into_iter()
            .find(|refusal| chosen.0.contains(refusal));
        assert_eq!(answer.err(), lowest, "{:?}", chosen.0);
    }
}

/// Asks for an output: it is written throughout, or not at all.
fn asked(length: usize, ask: impl Fn(&mut [f32]) -> Result<(), Refusal>) -> Result<(), Refusal> {
    let mut out = pattern(length);
    let answer = ask(&mut out);
    let untouched = |(x, was): (&f32, &f32)| x.to_bits() == was.to_bits();
    let untouched = out
        .iter()
        .zip(&pattern(length))
        .filter(|pair| untouched(*pair))
        .count();
    assert_eq!(untouched, if answer.is_ok() { 0 } else { length });
    answer
}

/// Changes a store by a call: it is another one afterwards, or as it was.
fn changed(
    store: &mut Store,
    change: impl FnOnce(&mut Store) -> Result<(), Refusal>,
) -> Result<(), Refusal> {
    let before = store.clone();
    let answer = change(store);
    assert_eq!(answer.is_err(), *store == before);
    answer
}

#[test]
fn refusals_have_the_papers_numbers_and_sentences_of_their_own() {
    for (place, refusal) in REFUSALS.into_iter().enumerate() {
        let number = refusal.number().expect("a number");
        assert_eq!(number as usize, place + 1);
    }
    assert_eq!(Refusal::Memory.number(), None);
    let all = REFUSALS.into_iter().chain([Refusal::Memory]);
    let sentences: BTreeSet<String> = all.map(|refusal| refusal.to_string()).collect();
    assert_eq!(sentences.len(), REFUSALS.len() + 1);
}

#[test]
fn append_is_refused() {
    for format in FORMATS {
        lowest_is_given(&[Refusal::Layer, Refusal::Size, Refusal::Full], |faults| {
            let mut store = filled(format);
            let shape = store.shape();
            let layer = faults.either(Refusal::Layer, shape.layers, 1);
            let count = shape.capacity - LENGTH + faults.either(Refusal::Full, 1, 0);
            let short = faults.either(Refusal::Size, 1, 0);
            let keys = vec![0.5; count * row_size(shape) - short];
            changed(&mut store, |store| store.append(layer, &keys, &keys))
        });
    }
}

#[test]
fn append_of_other_lengths_is_refused() {
    let mut store = filled(Format::Int8);
    let row = row_size(store.shape());
    let numbers = vec![0.5; 2 * row];
    for (keys, values) in [
        (row, row - 1),
        (row, 2 * row),
        (row, 0),
        (0, row),
        (row + 1, row + 1),
        (1, 1),
    ] {
        let answer = changed(&mut store, |store| {
            store.append(0, &numbers[..keys], &numbers[..values])
        });
        assert_eq!(answer, Err(Refusal::Size), "{keys} and {values}");
    }
}

#[test]
fn truncation_and_length_are_refused() {
    lowest_is_given(&[Refusal::Layer], |faults| {
        let mut store = filled(Format::Int4);
        let layers = store.shape().layers;
        let layer = faults.either(Refusal::Layer, layers, layers - 1);
        let length = faults.either(Refusal::Layer, Err(Refusal::Layer), Ok(LENGTH));
        assert_eq!(store.cached_len(layer), length);
        changed(&mut store, |store| store.truncate_to(layer, 1))
    });
}

#[test]
fn advance_is_refused() {
    lowest_is_given(&[Refusal::Sequence], |faults| {
        let mut store = filled(Format::Bf16);
        let count = u32::MAX - store.seq_len() + faults.either(Refusal::Sequence, 1, 0);
        changed(&mut store, |store| store.advance_seq_len(count))
    });
}

#[test]
fn row_is_refused() {
    let faults = [
        Refusal::Layer,
        Refusal::Head,
        Refusal::Size,
        Refusal::Position,
    ];
    for (format, side, by_one) in
        each(FORMATS).flat_map(|(format, by_one)| SIDES.map(|side| (format, side, by_one)))
    {
        lowest_is_given(&faults, |faults| {
            let (store, layer, head) = place(format, faults);
            let position = faults.either(Refusal::Position, LENGTH, LENGTH - 1);
            let size = store.shape().head_size;
            let length = faults.either(Refusal::Size, by_one(size), size);
            asked(length, |out| {
                store.read_row(layer, side, head, position, out)
            })
        });
    }
}

/// Each format with each way to be wrong by one.
fn each<const N: usize>(
    formats: [Format; N],
) -> impl Iterator<Item = (Format, fn(usize) -> usize)> {
    let ways: [fn(usize) -> usize; 2] = [|size| size - 1, |size| size + 1];
    formats
        .into_iter()
        .flat_map(move |format| ways.map(|by_one| (format, by_one)))
}

/// The store, layer and head that are asked, with their faults.
fn place(format: Format, faults: &Faults) -> (Store, usize, usize) {
    let store = filled(faults.either(Refusal::Format, Format::Int8, format));
    let (layers, heads) = (store.shape().layers, store.shape().heads);
    let layer = faults.either(Refusal::Layer, layers, layers - 1);
    let head = faults.either(Refusal::Head, heads, heads - 1);
    (store, layer, head)
}

const OF_ATTENTION: [Refusal; 5] = [
    Refusal::Layer,
    Refusal::Head,
    Refusal::Format,
    Refusal::Size,
    Refusal::Position,
];

#[test]
fn scores_are_refused() {
    for (format, by_one) in each([Format::F32, Format::Int4]) {
        lowest_is_given(&OF_ATTENTION, |faults| {
            let (store, layer, head) = place(format, faults);
            let size = store.shape().head_size;
            let query = vec![0.5; faults.either(Refusal::Size, by_one(size), size)];
            let count = faults.either(Refusal::Position, LENGTH + 1, LENGTH);
            asked(count, |out| store.scores(layer, head, &query, 0.5, out))
        });
    }
}

#[test]
fn sums_are_refused() {
    for (format, by_one) in each([Format::F32, Format::Int4]) {
        lowest_is_given(&OF_ATTENTION, |faults| {
            let (store, layer, head) = place(format, faults);
            let size = store.shape().head_size;
            let length = faults.either(Refusal::Size, by_one(size), size);
            let weights = vec![0.5; faults.either(Refusal::Position, LENGTH + 1, LENGTH)];
            asked(length, |out| store.sums(layer, head, &weights, out))
        });
    }
}

#[test]
fn shape_outside_the_limits_is_refused() {
    for format in FORMATS {
        assert!(Store::open(shape(format)).is_ok());
        for number in PAST.into_iter().chain([0]) {
            for shape in FIELDS.map(|field| with(shape(format), field, number)) {
                assert_eq!(shape.need(), Err(Refusal::Shape), "{shape:?}");
                assert_eq!(Store::open(shape), Err(Refusal::Shape), "{shape:?}");
            }
        }
    }
}

#[test]
fn numbers_past_every_limit_are_refused() {
    for format in [Format::F32, Format::Int4] {
        let mut store = filled(format);
        let size = store.shape().head_size;
        let row = vec![0.5; row_size(store.shape())];
        for past in PAST {
            let answer = changed(&mut store, |store| store.append(past, &row, &row));
            assert_eq!(answer, Err(Refusal::Layer));
            let answer = changed(&mut store, |store| store.truncate_to(past, 0));
            assert_eq!(answer, Err(Refusal::Layer));
            assert_eq!(store.cached_len(past), Err(Refusal::Layer));
            for (layer, head, position, refusal) in [
                (past, 0, 0, Refusal::Layer),
                (0, past, 0, Refusal::Head),
                (0, 0, past, Refusal::Position),
            ] {
                let answer = asked(size, |out| {
                    store.read_row(layer, Side::Values, head, position, out)
                });
                assert_eq!(answer, Err(refusal));
            }
            for (layer, head, refusal) in [(past, 0, Refusal::Layer), (0, past, Refusal::Head)] {
                let query = &row[..size];
                let answer = asked(LENGTH, |out| store.scores(layer, head, query, 1.0, out));
                assert_eq!(answer, Err(refusal));
                let answer = asked(size, |out| store.sums(layer, head, &[], out));
                assert_eq!(answer, Err(refusal));
            }
        }
    }
}

#[test]
fn cut_at_or_past_the_length_changes_nothing() {
    for format in FORMATS {
        let mut store = filled(format);
        let before = store.clone();
        for t in [LENGTH, LENGTH + 1, store.shape().capacity]
            .into_iter()
            .chain(PAST)
        {
            assert_eq!(store.truncate_to(0, t), Ok(()));
            assert_eq!(store, before, "{t}");
        }
        assert_eq!(store.truncate_to(0, LENGTH - 1), Ok(()));
        assert_ne!(store, before);
    }
}

#[test]
fn empty_slices_are_taken_or_refused() {
    for format in FORMATS {
        let mut store = filled(format);
        let before = store.clone();
        let size = store.shape().head_size;
        let query = vec![1.0; size];
        assert_eq!(store.append(0, &[], &[]), Ok(()));
        assert_eq!(store, before, "no positions");
        let layers = store.shape().layers;
        assert_eq!(store.append(layers, &[], &[]), Err(Refusal::Layer));
        assert_eq!(
            store.read_row(0, Side::Keys, 0, 0, &mut []),
            Err(Refusal::Size)
        );
        let (taken, short) = match format {
            Format::F32 | Format::Int4 => (Ok(()), Err(Refusal::Size)),
            _ => (Err(Refusal::Format), Err(Refusal::Format)),
        };
        assert_eq!(store.scores(0, 0, &query, 1.0, &mut []), taken);
        assert_eq!(store.scores(0, 0, &[], 1.0, &mut []), short);
        assert_eq!(store.sums(0, 0, &[], &mut []), short);
        assert_eq!(asked(size, |out| store.sums(0, 0, &[], out)), taken);
    }
}

#[test]
fn refused_append_between_two_good_ones_counts_for_nothing() {
    for format in FORMATS {
        let (mut one, mut other) = (filled(format), filled(format));
        let row = vec![0.25; row_size(one.shape())];
        one.append(1, &row, &row).expect("room for it");
        let answer = changed(&mut one, |store| store.append(1, &row, &row[1..]));
        assert_eq!(answer, Err(Refusal::Size));
        one.append(1, &row, &row).expect("room for it");
        let rows = [row.clone(), row].concat();
        other.append(1, &rows, &rows).expect("room for it");
        assert_eq!(one, other);
    }
}

#[test]
fn debug_tells_no_contents() {
    let shape = with(shape(Format::F32), "head_size", 1);
    let mut store = Store::open(shape).expect("a shape inside the limits");
    let row = vec![f32::from_bits(0xABAB_ABAB); row_size(shape)];
    store.append(2, &row, &row).expect("room for it");
    let told = format!("{store:?}");
    assert!(
        told.contains("lens: [0, 0, 1]") && told.contains("seq_len: 0"),
        "{told}"
    );
    assert!(!told.contains("171") && told.len() < 300, "{told}");
}
