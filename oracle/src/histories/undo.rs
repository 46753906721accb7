//! Histories whose calls take back what earlier ones wrote, compared with fresh stores.
use super::steps::{append, opened, shape, truncate, with_output};
use super::{arguments, at_first, lines, Line, MOST_WORDS};
use crate::calls::{Call, Holdings, Step};
use crate::dice::Dice;
use crate::draws;
use crate::mishaps::with_wrong_room;
use crate::record::{Record, Shape, BF16, F32, INT4, INT8};
use crate::wanted::Wanted;
use crate::words;

/// Layers, heads, head size and capacity; in INT4 a head is a group.
const SHAPES: [(u32, u32, u32, u32); 8] = [
    (1, 1, 3, 6),
    (2, 1, 2, 4),
    (3, 1, 1, 2),
    (4, 1, 1, 2),
    (1, 2, 2, 3),
    (2, 2, 1, 2),
    (1, 3, 1, 2),
    (2, 2, 2, 1),
];
/// The fewest turns of a history, and how many it may have besides.
const TURNS: (u32, u32) = (20, 4);

/// Every history, and the stores that are too large to compare.
pub fn all() -> Vec<Line> {
    let mut lines: Vec<Line> = shapes().zip(0..).flat_map(history).collect();
    lines.extend(many_layers());
    lines.extend(many_survivors());
    lines
}

/// The shapes of the histories.
fn shapes() -> impl Iterator<Item = Shape> {
    let group = |format, head_size| if format == INT4 { 32 } else { head_size };
    [F32, BF16, INT8, INT4].into_iter().flat_map(move |format| {
        SHAPES.map(|(layers, heads, head_size, capacity)| {
            shape(format, layers, heads, group(format, head_size), capacity)
        })
    })
}

/// Random calls, compared now and then and at the end; in every second history all is undone at last.
fn history((shape, piece): (Shape, u64)) -> Vec<Line> {
    let mut dice = Dice::of("undo", piece);
    let mut wanted = at_first();
    let mut lines = played(opened(&shape), &mut wanted);
    for _ in 0..TURNS.0 + dice.below(TURNS.1) {
        let steps = turn(&wanted.holdings, &mut dice);
        lines.extend(played(steps, &mut wanted));
        if dice.below(12) == 0 {
            lines.push(Line::Fresh);
        }
    }
    lines.push(Line::Fresh);
    if piece % 2 == 0 {
        let undone = (0..shape.layers).map(|layer| truncate(layer, 0));
        lines.extend(undone.map(Line::Step));
        lines.push(Line::Fresh);
    }
    lines
}

/// The lines of steps, which are played.
fn played(steps: Vec<Step>, wanted: &mut Wanted) -> Vec<Line> {
    for step in &steps {
        match step {
            Step::Call(call) => {
                wanted.play(call);
            }
            Step::Change(change) => wanted.make(*change),
        }
    }
    lines(steps)
}

/// A call, sometimes with a buffer that is too short or too long.
fn turn(holdings: &Holdings, dice: &mut Dice) -> Vec<Step> {
    match dice.below(12) {
        0 => with_wrong_room(holdings, call, dice),
        _ => vec![Step::Call(call(&holdings.record, dice))],
    }
}

/// A random call that fits on a line, mostly an append or a truncation.
fn call(record: &Record, dice: &mut Dice) -> Call {
    loop {
        let call = match dice.below(16) {
            0..=6 => any_append(record, dice),
            7..=12 => draws::truncate(record, dice),
            13 => draws::advance(record, dice),
            _ => with_output(draws::any_call(record, dice)),
        };
        if arguments(&call).len() < MOST_WORDS {
            return call;
        }
    }
}

/// An append of none, some or too many positions, sometimes torn.
fn any_append(record: &Record, dice: &mut Dice) -> Call {
    let shape = record.shape();
    let layer = draws::layer_of(record, dice);
    let free = shape.capacity.saturating_sub(record.length(layer));
    let positions = match dice.below(12) {
        0 => 0,
        1 => free + 1,
        _ => 1 + dice.below(free),
    };
    let whole = positions as usize * shape.position_numbers() as usize;
    let (keys, values) = match dice.below(12) {
        0 => (whole + 1, whole + 1),
        1 => (whole, whole.saturating_sub(1)),
        _ => (whole, whole),
    };
    Call::Append {
        layer,
        keys: words::filled(keys, number, dice),
        values: words::filled(values, number, dice),
    }
}

/// A number that is mostly moderate.
fn number(dice: &mut Dice) -> u32 {
    match dice.below(8) {
        0 => words::any(dice),
        _ => words::moderate(dice),
    }
}

/// More layers than are kept: nothing in the last, a position, nothing again, no store, and a new one.
fn many_layers() -> Vec<Line> {
    let nine = shape(INT8, 9, 1, 1, 1);
    let steps = vec![
        append(0, &[1], &[2]),
        append(8, &[3], &[4]),
        truncate(8, 0),
        Step::Call(Call::Open(shape(INT8, 0, 1, 1, 1))),
        Step::Call(Call::Open(nine)),
    ];
    [lines(opened(&nine)), each_compared(steps)].concat()
}

/// As many survivors as are kept of a layer, then too many, and few again.
fn many_survivors() -> Vec<Line> {
    let mut dice = Dice::of("undo", SHAPES.len() as u64 * 4);
    let mut positions = |count: usize| {
        let mut numbers = || words::filled(32 * count, words::moderate, &mut dice);
        append(0, &numbers(), &numbers())
    };
    let mut steps = opened(&shape(INT4, 1, 1, 32, 17));
    steps.extend([3; 5].map(&mut positions));
    let last = vec![positions(1), positions(1), truncate(0, 2)];
    [lines(steps), each_compared(last)].concat()
}

/// Steps, after each of which the store is compared.
fn each_compared(steps: Vec<Step>) -> Vec<Line> {
    let compared = |step| [Line::Step(step), Line::Fresh];
    steps.into_iter().flat_map(compared).collect()
}

#[cfg(test)]
mod tests {
    use super::super::{play, Shown};
    use super::*;
    use crate::calls::kind;
    use std::collections::{BTreeMap, BTreeSet};

    /// What the histories of one format have.
    #[derive(Default)]
    struct Seen {
        histories: usize,
        compared: usize,
        /// Kinds of calls with their replies.
        replies: BTreeSet<(u32, u32)>,
        appended: usize,
        removed: usize,
        /// Comparisons of stores in which rows were written where others had been removed.
        over: usize,
    }

    /// The same for each format.
    fn seen() -> BTreeMap<u32, Seen> {
        let mut formats = BTreeMap::<u32, Seen>::new();
        for (shape, piece) in shapes().zip(0..) {
            watch(
                &history((shape, piece)),
                formats.entry(shape.format).or_default(),
            );
        }
        formats
    }

    /// Adds one history to what was seen.
    fn watch(lines: &[Line], seen: &mut Seen) {
        seen.histories += 1;
        let mut before = Record::NONE;
        let mut highest = Record::NONE;
        let mut over = false;
        play(lines, |line, shown, wanted| {
            let record = wanted.holdings.record;
            for (layer, &length) in (0..).zip(record.lengths()) {
                let [was, most] = [&before, &highest].map(|record| record.length(layer));
                seen.appended += usize::from(was < length);
                seen.removed += usize::from(length < was);
                over |= was < length && was < most;
                highest.set_length(layer as usize, most.max(length) as usize);
            }
            match (line, shown) {
                (Line::Step(Step::Call(call)), Shown::Answer(answer)) => {
                    seen.replies.insert((kind(call), answer.reply));
                }
                _ => {
                    seen.compared += 1;
                    seen.over += usize::from(over);
                }
            }
            before = record;
        });
    }

    #[test]
    fn every_format_has_histories_that_take_back_and_write_over() {
        let formats = seen();
        assert!(formats.keys().copied().eq([F32, BF16, INT8, INT4]));
        for seen in formats.values() {
            assert!(seen.histories >= 8 && seen.compared > seen.histories);
            assert!(seen.appended >= 20 && seen.removed >= 20 && seen.over >= 8);
            for reply in [0, 2, 4, 7, 9] {
                assert!(seen.replies.contains(&(2, reply)));
            }
            for reply in [0, 10] {
                assert!(seen.replies.contains(&(4, reply)));
            }
        }
    }

    /// The lines that compare.
    fn compared(lines: &[Line]) -> Vec<String> {
        let mut told = Vec::new();
        play(lines, |_, shown, _| {
            if let Shown::Fresh(line) = shown {
                told.push(line);
            }
        });
        told
    }

    #[test]
    fn every_history_leaves_what_its_survivors_alone_would_leave() {
        for (shape, piece) in shapes().zip(0..) {
            let replies = " 0".repeat(1 + shape.layers as usize);
            let same = format!("fresh replies{replies} same\n");
            let told = compared(&history((shape, piece)));
            assert!(told.iter().all(|line| *line == same));
        }
    }

    #[test]
    fn survivors_that_are_not_kept_are_too_many_until_a_store_is_opened() {
        let large = "fresh too large\n";
        let nine = "fresh replies 0 0 0 0 0 0 0 0 0 same\n";
        assert_eq!(compared(&many_layers()), [nine, large, large, large, nine]);
        let one = "fresh replies 0 0 same\n";
        assert_eq!(compared(&many_survivors()), [one, large, large]);
    }
}
