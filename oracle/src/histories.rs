//! The second fixed list: calls on small stores, and the answers that a Rattle program gives again.
mod fresh;
mod heads;
mod list;
mod steps;
mod undo;

use crate::calls::{kind, Answer, Call, Change, Holdings, Step, Told};
use crate::record::{Lent, Record};
use crate::wanted::Wanted;
use fresh::Kept;
use std::path::Path;
use std::{fs, io};

/// Cell bytes at hand, and what each holds at first.
const CELLS: (usize, u8) = (2048, 0xA5);
/// Scale words at hand, and what each holds at first.
const SCALES: (usize, u32) = (256, 0xA5A5_A5A5);
/// What each place of an output holds before a call: a NaN, whose sign and payload a refused call keeps.
const OUTPUT: u32 = 0xFF80_DEAD;
/// Words of a line at most.
const MOST_WORDS: usize = 256;

/// One line of the list.
#[derive(Clone)]
enum Line {
    Step(Step),
    /// The store against a fresh one.
    Fresh,
}

/// What is told of a line: a call's answer, or how the store compares with a fresh one.
enum Shown {
    Answer(Answer),
    Fresh(String),
}

/// The lines of steps.
fn lines(steps: Vec<Step>) -> Vec<Line> {
    steps.into_iter().map(Line::Step).collect()
}

/// Writes the list to the files `stdin` and `stdout` of a folder.
pub fn write(folder: &Path) -> io::Result<()> {
    let lines = list::all();
    fs::create_dir_all(folder)?;
    fs::write(
        folder.join("stdin"),
        lines.iter().map(asked).collect::<String>(),
    )?;
    fs::write(folder.join("stdout"), answers(&lines))
}

/// What the program has before its first line.
fn at_first() -> Wanted {
    Wanted::new(Holdings {
        record: Record::NONE,
        cells: vec![CELLS.1; CELLS.0],
        scales: vec![SCALES.1; SCALES.0],
        lent: Lent {
            cells: 0,
            scales: 0,
        },
    })
}

/// A line of `stdin`.
fn asked(line: &Line) -> String {
    let words: Vec<String> = words_of(line)
        .iter()
        .map(|word| format!("{word:08X}"))
        .collect();
    words.join(" ") + "\n"
}

/// A line as words: its kind, then what it takes.
fn words_of(line: &Line) -> Vec<u32> {
    match line {
        Line::Step(Step::Call(call)) => [vec![kind(call)], arguments(call)].concat(),
        Line::Step(Step::Change(change)) => change_words(change),
        Line::Fresh => vec![14],
    }
}

/// A change as words.
fn change_words(change: &Change) -> Vec<u32> {
    match *change {
        Change::Lend(lent) => vec![8, lent.cells as u32, lent.scales as u32],
        Change::RecordWord(place, word) => vec![9, place as u32, word],
        Change::CellByte(place, byte) => vec![10, place as u32, u32::from(byte)],
        Change::ScaleWord(place, word) => vec![11, place as u32, word],
    }
}

/// What a call takes, as words.
fn arguments(call: &Call) -> Vec<u32> {
    match call {
        Call::Open(shape) => Record::opened(shape).0[..5].to_vec(),
        Call::Append {
            layer,
            keys,
            values,
        } => [&[*layer, keys.len() as u32], &keys[..], values].concat(),
        Call::Truncate { layer, to } => vec![*layer, *to],
        Call::Advance { count } => vec![*count],
        Call::CachedLen { layer } => vec![*layer],
        Call::MemoryBytes => Vec::new(),
        Call::ReadRow { place, lent, .. } => vec![
            place.layer,
            place.side,
            place.head,
            place.position,
            *lent as u32,
        ],
        Call::Scores {
            head,
            query,
            scale,
            lent,
            ..
        } => [&[head.layer, head.head, *scale, *lent as u32], &query[..]].concat(),
        Call::Sums {
            head,
            weights,
            lent,
            ..
        } => [&[head.layer, head.head, *lent as u32], &weights[..]].concat(),
    }
}

/// The text of `stdout`.
fn answers(lines: &[Line]) -> String {
    let mut text = String::new();
    play(lines, |_, shown, wanted| {
        text += &match shown {
            Shown::Answer(answer) => answered(&answer, &wanted.holdings),
            Shown::Fresh(line) => line,
        };
    });
    text
}

/// Plays lines, and shows each of which something is told, with that and what the caller has to hold.
fn play(lines: &[Line], mut show: impl FnMut(&Line, Shown, &mut Wanted)) {
    let mut wanted = at_first();
    let mut kept = Kept::nothing(&Record::NONE.shape());
    for line in lines {
        match line {
            Line::Step(Step::Call(call)) => {
                let answer = wanted.play(call);
                if answer.reply == 0 {
                    kept.follow(call);
                }
                show(line, Shown::Answer(answer), &mut wanted);
            }
            Line::Step(Step::Change(change)) => wanted.make(*change),
            Line::Fresh => {
                let told = kept.compared(&wanted.holdings);
                show(line, Shown::Fresh(told), &mut wanted);
            }
        }
    }
}

/// The lines of `stdout` that answer a call: where it may change something, with all that it leaves.
fn answered(answer: &Answer, holdings: &Holdings) -> String {
    let reply = answer.reply;
    match &answer.told {
        Told::Nothing => format!("reply {reply}\n{}", left(holdings)),
        Told::Count(count) => format!("reply {reply} count {count}\n"),
        Told::Output(output) => format!("reply {reply} numbers{}\n", words_text(output)),
    }
}

/// The lines of the record and of what is lent.
fn left(holdings: &Holdings) -> String {
    let cells = &holdings.cells[..holdings.lent.cells];
    let cells: String = cells.iter().map(|byte| format!(" {byte:02x}")).collect();
    let scales = words_text(&holdings.scales[..holdings.lent.scales]);
    let record = record_text(&holdings.record);
    format!("record{record}\ncells{cells}\nscales{scales}\n")
}

/// A record: its shape, `seq_len`, and the lengths up to the last that is not 0.
fn record_text(record: &Record) -> String {
    let lengths = record.lengths();
    let last = lengths.iter().rposition(|length| *length != 0);
    let lengths = &lengths[..last.map_or(0, |last| last + 1)];
    let numbers =
        |words: &[u32]| -> String { words.iter().map(|word| format!(" {word}")).collect() };
    let (shape, lengths) = (numbers(&record.0[..5]), numbers(lengths));
    format!("{shape} seq {} lens{lengths}", record.seq_len())
}

/// Words, each after a space.
fn words_text(words: &[u32]) -> String {
    words.iter().map(|word| format!(" {word:08x}")).collect()
}

#[cfg(test)]
mod tests {
    use super::*;
    use crate::parts::heads::wrong;
    use crate::replies;
    use std::collections::BTreeSet;

    /// Bytes of `stdin` that the program takes.
    const MOST_BYTES: usize = 262_144;

    #[test]
    fn every_call_of_the_list_gives_each_of_its_replies() {
        let mut seen = BTreeSet::new();
        play(&list::all(), |line, shown, _| {
            if let (Line::Step(Step::Call(call)), Shown::Answer(answer)) = (line, shown) {
                seen.insert((kind(call), answer.reply));
            }
        });
        assert_eq!(seen, replies::each());
    }

    #[test]
    fn every_wrong_order_shows_in_scores_and_sums_by_hand() {
        let mut told = BTreeSet::new();
        play(&lines(heads::all()), |line, shown, wanted| {
            let (Line::Step(Step::Call(call)), Shown::Answer(answer)) = (line, shown) else {
                return;
            };
            if let (0, Told::Output(made)) = (answer.reply, answer.told) {
                told.extend(wrong::told_apart(call, &made, wanted));
            }
        });
        assert_eq!(told, wrong::names().collect());
    }

    #[test]
    fn the_list_fits_into_the_program() {
        let lines = list::all();
        let bytes: usize = lines.iter().map(|line| asked(line).len()).sum();
        assert!(bytes <= MOST_BYTES);
        for line in lines {
            assert!(words_of(&line).len() <= MOST_WORDS);
            if let Line::Step(Step::Call(
                Call::ReadRow { output, lent, .. }
                | Call::Scores { output, lent, .. }
                | Call::Sums { output, lent, .. },
            )) = line
            {
                assert!(output == vec![OUTPUT; lent] && lent <= 256);
            }
        }
    }

    #[test]
    fn the_group_of_p2_has_the_score_and_the_sums_of_p9() {
        let text = answers(&lines(heads::group_of_p2()));
        let zeros = " 00000000".repeat(15);
        let sums = format!("3fe00000{zeros} bfe00000{zeros}");
        assert!(text.ends_with(&format!(
            "reply 0 numbers c0600000\nreply 0 numbers {sums}\n"
        )));
    }

    #[test]
    fn rising_sums_lose_what_stands_beside_a_larger_number() {
        let text = answers(&lines(heads::orders()));
        let numbers = "3f800000 00000000 b9800000 7f800000";
        assert_eq!(
            text.matches(&format!("reply 0 numbers {numbers}\n"))
                .count(),
            2
        );
    }

    #[test]
    fn keys_of_the_whole_case_lie_in_the_first_cells() {
        let text = answers(&lines(list::whole_case()));
        let cells = format!("cells 7f 01 ff fd{}\n", " 00".repeat(12));
        let scales = "scales 3f800000 00000000 3f800000 00000000\n";
        assert!(text.contains(&format!(
            "reply 0\nrecord 2 1 1 4 2 seq 0 lens 1\n{cells}{scales}"
        )));
    }

    #[test]
    fn a_refused_open_leaves_a_record_of_zeros() {
        let text = answers(&lines(list::largest()));
        let none = "record 0 0 0 0 0 seq 0 lens\ncells\nscales\n";
        assert_eq!(text, format!("reply 2\n{none}reply 1\n{none}"));
    }
}
