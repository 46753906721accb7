//! Files that no walk can end: cut records, wrong marks, kinds and counts, and files that are too long.
use super::orders::over_512;
use super::{case, filled, opened, Case};
use crate::history::{history, History};
use crate::model::MOST_BYTES;
use crate::records::MARK;
use crate::shape::{BF16, F32};

/// A mark and a kind, which stand at the start of each record but a report.
const START: usize = 3;

pub fn all() -> Vec<Case> {
    let mut cases = cuts();
    cases.extend(wrong_starts());
    cases.extend(wrong_counts());
    cases.extend(lengths());
    cases
}

/// Each kind cut at each byte; up to its kind byte all are the same.
fn cuts() -> Vec<Case> {
    let kinds = [
        ("open", history().open(BF16, [1, 1, 2, 1]).bytes()),
        ("append", history().append(0, 1).bytes()),
        ("truncate", history().truncate(0, 0).bytes()),
        ("advance", history().advance(1).bytes()),
    ];
    let mut cases: Vec<Case> = (1..START)
        .map(|kept| cut("any", kept, &MARK[..kept]))
        .collect();
    for (name, bytes) in kinds {
        cases.extend((START..bytes.len()).map(|kept| cut(name, kept, &bytes[..kept])));
    }
    cases
}

fn cut(name: &str, kept: usize, bytes: &[u8]) -> Case {
    case(format!("cut_{name}_after_{kept:02}"), before().raw(bytes))
}

/// What stands before the damage.
fn before() -> History {
    opened().report()
}

/// Wrong marks and kinds, each before a record that has to stay unread.
fn wrong_starts() -> Vec<Case> {
    let wrong = |name: &str, start: [u8; 3]| case(name, before().raw(&start).report());
    vec![
        wrong("mark_first_byte_4a", [0x4A, 0x56, 5]),
        wrong("mark_second_byte_57", [0x4B, 0x57, 5]),
        wrong("mark_second_byte_4b", [0x4B, 0x4B, 5]),
        wrong("mark_swapped", [0x56, 0x4B, 5]),
        wrong("kind_0", [0x4B, 0x56, 0]),
        wrong("kind_6", [0x4B, 0x56, 6]),
        wrong("kind_255", [0x4B, 0x56, 255]),
        case("mark_wrong_at_once", history().raw(&[0x4A, 0x56]).report()),
        case("line_feed_at_the_end", filled().report().raw(b"\n")),
    ]
}

fn wrong_counts() -> Vec<Case> {
    let count_only = |count: u16| {
        let [low, high] = count.to_le_bytes();
        before().raw(&[0x4B, 0x56, 2, 0, 0, low, high])
    };
    vec![
        case("count_513", before().raw(&over_512(0)).report()),
        case("count_1024_alone", count_only(1024)),
        case("count_65535_alone", count_only(65535)),
        case("count_512_alone", count_only(512)),
    ]
}

/// Files about as long as the program takes; in the first two every record is whole and accepted.
fn lengths() -> Vec<Case> {
    let whole = |length| history().open(F32, [1, 1, 1, 4096]).filled_to(length);
    let cut = whole(MOST_BYTES - 2).raw(&MARK);
    let bad_at_once = history().raw(&[0]).raw(&whole(MOST_BYTES).bytes());
    vec![
        case("length_16384", whole(MOST_BYTES)),
        case("length_16385", whole(MOST_BYTES + 1)),
        case("length_16384_cut", cut),
        case("length_16385_bad_at_once", bad_at_once),
        case("length_0", history()),
    ]
}
