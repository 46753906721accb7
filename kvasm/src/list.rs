//! The fixed list of call files: each rule of the paper, at its edges.
mod calls;
mod damages;
mod opens;
mod orders;

use crate::history::{history, History};
use crate::shape::INT8;
use crate::text;

/// A named file, or the name of none.
pub struct Case {
    pub name: String,
    pub file: Option<Vec<u8>>,
}

/// Texts that are explained line by line.
const SAMPLES: [(&str, &[u8]); 3] = [
    (
        "sample_withdrawn",
        include_bytes!("../../samples/withdrawn.txt"),
    ),
    (
        "sample_refused",
        include_bytes!("../../samples/refused.txt"),
    ),
    ("sample_bad", include_bytes!("../../samples/bad.txt")),
];

/// Every file, in the order in which they are played.
pub fn all() -> Vec<Case> {
    let mut cases = calls::all();
    cases.extend(opens::all());
    cases.extend(orders::all());
    cases.extend(damages::all());
    // Not the last one, so that it is seen whether the program goes on.
    cases.push(Case {
        name: "never_written.kv".into(),
        file: None,
    });
    cases.extend(SAMPLES.map(|(name, text)| sample(name, text)));
    cases
}

fn case(name: impl Into<String>, history: History) -> Case {
    Case {
        name: name.into() + ".kv",
        file: Some(history.bytes()),
    }
}

fn sample(name: &str, text: &[u8]) -> Case {
    let file = text::assembled(text).expect("a sample has no fault");
    case(name, history().raw(&file))
}

/// A store of two layers, four numbers to a position, three positions.
fn opened() -> History {
    history().open(INT8, [2, 1, 4, 3])
}

/// The same with a position in layer 0, two in layer 1, and 5 as `seq_len`.
fn filled() -> History {
    opened().append(0, 4).append(1, 8).advance(5)
}
