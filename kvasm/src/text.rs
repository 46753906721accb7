//! The text of a call file, one record a line:
//!
//! ```text
//! open int8 layers 1 heads 1 size 4 room 2          # f32, bf16, int8, int4 or a number from 0 to 255
//! append 0 keys 127 0.5 -0.5 -2.5 values 0 0 0 0    # a decimal, inf, -inf or exact bits as x7FC00001
//! truncate 0 1                                      # a layer and its new length
//! advance 5
//! report
//! bytes 4B 56 09                                    # as they stand, to write a damaged file
//! ```
//!
//! `#` starts a comment. An append has as many values as keys, at most 512.
use crate::numbers;
use crate::records::{Record, MOST_NUMBERS};
use crate::shape::Shape;
use std::str::SplitWhitespace;

/// The words for the formats 0 to 3.
pub const FORMATS: [&str; 4] = ["f32", "bf16", "int8", "int4"];

/// What is wrong with a text, and in which line.
#[derive(Debug, PartialEq, Eq)]
pub struct Fault {
    pub line: usize,
    pub what: String,
}

/// The call file of a text.
pub fn assembled(text: &[u8]) -> Result<Vec<u8>, Fault> {
    let mut file = Vec::new();
    for (text, line) in text.split(|byte| *byte == b'\n').zip(1..) {
        let bytes = line_bytes(&String::from_utf8_lossy(text));
        file.extend(bytes.map_err(|what| Fault { line, what })?);
    }
    Ok(file)
}

/// The bytes of a line; none of one that holds no record.
fn line_bytes(line: &str) -> Result<Vec<u8>, String> {
    let before_comment = line.split('#').next().unwrap_or("");
    let mut words = Words(before_comment.split_whitespace());
    let bytes = match words.0.next() {
        None => Vec::new(),
        Some("open") => words.open()?.bytes(),
        Some("append") => words.append()?.bytes(),
        Some("truncate") => words.truncate()?.bytes(),
        Some("advance") => words.advance()?.bytes(),
        Some("report") => Record::Report.bytes(),
        Some("bytes") => words.bytes()?,
        Some(other) => return Err(format!("{other:?} is no record")),
    };
    match words.0.next() {
        None => Ok(bytes),
        Some(more) => Err(format!("{more:?} where the line should end")),
    }
}

/// The words of a line that are still to be taken.
struct Words<'a>(SplitWhitespace<'a>);

impl<'a> Words<'a> {
    fn open(&mut self) -> Result<Record, String> {
        let format = self.format()?;
        let mut sizes = [0; 4];
        for (size, name) in sizes.iter_mut().zip(["layers", "heads", "size", "room"]) {
            self.expect(name)?;
            *size = self.half()?;
        }
        Ok(Record::Open(Shape::new(format, sizes)))
    }

    fn append(&mut self) -> Result<Record, String> {
        let layer = self.half()?;
        self.expect("keys")?;
        let keys = self.keys()?;
        let values = self.values()?;
        if keys.len() != values.len() {
            let (keys, values) = (keys.len(), values.len());
            return Err(format!("an append of {keys} keys and {values} values"));
        }
        if keys.len() > MOST_NUMBERS {
            let numbers = keys.len();
            return Err(format!("an append of {numbers} keys, over {MOST_NUMBERS}"));
        }
        Ok(Record::Append {
            layer,
            keys,
            values,
        })
    }

    fn truncate(&mut self) -> Result<Record, String> {
        Ok(Record::Truncate {
            layer: self.half()?,
            to: self.half()?,
        })
    }

    fn advance(&mut self) -> Result<Record, String> {
        Ok(Record::Advance {
            count: self.number(u32::MAX)?,
        })
    }

    /// Two hex digits a byte.
    fn bytes(&mut self) -> Result<Vec<u8>, String> {
        let byte = |word| numbers::hex(word, 2).ok_or(format!("{word:?} is no byte in hex"));
        let bytes = self.0.by_ref().map(byte);
        bytes.map(|byte| byte.map(|byte| byte as u8)).collect()
    }

    fn format(&mut self) -> Result<u8, String> {
        let word = self.word("a format")?;
        let named = FORMATS.iter().zip(0..).find(|(name, _)| **name == word);
        match named {
            Some((_, format)) => Ok(format),
            None => number(word, u8::MAX.into()).map(|format| format as u8),
        }
    }

    /// The numbers up to the word `values`.
    fn keys(&mut self) -> Result<Vec<u32>, String> {
        let mut keys = Vec::new();
        loop {
            match self.word("\"values\"")? {
                "values" => return Ok(keys),
                word => keys.push(float(word)?),
            }
        }
    }

    /// The numbers up to the line's end.
    fn values(&mut self) -> Result<Vec<u32>, String> {
        self.0.by_ref().map(float).collect()
    }

    fn expect(&mut self, name: &str) -> Result<(), String> {
        match self.word(&format!("{name:?}"))? {
            word if word == name => Ok(()),
            other => Err(format!("{other:?} where {name:?} belongs")),
        }
    }

    fn half(&mut self) -> Result<u16, String> {
        self.number(u16::MAX.into()).map(|number| number as u16)
    }

    fn number(&mut self, most: u32) -> Result<u32, String> {
        number(self.word(&format!("a number from 0 to {most}"))?, most)
    }

    fn word(&mut self, wanted: &str) -> Result<&'a str, String> {
        let missing = || format!("the line ends where {wanted} belongs");
        self.0.next().ok_or_else(missing)
    }
}

/// A whole number up to the largest that its field holds.
fn number(word: &str, most: u32) -> Result<u32, String> {
    // The standard parse also takes a sign.
    let digits = word.chars().all(|digit| digit.is_ascii_digit());
    let number = word.parse().ok().filter(|number| digits && *number <= most);
    number.ok_or_else(|| format!("{word:?} is no number from 0 to {most}"))
}

/// The bits of a key or value.
fn float(word: &str) -> Result<u32, String> {
    numbers::bits_of(word).ok_or_else(|| format!("{word:?} is no key or value"))
}
