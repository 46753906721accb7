//! The records of a call file, and the reader that walks them.
use crate::shape::Shape;

/// What each record opens with.
pub const MARK: [u8; 2] = [0x4B, 0x56];
/// The most numbers a side of an append.
pub const MOST_NUMBERS: usize = 512;

pub const OPEN: u8 = 1;
pub const APPEND: u8 = 2;
pub const TRUNCATE: u8 = 3;
pub const ADVANCE: u8 = 4;
pub const REPORT: u8 = 5;

/// One record; numbers are float bits.
#[derive(Clone, Debug, PartialEq, Eq)]
pub enum Record {
    Open(Shape),
    /// As many values as keys.
    Append {
        layer: u16,
        keys: Vec<u32>,
        values: Vec<u32>,
    },
    Truncate {
        layer: u16,
        to: u16,
    },
    Advance {
        count: u32,
    },
    Report,
}

impl Record {
    /// The record as it stands in a file.
    pub fn bytes(&self) -> Vec<u8> {
        let mut bytes = MARK.to_vec();
        match self {
            Record::Open(shape) => {
                bytes.extend([OPEN, shape.format]);
                bytes.extend(shape.sizes().iter().flat_map(|size| size.to_le_bytes()));
            }
            Record::Append {
                layer,
                keys,
                values,
            } => {
                bytes.push(APPEND);
                bytes.extend(layer.to_le_bytes());
                bytes.extend((keys.len() as u16).to_le_bytes());
                let numbers = keys.iter().chain(values);
                bytes.extend(numbers.flat_map(|number| number.to_le_bytes()));
            }
            Record::Truncate { layer, to } => {
                bytes.push(TRUNCATE);
                bytes.extend(layer.to_le_bytes());
                bytes.extend(to.to_le_bytes());
            }
            Record::Advance { count } => {
                bytes.push(ADVANCE);
                bytes.extend(count.to_le_bytes());
            }
            Record::Report => bytes.push(REPORT),
        }
        bytes
    }
}

/// What a reader meets at its place.
#[derive(Debug, PartialEq, Eq)]
pub enum Met {
    Record(Record),
    /// A wrong mark, kind or n, or a cut record; the reader stays at its first byte.
    Bad,
    End,
}

/// A file and a place in it.
pub struct Reader<'a> {
    file: &'a [u8],
    pub place: usize,
}

impl<'a> Reader<'a> {
    /// A reader at a file's first byte.
    pub fn new(file: &'a [u8]) -> Reader<'a> {
        Reader { file, place: 0 }
    }

    /// What stands from the place on.
    pub fn rest(&self) -> &'a [u8] {
        &self.file[self.place..]
    }

    /// Meets what stands at the place, and goes past it where it is a record.
    pub fn meet(&mut self) -> Met {
        if self.rest().is_empty() {
            return Met::End;
        }
        let mut fields = Fields { rest: self.rest() };
        match fields.record() {
            Some(record) => {
                self.place = self.file.len() - fields.rest.len();
                Met::Record(record)
            }
            None => Met::Bad,
        }
    }
}

/// The fields that are still to be taken; each answer is none where the file is cut.
struct Fields<'a> {
    rest: &'a [u8],
}

impl Fields<'_> {
    /// A whole record, where one stands here.
    fn record(&mut self) -> Option<Record> {
        if self.bytes::<2>()? != MARK {
            return None;
        }
        match self.byte()? {
            OPEN => self.open(),
            APPEND => self.append(),
            TRUNCATE => Some(Record::Truncate {
                layer: self.half()?,
                to: self.half()?,
            }),
            ADVANCE => Some(Record::Advance {
                count: self.word()?,
            }),
            REPORT => Some(Record::Report),
            _ => None,
        }
    }

    fn open(&mut self) -> Option<Record> {
        let format = self.byte()?;
        let sizes = [self.half()?, self.half()?, self.half()?, self.half()?];
        Some(Record::Open(Shape::new(format, sizes)))
    }

    fn append(&mut self) -> Option<Record> {
        let layer = self.half()?;
        let numbers = usize::from(self.half()?);
        if numbers > MOST_NUMBERS {
            return None;
        }
        Some(Record::Append {
            layer,
            keys: self.words(numbers)?,
            values: self.words(numbers)?,
        })
    }

    fn byte(&mut self) -> Option<u8> {
        self.bytes().map(u8::from_le_bytes)
    }

    fn half(&mut self) -> Option<u16> {
        self.bytes().map(u16::from_le_bytes)
    }

    fn word(&mut self) -> Option<u32> {
        self.bytes().map(u32::from_le_bytes)
    }

    fn words(&mut self, count: usize) -> Option<Vec<u32>> {
        (0..count).map(|_| self.word()).collect()
    }

    fn bytes<const N: usize>(&mut self) -> Option<[u8; N]> {
        let bytes = self.rest.get(..N)?.try_into().ok()?;
        self.rest = &self.rest[N..];
        Some(bytes)
    }
}
