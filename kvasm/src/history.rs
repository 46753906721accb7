//! A builder of call files.
use crate::records::{Record, MOST_NUMBERS};
use crate::shape::Shape;

/// The bytes of an append beside its numbers, and of one number on both sides.
const APPEND_BYTES: (usize, usize) = (7, 8);
/// The bytes of a report.
const REPORT_BYTES: usize = 3;

/// A call file that grows record by record.
#[derive(Clone, Default)]
pub struct History {
    bytes: Vec<u8>,
}

/// A file without records.
pub fn history() -> History {
    History::default()
}

impl History {
    /// Opens by format and L, H, D and C.
    pub fn open(self, format: u8, sizes: [u16; 4]) -> History {
        self.record(&Record::Open(Shape::new(format, sizes)))
    }

    /// Appends so many numbers a side: keys 1, 2, 3 and so on, values their halves below zero.
    pub fn append(self, layer: u16, numbers: usize) -> History {
        let keys = (1..=numbers).map(|number| number as f32);
        let values = keys.clone().map(|number| number / -2.0);
        self.record(&Record::Append {
            layer,
            keys: keys.map(f32::to_bits).collect(),
            values: values.map(f32::to_bits).collect(),
        })
    }

    pub fn truncate(self, layer: u16, to: u16) -> History {
        self.record(&Record::Truncate { layer, to })
    }

    pub fn advance(self, count: u32) -> History {
        self.record(&Record::Advance { count })
    }

    pub fn report(self) -> History {
        self.record(&Record::Report)
    }

    pub fn record(self, record: &Record) -> History {
        self.raw(&record.bytes())
    }

    /// Adds bytes as they are.
    pub fn raw(mut self, bytes: &[u8]) -> History {
        self.bytes.extend(bytes);
        self
    }

    /// Adds reports and appends to layer 0 until the file is exactly so long; from 40 bytes on there is a way.
    pub fn filled_to(self, length: usize) -> History {
        let (append, number) = APPEND_BYTES;
        let left = length - self.bytes.len();
        if left > append + number * MOST_NUMBERS {
            return self.append(0, MOST_NUMBERS - 8).filled_to(length);
        }
        let fits = |reports: &usize| (left - append - REPORT_BYTES * reports) % number == 0;
        let reports = (0..number).find(fits).expect("3 and 8 share no factor");
        let numbers = (left - append - REPORT_BYTES * reports) / number;
        (0..reports).fold(self.append(0, numbers), |history, _| history.report())
    }

    pub fn len(&self) -> usize {
        self.bytes.len()
    }

    pub fn is_empty(&self) -> bool {
        self.bytes.is_empty()
    }

    /// The file.
    pub fn bytes(self) -> Vec<u8> {
        self.bytes
    }
}
