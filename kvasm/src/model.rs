//! The program that plays a call file, read from the paper: what it prints, without any cell.
use crate::records::{Met, Reader, Record};
use crate::shape::Shape;
use std::fmt;

/// The bytes that the program takes.
pub const MOST_BYTES: usize = 16_384;

/// The number of a refusal.
pub type Refusal = u8;
/// The shape is outside its limits, or there is no store.
pub const OUTSIDE: Refusal = 1;
/// The shape needs more than is at hand.
pub const NO_ROOM: Refusal = 2;
/// The layer is not below L.
pub const NO_LAYER: Refusal = 4;
/// The keys are not whole positions.
pub const TORN: Refusal = 7;
/// The layer has not so many positions left.
pub const FULL: Refusal = 9;
/// `seq_len` would pass the largest word.
pub const SEQ_ENDS: Refusal = 10;

/// What is known of an open store: all but its cells and scale words.
#[derive(Clone, Debug, PartialEq, Eq)]
pub struct Store {
    shape: Shape,
    /// One for each of the L layers.
    lengths: Vec<u64>,
    seq_len: u32,
}

impl Store {
    /// A new store, all lengths and `seq_len` 0.
    pub fn open(shape: Shape) -> Result<Store, Refusal> {
        if !shape.is_within_limits() {
            return Err(OUTSIDE);
        }
        if !shape.is_at_hand() {
            return Err(NO_ROOM);
        }
        Ok(Store {
            shape,
            lengths: vec![0; shape.layers.into()],
            seq_len: 0,
        })
    }

    pub fn shape(&self) -> Shape {
        self.shape
    }

    pub fn seq_len(&self) -> u32 {
        self.seq_len
    }

    /// The positions of a layer; none in a layer that is not there.
    pub fn length(&self, layer: u16) -> u64 {
        self.lengths.get(usize::from(layer)).copied().unwrap_or(0)
    }

    /// Appends so many numbers a side; 1 to 3 cannot apply to an open store.
    fn append(&mut self, layer: u16, numbers: usize) -> Result<(), Refusal> {
        let (position, capacity) = (self.shape.position_numbers(), self.shape.capacity);
        let length = self.layer_length(layer)?;
        if numbers % position != 0 {
            return Err(TORN);
        }
        let longer = *length + (numbers / position) as u64;
        if longer > u64::from(capacity) {
            return Err(FULL);
        }
        *length = longer;
        Ok(())
    }

    /// Truncates a layer; `seq_len` stays.
    fn truncate(&mut self, layer: u16, to: u16) -> Result<(), Refusal> {
        let length = self.layer_length(layer)?;
        *length = (*length).min(to.into());
        Ok(())
    }

    /// Adds to `seq_len` only.
    fn advance(&mut self, count: u32) -> Result<(), Refusal> {
        self.seq_len = self.seq_len.checked_add(count).ok_or(SEQ_ENDS)?;
        Ok(())
    }

    fn layer_length(&mut self, layer: u16) -> Result<&mut u64, Refusal> {
        self.lengths.get_mut(usize::from(layer)).ok_or(NO_LAYER)
    }

    fn byte_count(&self) -> u64 {
        self.lengths.iter().sum::<u64>() * self.shape.position_bytes()
    }
}

/// A report.
impl fmt::Display for Store {
    fn fmt(&self, text: &mut fmt::Formatter) -> fmt::Result {
        write!(text, "seq {} bytes {} len", self.seq_len, self.byte_count())?;
        let mut lengths = self.lengths.iter();
        lengths.try_for_each(|length| write!(text, " {length}"))
    }
}

/// One line that the program prints.
#[derive(Clone, Debug, PartialEq, Eq)]
pub enum Line {
    Ok,
    No(Refusal),
    Report(Store),
    BadAt(usize),
}

impl fmt::Display for Line {
    fn fmt(&self, text: &mut fmt::Formatter) -> fmt::Result {
        match self {
            Line::Ok => write!(text, "ok"),
            Line::No(refusal) => write!(text, "no {refusal}"),
            Line::Report(store) => write!(text, "{store}"),
            Line::BadAt(place) => write!(text, "bad at {place}"),
        }
    }
}

/// What answers record after record: the store, once an open was accepted.
#[derive(Clone, Default)]
pub struct Player {
    pub store: Option<Store>,
}

impl Player {
    /// The line for one record.
    pub fn answer(&mut self, record: &Record) -> Line {
        match self.called(record) {
            Err(refusal) => Line::No(refusal),
            Ok(Some(store)) => Line::Report(store),
            Ok(None) => Line::Ok,
        }
    }

    /// Makes a record's call; a report tells the store as it is.
    fn called(&mut self, record: &Record) -> Result<Option<Store>, Refusal> {
        if let Record::Open(shape) = record {
            // A refused open leaves here, and keeps the store that was there.
            self.store = Some(Store::open(*shape)?);
            return Ok(None);
        }
        let store = self.store.as_mut().ok_or(OUTSIDE)?;
        match record {
            Record::Open(_) => {}
            Record::Append { layer, keys, .. } => store.append(*layer, keys.len())?,
            Record::Truncate { layer, to } => store.truncate(*layer, *to)?,
            Record::Advance { count } => store.advance(*count)?,
            Record::Report => return Ok(Some(store.clone())),
        }
        Ok(None)
    }
}

/// A file that was played.
pub struct Played {
    pub lines: Vec<Line>,
    /// The place where the walk stopped; none where the file was too long to be walked.
    pub place: Option<usize>,
    /// The store at the end.
    pub store: Option<Store>,
}

impl Played {
    /// All lines, each with its line feed.
    pub fn output(&self) -> String {
        let lines = self.lines.iter();
        lines.map(|line| format!("{line}\n")).collect()
    }
}

/// Plays a file.
pub fn play(file: &[u8]) -> Played {
    if file.len() > MOST_BYTES {
        return Played {
            lines: vec![Line::BadAt(MOST_BYTES)],
            place: None,
            store: None,
        };
    }
    let (mut reader, mut player) = (Reader::new(file), Player::default());
    let mut lines = Vec::new();
    loop {
        match reader.meet() {
            Met::Record(record) => lines.push(player.answer(&record)),
            Met::Bad => {
                lines.push(Line::BadAt(reader.place));
                break;
            }
            Met::End => break,
        }
    }
    Played {
        lines,
        place: Some(reader.place),
        store: player.store,
    }
}
