//! A call file back as text; that text assembles to the same bytes, whatever the file.
use crate::numbers;
use crate::records::{Met, Reader, Record};
use crate::shape::Shape;
use crate::text::FORMATS;

/// Bytes on a line of bytes.
const BYTES: usize = 16;

/// The text of a file: its records, and from where the walk meets none its bytes.
pub fn back(file: &[u8]) -> String {
    let mut reader = Reader::new(file);
    let mut lines = Vec::new();
    while let Met::Record(record) = reader.meet() {
        lines.push(record_line(&record));
    }
    if !reader.rest().is_empty() {
        lines.push(format!("# bad at {}", reader.place));
        lines.extend(reader.rest().chunks(BYTES).map(bytes_line));
    }
    lines.into_iter().map(|line| line + "\n").collect()
}

fn record_line(record: &Record) -> String {
    match record {
        Record::Open(shape) => open_line(shape),
        Record::Append {
            layer,
            keys,
            values,
        } => {
            let (keys, values) = (listed(keys), listed(values));
            format!("append {layer} keys{keys} values{values}")
        }
        Record::Truncate { layer, to } => format!("truncate {layer} {to}"),
        Record::Advance { count } => format!("advance {count}"),
        Record::Report => "report".into(),
    }
}

fn open_line(shape: &Shape) -> String {
    let named = FORMATS.get(usize::from(shape.format));
    let format = named.map_or(shape.format.to_string(), |name| name.to_string());
    let [layers, heads, size, room] = shape.sizes();
    format!("open {format} layers {layers} heads {heads} size {size} room {room}")
}

/// The numbers, each after a space.
fn listed(numbers: &[u32]) -> String {
    let words = numbers.iter().map(|bits| numbers::word_of(*bits));
    words.map(|word| format!(" {word}")).collect()
}

fn bytes_line(bytes: &[u8]) -> String {
    let words = bytes.iter().map(|byte| format!(" {byte:02X}"));
    words.fold("bytes".into(), |line, word| line + &word)
}
