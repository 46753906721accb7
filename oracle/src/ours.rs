//! A caller of the library.
use crate::boundary::{self, Lending};
use crate::calls::{Answer, Call, Holdings, Told};

/// What a count holds before it is asked for.
const DIRT: u64 = 0xA5A5_A5A5_A5A5_A5A5;

/// The caller's holdings as the library leaves them.
pub struct Ours {
    pub holdings: Holdings,
}

impl Ours {
    /// Plays a call, and tells every bit of what it made.
    pub fn play(&mut self, call: &Call) -> Answer {
        match call {
            Call::Open(shape) => plain(boundary::open(self.lending(), shape)),
            Call::Append {
                layer,
                keys,
                values,
            } => plain(self.append(*layer, keys, values)),
            Call::Truncate { layer, to } => plain(boundary::truncate(self.lending(), *layer, *to)),
            Call::Advance { count } => plain(boundary::advance(self.record(), *count)),
            Call::CachedLen { layer } => {
                counted(|count| boundary::cached_len(self.record(), *layer, count))
            }
            Call::MemoryBytes => counted(|count| boundary::memory_bytes(self.record(), count)),
            Call::ReadRow {
                place,
                output,
                lent,
            } => {
                let mut output = output.clone();
                let reply = boundary::read_row(self.lending(), *place, &mut output[..*lent]);
                filled(reply, output)
            }
            Call::Scores {
                head,
                query,
                scale,
                output,
                lent,
            } => {
                let mut output = output.clone();
                let (scale, places) = (f32::from_bits(*scale), &mut output[..*lent]);
                let reply = boundary::scores(self.lending(), *head, query, scale, places);
                filled(reply, output)
            }
            Call::Sums {
                head,
                weights,
                output,
                lent,
            } => {
                let mut output = output.clone();
                let places = &mut output[..*lent];
                let reply = boundary::sums(self.lending(), *head, weights, places);
                filled(reply, output)
            }
        }
    }

    /// Appends positions to a layer; the reply.
    pub fn append(&mut self, layer: u32, keys: &[u32], values: &[u32]) -> u32 {
        boundary::append(self.lending(), layer, keys, values)
    }

    /// The words of the record.
    fn record(&mut self) -> &mut [u32; crate::record::WORDS] {
        &mut self.holdings.record.0
    }

    /// The record and the lent fronts of the buffers.
    fn lending(&mut self) -> Lending<'_> {
        let holdings = &mut self.holdings;
        Lending {
            record: &mut holdings.record.0,
            cells: &mut holdings.cells[..holdings.lent.cells],
            scales: &mut holdings.scales[..holdings.lent.scales],
        }
    }
}

/// A reply alone.
fn plain(reply: u32) -> Answer {
    let told = Told::Nothing;
    Answer { reply, told }
}

/// A reply with a whole output.
fn filled(reply: u32, output: Vec<u32>) -> Answer {
    let told = Told::Output(output);
    Answer { reply, told }
}

/// The reply and the count of a question.
fn counted(ask: impl FnOnce(&mut u64) -> u32) -> Answer {
    let mut count = DIRT;
    let reply = ask(&mut count);
    let told = Told::Count(count);
    Answer { reply, told }
}
