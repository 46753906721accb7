//! What every call has to answer and to leave: replies from the paper's table, the rest from the lifted store.
use crate::calls::{Answer, Call, Change, Holdings, Told};
use crate::record::{Lent, Record, Shape, INT4, INT8, SEQ_LEN};
use crate::replies::{self, Head, Place};
use crate::rows::{empty_store, row_of, store_in, Picture, Room};
use crate::rust_store::KvStore;
use crate::{heads, rules, words};

/// The caller's holdings as they have to be, and the lifted store that lies in them.
pub struct Wanted {
    pub holdings: Holdings,
    store: Option<KvStore>,
    /// The record under which the lifted store was last right.
    known: Record,
}

impl Wanted {
    /// Holdings in which no store was opened yet.
    pub fn new(holdings: Holdings) -> Wanted {
        Wanted {
            known: holdings.record,
            holdings,
            store: None,
        }
    }

    /// Makes a change of the caller's.
    pub fn make(&mut self, change: Change) {
        if let Change::CellByte(..) | Change::ScaleWord(..) = change {
            self.store = None;
        }
        self.holdings.make(change);
    }

    /// Plays a call.
    pub fn play(&mut self, call: &Call) -> Answer {
        match call {
            Call::Open(shape) => self.open(shape),
            Call::Append {
                layer,
                keys,
                values,
            } => self.append(*layer, keys, values),
            Call::Truncate { layer, to } => self.truncate(*layer, *to),
            Call::Advance { count } => self.advance(*count),
            Call::CachedLen { layer } => self.cached_len(*layer),
            Call::MemoryBytes => self.memory_bytes(),
            Call::ReadRow {
                place,
                output,
                lent,
            } => self.read_row(*place, output, *lent),
            Call::Scores {
                head,
                query,
                scale,
                output,
                lent,
            } => self.scores(*head, query, *scale, output, *lent),
            Call::Sums {
                head,
                weights,
                output,
                lent,
            } => self.sums(*head, weights, output, *lent),
        }
    }

    fn open(&mut self, shape: &Shape) -> Answer {
        let reply = replies::open(shape, self.holdings.lent);
        if reply == 0 {
            let lent = self.holdings.lent;
            self.picture().wipe_all(lent);
            self.keep(empty_store(shape, 0), Record::opened(shape));
        } else {
            self.holdings.record = Record::NONE;
        }
        plain(reply)
    }

    fn append(&mut self, layer: u32, keys: &[u32], values: &[u32]) -> Answer {
        let mut record = self.holdings.record;
        let reply = replies::append(&record, self.holdings.lent, layer, keys.len(), values.len());
        if reply == 0 {
            let layer = layer as usize;
            let mut store = self.take_store();
            let before = store.cached_len(layer);
            let numbers = match record.shape().format {
                INT8 | INT4 => words::measured,
                _ => words::numbers,
            };
            store.append(layer, &numbers(keys), &numbers(values));
            let after = store.cached_len(layer);
            let room = Room::of(&record.shape());
            self.picture().draw(&room, &store, layer, before..after);
            record.set_length(layer, after);
            self.keep(store, record);
        }
        plain(reply)
    }

    fn truncate(&mut self, layer: u32, to: u32) -> Answer {
        let mut record = self.holdings.record;
        let reply = replies::truncate(&record, self.holdings.lent, layer);
        if reply == 0 {
            let layer = layer as usize;
            let mut store = self.take_store();
            let before = store.cached_len(layer);
            store.truncate_to(layer, to as usize);
            let after = store.cached_len(layer);
            let room = Room::of(&record.shape());
            self.picture().wipe(&room, layer, after..before);
            record.set_length(layer, after);
            self.keep(store, record);
        }
        plain(reply)
    }

    fn advance(&mut self, count: u32) -> Answer {
        let mut record = self.holdings.record;
        let reply = replies::advance(&record, count);
        if reply == 0 && self.is_whole() {
            let mut store = self.take_store();
            store.advance_seq_len(count as usize);
            record.0[SEQ_LEN] = store.seq_len as u32;
            self.keep(store, record);
        } else if reply == 0 {
            self.holdings.record.0[SEQ_LEN] += count;
        }
        plain(reply)
    }

    fn cached_len(&mut self, layer: u32) -> Answer {
        let record = self.holdings.record;
        let reply = replies::cached_len(&record, layer);
        let length = match reply {
            0 if self.is_whole() => self.store().cached_len(layer as usize) as u64,
            0 => u64::from(record.length(layer)),
            _ => 0,
        };
        counted(reply, length)
    }

    fn memory_bytes(&mut self) -> Answer {
        let record = self.holdings.record;
        let reply = replies::memory_bytes(&record);
        let bytes = match reply {
            0 if self.is_whole() => self.store().memory_bytes() as u64,
            0 => rules::byte_count(&record),
            _ => 0,
        };
        counted(reply, bytes)
    }

    fn read_row(&mut self, place: Place, output: &[u32], lent: usize) -> Answer {
        let record = self.holdings.record;
        let reply = replies::read_row(&record, self.holdings.lent, place, lent);
        let mut output = output.to_vec();
        if reply == 0 {
            let [side, head, position] =
                [place.side, place.head, place.position].map(|x| x as usize);
            let data = &self.store().layer_data[place.layer as usize];
            let row = row_of(data, side, head, position, lent);
            output[..lent].copy_from_slice(&row.read(record.shape().format));
        }
        Answer {
            reply,
            told: Told::Output(output),
        }
    }

    fn scores(
        &mut self,
        head: Head,
        query: &[u32],
        scale: u32,
        output: &[u32],
        lent: usize,
    ) -> Answer {
        let record = self.holdings.record;
        let reply = replies::scores(&record, self.holdings.lent, head, query.len(), lent);
        computed(reply, output, lent, |made| {
            let data = &self.store().layer_data[head.layer as usize];
            let (query, scale) = (words::numbers(query), f32::from_bits(scale));
            heads::scores(data, head.head as usize, &query, scale, made);
        })
    }

    fn sums(&mut self, head: Head, weights: &[u32], output: &[u32], lent: usize) -> Answer {
        let record = self.holdings.record;
        let reply = replies::sums(&record, self.holdings.lent, head, weights.len(), lent);
        computed(reply, output, lent, |made| {
            let data = &self.store().layer_data[head.layer as usize];
            heads::sums(data, head.head as usize, &mut words::numbers(weights), made);
        })
    }

    /// Whether the record's store lies in what is lent; a record changed by hand need not have one.
    fn is_whole(&self) -> bool {
        Lent::exact(&self.holdings.record.shape()) == Some(self.holdings.lent)
    }

    /// The lifted store of the holdings, made anew where they were changed by hand.
    pub fn store(&mut self) -> &KvStore {
        let holdings = &self.holdings;
        if self.known != holdings.record {
            self.known = holdings.record;
            self.store = None;
        }
        self.store
            .get_or_insert_with(|| store_in(&holdings.record, &holdings.cells, &holdings.scales))
    }

    /// The same, taken out to be changed.
    fn take_store(&mut self) -> KvStore {
        self.store();
        self.store.take().expect("the store was just made")
    }

    /// Keeps a store with its record.
    fn keep(&mut self, store: KvStore, record: Record) {
        self.store = Some(store);
        self.known = record;
        self.holdings.record = record;
    }

    /// The buffers, to draw in.
    fn picture(&mut self) -> Picture<'_> {
        Picture {
            cells: &mut self.holdings.cells,
            scales: &mut self.holdings.scales,
        }
    }
}

/// A reply alone.
fn plain(reply: u32) -> Answer {
    Answer {
        reply,
        told: Told::Nothing,
    }
}

/// A reply with a count.
fn counted(reply: u32, count: u64) -> Answer {
    Answer {
        reply,
        told: Told::Count(count),
    }
}

/// A reply with an output, of whose front numbers are made where the call is done.
fn computed(reply: u32, output: &[u32], lent: usize, make: impl FnOnce(&mut [f32])) -> Answer {
    let mut output = output.to_vec();
    if reply == 0 {
        let mut made = words::numbers(&output[..lent]);
        make(&mut made);
        for (word, number) in output.iter_mut().zip(made) {
            *word = rules::word_of(number);
        }
    }
    Answer {
        reply,
        told: Told::Output(output),
    }
}

#[cfg(test)]
mod tests {
    use super::*;
    use crate::record::INT4;

    /// A store of a format after some calls, over dirty buffers.
    fn played(format: u32) -> Wanted {
        let shape = Shape {
            format,
            layers: 2,
            heads: 2,
            head_size: 64,
            capacity: 4,
        };
        let lent = Lent::exact(&shape).unwrap();
        let mut wanted = Wanted::new(Holdings {
            record: Record::NONE,
            cells: vec![0xA5; lent.cells],
            scales: vec![0xA5; lent.scales],
            lent,
        });
        let numbers: Vec<u32> = (0..384u16)
            .map(|i| (f32::from(i) - 9.5).to_bits())
            .collect();
        wanted.open(&shape);
        wanted.append(0, &numbers, &numbers);
        wanted.append(1, &numbers[128..], &numbers[..256]);
        wanted.truncate(0, 1);
        wanted.append(0, &numbers[256..], &numbers[..128]);
        wanted
    }

    /// A lifted store drawn on zeros.
    fn drawn(store: &KvStore, record: &Record) -> (Vec<u8>, Vec<u32>) {
        let lent = Lent::exact(&record.shape()).unwrap();
        let (mut cells, mut scales) = (vec![0; lent.cells], vec![0; lent.scales]);
        let mut picture = Picture {
            cells: &mut cells,
            scales: &mut scales,
        };
        for layer in 0..store.layer_data.len() {
            let room = Room::of(&record.shape());
            picture.draw(&room, store, layer, 0..store.cached_len(layer));
        }
        (cells, scales)
    }

    /// An INT4 store of one head, whose one position has the group of P2 as key and as value.
    fn with_a_group() -> Wanted {
        let shape = Shape {
            format: INT4,
            layers: 1,
            heads: 1,
            head_size: 32,
            capacity: 2,
        };
        let lent = Lent::exact(&shape).unwrap();
        let mut wanted = Wanted::new(Holdings {
            record: Record::NONE,
            cells: vec![0xA5; lent.cells],
            scales: vec![0xA5; lent.scales],
            lent,
        });
        let group = row(&[(0, 7.0), (16, -7.0)]);
        wanted.open(&shape);
        wanted.append(0, &group, &group);
        wanted
    }

    /// The words of 32 numbers, zeros but for those given with their places.
    fn row(numbers: &[(usize, f32)]) -> Vec<u32> {
        let mut row = vec![0; 32];
        for &(place, number) in numbers {
            row[place] = number.to_bits();
        }
        row
    }

    const HEAD: Head = Head { layer: 0, head: 0 };

    #[test]
    fn scores_and_sums_of_an_appended_group_are_those_of_p9() {
        let mut wanted = with_a_group();
        let (query, half) = (row(&[(0, 2.0), (16, 3.0)]), 0.5f32.to_bits());
        let scores = wanted.scores(HEAD, &query, half, &[9, 9], 1);
        assert_eq!(scores.reply, 0);
        assert_eq!(scores.told, Told::Output(vec![(-3.5f32).to_bits(), 9]));
        let sums = wanted.sums(HEAD, &[0.25f32.to_bits()], &[9; 33], 32);
        let made = [row(&[(0, 1.75), (16, -1.75)]), vec![9]].concat();
        assert_eq!(sums.reply, 0);
        assert_eq!(sums.told, Told::Output(made));
    }

    #[test]
    fn refused_scores_and_sums_leave_their_output() {
        let mut wanted = with_a_group();
        let query = row(&[]);
        for (answer, reply, output) in [
            (wanted.scores(HEAD, &query[1..], 0, &[9; 4], 1), 7, 4),
            (wanted.scores(HEAD, &query, 0, &[9; 4], 2), 8, 4),
            (wanted.sums(HEAD, &[0], &[9; 34], 31), 7, 34),
            (wanted.sums(HEAD, &[0, 0], &[9; 34], 32), 8, 34),
        ] {
            assert_eq!(answer.reply, reply);
            assert_eq!(answer.told, Told::Output(vec![9; output]));
        }
    }

    #[test]
    fn buffers_kept_call_by_call_are_those_of_the_whole_store() {
        for format in 0..4 {
            let mut wanted = played(format);
            let record = wanted.holdings.record;
            assert_eq!(record.lengths()[..3], [2, 2, 0]);
            let (cells, scales) = drawn(wanted.store(), &record);
            assert!(wanted.holdings.cells == cells && wanted.holdings.scales == scales);
        }
    }

    #[test]
    fn a_store_made_anew_from_its_buffers_is_the_same() {
        for format in 0..4 {
            let Holdings {
                record,
                cells,
                scales,
                ..
            } = played(format).holdings;
            let store = store_in(&record, &cells, &scales);
            assert!(drawn(&store, &record) == (cells, scales));
        }
    }

    #[test]
    fn the_byte_count_by_the_paper_is_the_rusts() {
        for format in 0..4 {
            let mut wanted = played(format);
            let record = wanted.holdings.record;
            assert_eq!(
                rules::byte_count(&record),
                wanted.store().memory_bytes() as u64
            );
        }
    }
}
