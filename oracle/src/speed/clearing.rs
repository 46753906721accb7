//! Open and truncate: calls that clear a full store, beside clearing the same bytes.
use super::kernel::{Bench, Way};
use super::stores::{Ours, Size};
use crate::record::Shape;
use std::hint::black_box;

/// Stores to clear.
pub struct Clearing {
    call: fn(&mut Ours),
    shape: Shape,
    stores: Vec<Ours>,
}

impl Clearing {
    /// One store for a call that clears it.
    pub fn new(call: fn(&mut Ours), size: Size, format: u32) -> Clearing {
        let mut bench = Clearing {
            call,
            shape: size.shape(format),
            stores: Vec::new(),
        };
        bench.repeat(1);
        bench
    }
}

impl Bench for Clearing {
    fn agrees(&mut self) -> bool {
        self.prepare(Way::Ours);
        self.run(Way::Ours);
        self.stores.iter().all(Ours::is_new)
    }

    fn repeat(&mut self, calls: usize) {
        let shape = self.shape;
        self.stores.resize_with(calls, || Ours::opened(shape));
    }

    fn prepare(&mut self, _: Way) {
        self.stores.iter_mut().for_each(Ours::soil);
        black_box(&mut self.stores);
    }

    fn run(&mut self, way: Way) {
        match way {
            Way::Ours => self.stores.iter_mut().for_each(self.call),
            Way::Memory => self.stores.iter_mut().for_each(Ours::clear),
            Way::Rust => unreachable!("the Rust clears nothing"),
        }
        black_box(&mut self.stores);
    }
}

#[cfg(test)]
mod tests {
    use super::*;
    use crate::record::INT8;

    #[test]
    fn a_call_that_leaves_something_does_not_agree() {
        let size = Size {
            head_size: 4,
            heads: 1,
            positions: 2,
        };
        let leaves: [fn(&mut Ours); 4] = [
            |_| (),
            |ours| ours.cells.fill(0),
            |ours| {
                ours.truncate();
                ours.scales[3] = 1;
            },
            |ours| {
                ours.truncate();
                ours.record.set_length(0, 1);
            },
        ];
        for call in leaves {
            assert!(!Clearing::new(call, size, INT8).agrees());
        }
        assert!(Clearing::new(Ours::truncate, size, INT8).agrees());
    }
}
