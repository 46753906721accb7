//! A store into which each layer's survivors are appended in one call.
use crate::calls::{Call, Holdings};
use crate::dice::Dice;
use crate::ours::Ours;
use crate::record::Shape;
use crate::survivors::Survivors;

/// A store that is opened anew for every comparison.
pub struct Fresh {
    pub store: Ours,
    shape: Shape,
    /// The layers in the order in which they are filled.
    order: Vec<u32>,
    dice: Dice,
}

impl Fresh {
    /// A store of a shape, filled by rising layer in half of the sequences.
    pub fn new(sequence: u64, shape: &Shape) -> Fresh {
        let mut dice = Dice::of("fresh", sequence);
        let holdings = Holdings::dirty(shape, &mut dice);
        let mut order: Vec<u32> = (0..shape.layers).collect();
        if dice.below(2) == 0 {
            shuffle(&mut order, &mut dice);
        }
        Fresh {
            store: Ours { holdings },
            shape: *shape,
            order,
            dice,
        }
    }

    /// Opens the store over memory that is dirty in another way each time; the reply.
    pub fn open(&mut self) -> u32 {
        let dirt = self.dice.word();
        let holdings = &mut self.store.holdings;
        holdings.record.0.fill(dirt);
        holdings.cells.fill(dirt as u8);
        holdings.scales.fill(dirt);
        self.store.play(&Call::Open(self.shape)).reply
    }

    /// Appends each layer's survivors in one call, as long as the replies are taken; whether all were.
    pub fn fill(&mut self, survivors: &Survivors, mut take: impl FnMut(u32, u32) -> bool) -> bool {
        let store = &mut self.store;
        self.order.iter().all(|&layer| {
            let rows = survivors.of_layer(layer);
            take(layer, store.append(layer, &rows.keys, &rows.values))
        })
    }
}

/// Brings a list into a random order.
fn shuffle(list: &mut [u32], dice: &mut Dice) {
    for last in (1..list.len()).rev() {
        list.swap(last, dice.place(last + 1));
    }
}
