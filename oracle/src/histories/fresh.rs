//! The survivors that the program keeps, and a fresh store that gets them alone.
use crate::calls::{Call, Holdings};
use crate::record::{Lent, Record, Shape};
use crate::survivors::Survivors;
use crate::wanted::Wanted;

/// Layers whose survivors are kept.
const LAYERS: u32 = 8;
/// The most survivors of a layer's side.
const MOST: usize = 512;
/// What each cell byte and each scale word of a fresh store holds at first.
const DIRT: (u8, u32) = (0x5A, 0x5A5A_5A5A);

/// The survivors, and whether some could not be kept.
pub struct Kept {
    survivors: Survivors,
    too_large: bool,
}

impl Kept {
    /// Nothing of a store that was just opened.
    pub fn nothing(shape: &Shape) -> Kept {
        Kept {
            survivors: Survivors::new(shape),
            too_large: false,
        }
    }

    /// What an accepted call makes of it.
    pub fn follow(&mut self, call: &Call) {
        match call {
            Call::Open(shape) => *self = Kept::nothing(shape),
            Call::Append { layer, .. } => {
                self.survivors.accept(call);
                self.too_large |= *layer >= LAYERS || !self.survivors.fit(MOST);
            }
            _ => self.survivors.accept(call),
        }
    }

    /// The line of `stdout` that compares holdings with those of a fresh store.
    pub fn compared(&self, holdings: &Holdings) -> String {
        if self.too_large {
            return "fresh too large\n".into();
        }
        let (fresh, replies) = self.fresh(&holdings.record.shape(), holdings.lent);
        let replies: String = replies.iter().map(|reply| format!(" {reply}")).collect();
        format!("fresh replies{replies} {}\n", difference(holdings, &fresh))
    }

    /// A store in other memory to which each layer's survivors were appended in one call, and every reply.
    fn fresh(&self, shape: &Shape, lent: Lent) -> (Holdings, Vec<u32>) {
        let mut wanted = Wanted::new(Holdings {
            record: Record::NONE,
            cells: vec![DIRT.0; lent.cells],
            scales: vec![DIRT.1; lent.scales],
            lent,
        });
        let appends = (0..shape.layers.min(LAYERS)).map(|layer| {
            let rows = self.survivors.of_layer(layer);
            Call::Append {
                layer,
                keys: rows.keys.clone(),
                values: rows.values.clone(),
            }
        });
        let calls = [Call::Open(*shape)].into_iter().chain(appends);
        let replies = calls.map(|call| wanted.play(&call).reply).collect();
        (wanted.holdings, replies)
    }
}

/// What differs first: the lengths, the lent cells or the lent scale words.
fn difference(holdings: &Holdings, fresh: &Holdings) -> &'static str {
    let Lent { cells, scales } = holdings.lent;
    if holdings.record.lengths() != fresh.record.lengths() {
        "lengths differ"
    } else if holdings.cells[..cells] != fresh.cells[..cells] {
        "cells differ"
    } else if holdings.scales[..scales] != fresh.scales[..scales] {
        "scales differ"
    } else {
        "same"
    }
}
