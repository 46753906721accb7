//! One store on which calls are played, held to fresh stores of its survivors.
use super::fresh::Fresh;
use crate::boundary::DONE;
use crate::calls::{Call, Holdings, Step};
use crate::dice::Dice;
use crate::differences::{first, Site, Spot};
use crate::ours::Ours;
use crate::record::{Lent, Shape, SEQ_LEN};
use crate::survivors::Survivors;
use crate::tally::Tally;

/// Stores of up to so many bytes are held to a fresh one after every call.
const SMALL: usize = 1 << 15;
/// Larger ones are after one call of so many, and at the end.
const INTERVAL: u64 = 8;

/// A played store, what survives in it, and a fresh store beside it.
pub struct Trial {
    sequence: u64,
    pub calls: u64,
    /// What the store needs, whatever is lent now.
    need: Lent,
    pub played: Ours,
    /// The places behind the store, as they were at first.
    behind: (Vec<u8>, Vec<u32>),
    pub survivors: Survivors,
    pub fresh: Fresh,
}

impl Trial {
    /// A sequence in whose dirty memory a store of a shape is still to be opened.
    pub fn new(sequence: u64, shape: &Shape, dice: &mut Dice) -> Trial {
        let holdings = Holdings::dirty(shape, dice);
        let need = holdings.lent;
        Trial {
            sequence,
            calls: 0,
            need,
            behind: (
                holdings.cells[need.cells..].to_vec(),
                holdings.scales[need.scales..].to_vec(),
            ),
            played: Ours { holdings },
            survivors: Survivors::new(shape),
            fresh: Fresh::new(sequence, shape),
        }
    }

    /// Lends another room or plays a call; whether the store is that of its survivors, as far as that is looked at.
    pub fn step(&mut self, step: &Step, tally: &mut Tally) -> bool {
        match step {
            Step::Call(call) => {
                let whole = self.is_small() || self.calls % INTERVAL == 0;
                self.call(call, whole, tally)
            }
            Step::Change(change) => {
                self.played.holdings.make(*change);
                true
            }
        }
    }

    /// Plays a call, and where the whole is wanted holds the store to a fresh one; whether they agree.
    pub fn call(&mut self, call: &Call, whole: bool, tally: &mut Tally) -> bool {
        let site = self.site(call);
        self.play(call);
        !whole || self.check(&site, tally)
    }

    /// Plays a call, which the survivors take in if it is accepted; the reply.
    pub fn play(&mut self, call: &Call) -> u32 {
        let reply = self.played.play(call).reply;
        if reply == DONE {
            self.survivors.accept(call);
        }
        self.calls += 1;
        reply
    }

    /// Whether a fresh store accepts each layer's survivors in one call, and is then the same as the played one.
    fn check(&mut self, site: &Site, tally: &mut Tally) -> bool {
        let opened = self.fresh.open();
        if opened != DONE {
            return tally.equal(DONE, opened, || format!("{site}; a fresh open"));
        }
        let accepted = self.fresh.fill(&self.survivors, |layer, reply| {
            let text = || format!("{site}; survivors of layer {layer} to a fresh store");
            tally.equal(DONE, reply, text)
        });
        if !accepted {
            return false;
        }
        let (wanted, ours) = self.difference().unwrap_or(Spot::NONE);
        tally.equal(wanted, ours, || format!("{site}; a fresh store"))
    }

    /// The first spot where the played store is not the fresh one, or a place behind it not as it was.
    fn difference(&self) -> Option<(Spot, Spot)> {
        let (wanted, ours) = (&self.fresh.store.holdings, &self.played.holdings);
        let Lent { cells, scales } = self.need;
        let mut record = wanted.record;
        record.0[SEQ_LEN] = ours.record.seq_len();
        let (our_cells, behind_cells) = ours.cells.split_at(cells);
        let (our_scales, behind_scales) = ours.scales.split_at(scales);
        let cell_behind = |place, byte| Spot::cells(cells + place, byte);
        let scale_behind = |place, word| Spot::scales(scales + place, word);
        first(&record.0, &ours.record.0, Spot::record)
            .or_else(|| first(&wanted.cells[..cells], our_cells, Spot::cells))
            .or_else(|| first(&wanted.scales[..scales], our_scales, Spot::scales))
            .or_else(|| first(&self.behind.0, behind_cells, cell_behind))
            .or_else(|| first(&self.behind.1, behind_scales, scale_behind))
    }

    /// Whether the store can be held to a fresh one after every call.
    fn is_small(&self) -> bool {
        self.need.cells + 4 * self.need.scales <= SMALL
    }

    /// The next call, as it is found again.
    pub fn site<'a>(&self, call: &'a Call) -> Site<'a> {
        Site {
            sequence: self.sequence,
            index: self.calls,
            before: self.played.holdings.record,
            lent: self.played.holdings.lent,
            call,
        }
    }
}
