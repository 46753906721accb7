//! One sequence of calls, played on both sides and compared call by call.
use crate::calls::{Answer, Call, Holdings, Step};
use crate::differences::{first, of_answers, Site, Spot};
use crate::ours::Ours;
use crate::tally::Tally;
use crate::wanted::Wanted;

/// Buffers up to so many bytes are compared after every call.
const SMALL: usize = 1 << 17;
/// Larger ones are compared after one call of so many, and at the end.
const INTERVAL: u64 = 8;

/// One sequence played on both sides.
pub struct Game {
    sequence: u64,
    pub calls: u64,
    pub wanted: Wanted,
    ours: Ours,
}

impl Game {
    /// A sequence that starts with the same holdings on both sides.
    pub fn new(sequence: u64, holdings: Holdings) -> Game {
        Game {
            sequence,
            calls: 0,
            wanted: Wanted::new(holdings.clone()),
            ours: Ours { holdings },
        }
    }

    /// Makes changes and plays calls on both sides, up to the first difference; whether there is none.
    pub fn steps(&mut self, steps: &[Step], tally: &mut Tally) -> bool {
        steps.iter().all(|step| self.step(step, tally))
    }

    /// Makes a change or plays a call on both sides; whether they agree.
    fn step(&mut self, step: &Step, tally: &mut Tally) -> bool {
        match step {
            Step::Call(call) => {
                let whole = self.is_small() || self.calls % INTERVAL == 0;
                self.call(call, whole, tally)
            }
            Step::Change(change) => {
                self.wanted.make(*change);
                self.ours.holdings.make(*change);
                true
            }
        }
    }

    /// Plays a call on both sides and compares what it answers and leaves; whether they agree.
    pub fn call(&mut self, call: &Call, whole: bool, tally: &mut Tally) -> bool {
        let site = Site {
            sequence: self.sequence,
            index: self.calls,
            before: self.wanted.holdings.record,
            lent: self.wanted.holdings.lent,
            call,
        };
        let wanted = self.wanted.play(call);
        let ours = self.ours.play(call);
        let (wanted, ours) = self.difference(wanted, ours, whole);
        self.calls += 1;
        tally.equal(wanted, ours, || site.to_string())
    }

    /// The first spot where the sides differ after a call.
    fn difference(&self, wanted: Answer, ours: Answer, whole: bool) -> (Spot, Spot) {
        let answers = of_answers(wanted, ours);
        let (wanted, ours) = (&self.wanted.holdings, &self.ours.holdings);
        answers
            .or_else(|| first(&wanted.record.0, &ours.record.0, Spot::record))
            .or_else(|| whole.then(|| first(&wanted.cells, &ours.cells, Spot::cells))?)
            .or_else(|| whole.then(|| first(&wanted.scales, &ours.scales, Spot::scales))?)
            .unwrap_or(Spot::NONE)
    }

    /// Whether both buffers can be compared after every call.
    fn is_small(&self) -> bool {
        let holdings = &self.wanted.holdings;
        holdings.cells.len() + 4 * holdings.scales.len() <= SMALL
    }
}
