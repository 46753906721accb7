//! What a played store and a fresh one of its survivors are both asked.
use super::trial::Trial;
use crate::boundary::DONE;
use crate::calls::{Call, Told};
use crate::dice::Dice;
use crate::differences::{of_answers, of_replies, Spot};
use crate::draws::heads::of_all_positions;
use crate::draws::{filled_layer, read_into, rows_of};
use crate::record::{BF16, F32, INT8};
use crate::replies::{Head, Place};
use crate::tally::Tally;

/// Heads that are asked for scores and sums.
const HEADS: u32 = 4;
/// The reply to scores or sums of BF16 or INT8.
const NO_SCORES: u32 = 6;

impl Trial {
    /// Reads every row and takes scores and sums of some heads; whether both stores answer all with the same bits.
    pub fn ask_all(&mut self, dice: &mut Dice, tally: &mut Tally) -> bool {
        let record = self.played.holdings.record;
        let mut places = (0..record.shape().layers).flat_map(|layer| rows_of(&record, layer));
        places.all(|place| self.read(place, dice, tally))
            && (0..HEADS).all(|_| self.ask_head(dice, tally))
    }

    /// Reads a row of both stores, which in F32 has the numbers that were appended.
    fn read(&mut self, place: Place, dice: &mut Dice, tally: &mut Tally) -> bool {
        let shape = self.played.holdings.record.shape();
        let call = read_into(place, shape.head_size as usize, dice);
        self.ask(&call, DONE, tally)
            && (shape.format != F32 || self.reads_as_appended(place, &call, tally))
    }

    /// Whether a row that is read has the numbers of the survivors.
    fn reads_as_appended(&mut self, place: Place, call: &Call, tally: &mut Tally) -> bool {
        let site = self.site(call);
        let row = match (call, self.played.play(call).told) {
            (Call::ReadRow { lent, .. }, Told::Output(output)) => Some(output[..*lent].to_vec()),
            _ => None,
        };
        let survivor = self.survivors.row(place);
        tally.equal(survivor, row.as_deref(), || format!("{site}; as appended"))
    }

    /// Takes scores and sums of all positions of some head of both stores.
    fn ask_head(&mut self, dice: &mut Dice, tally: &mut Tally) -> bool {
        let record = self.played.holdings.record;
        let head = Head {
            layer: filled_layer(&record, dice),
            head: dice.below(record.shape().heads),
        };
        let due = match record.shape().format {
            BF16 | INT8 => NO_SCORES,
            _ => DONE,
        };
        let calls = of_all_positions(head, &record, dice);
        calls.iter().all(|call| self.ask(call, due, tally))
    }

    /// Asks both stores the same; whether they give the reply that is due and the same bits.
    fn ask(&mut self, call: &Call, due: u32, tally: &mut Tally) -> bool {
        let site = self.site(call);
        let wanted = self.fresh.store.play(call);
        let ours = self.played.play(call);
        let (wanted, ours) = of_replies(due, wanted.reply)
            .or_else(|| of_answers(wanted, ours))
            .unwrap_or(Spot::NONE);
        tally.equal(wanted, ours, || format!("{site}; of a fresh store"))
    }
}
