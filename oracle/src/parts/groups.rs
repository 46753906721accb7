//! Groups of 32 numbers, against `pack_i4_group` and `unpack_i4_group`.
//!
//! Each lent buffer is the front of a longer one, and the whole of that is compared.
use crate::boundary::{DONE, SHORT};
use crate::dice::Dice;
use crate::part::{Part, Reach};
use crate::rules::read_i4_group;
use crate::tally::Tally;
use crate::words;
use crate::{boundary, rust};

/// Numbers of a group.
const NUMBERS: usize = rust::INT4_GROUP_SIZE;
/// Bytes of a group.
const BYTES: usize = NUMBERS / 2;
/// Places after what is lent.
const GUARD: usize = 40;
/// Groups in one piece.
const GROUPS: u64 = 1 << 12;
/// Lengths that are crossed: from 0 to before this.
const LENGTHS: usize = 48;

/// Random groups both ways, and every pair of short lengths.
pub fn parts(reach: Reach) -> Vec<Part> {
    let pieces = reach.pick(1024, 64);
    vec![
        Part::new("groups packed", pieces, |piece, tally| {
            random_groups("packed", piece, tally, pack)
        }),
        Part::new("groups unpacked", pieces, |piece, tally| {
            random_groups("unpacked", piece, tally, unpack)
        }),
        Part::new("groups of each length", LENGTHS as u64, each_length),
    ]
}

type Compare = fn(usize, usize, &mut Dice, &mut Tally);

/// Groups whose buffers are long enough, and up to 8 longer.
fn random_groups(name: &str, piece: u64, tally: &mut Tally, compare: Compare) {
    let mut dice = Dice::of(name, piece);
    for _ in 0..GROUPS {
        let numbers = NUMBERS + dice.place(9);
        let bytes = BYTES + dice.place(9);
        compare(numbers, bytes, &mut dice, tally);
    }
}

/// Both calls with one count of numbers and each count of bytes.
fn each_length(piece: u64, tally: &mut Tally) {
    let mut dice = Dice::of("lengths", piece);
    for bytes in 0..LENGTHS {
        pack(piece as usize, bytes, &mut dice, tally);
        unpack(piece as usize, bytes, &mut dice, tally);
    }
}

/// Both calls with lengths about those of a group.
pub fn play(dice: &mut Dice, tally: &mut Tally) {
    let (numbers, bytes) = (dice.place(LENGTHS), dice.place(LENGTHS));
    pack(numbers, bytes, dice, tally);
    unpack(numbers, bytes, dice, tally);
}

/// Compares the reply and every byte of packing so many numbers into so many bytes.
fn pack(numbers: usize, bytes: usize, dice: &mut Dice, tally: &mut Tally) {
    let run = words::run(numbers, dice);
    let scale = scale_for(&run, dice);
    let before = dice.bytes(bytes + GUARD);
    let mut wanted = before.clone();
    let wanted_reply = reply_to(numbers, bytes);
    if wanted_reply == DONE {
        rust::pack_i4_group(&words::numbers(&run), scale, &mut wanted[..bytes]);
    }
    let mut ours = before.clone();
    let our_reply = boundary::pack_i4_group(&run, scale, &mut ours[..bytes]);
    tally.equal((wanted_reply, wanted), (our_reply, ours), || {
        let scale = scale.to_bits();
        format!("pack {run:08x?} scale {scale:08x} into {bytes} bytes of {before:02x?}")
    });
}

/// Compares the reply and every word of unpacking so many bytes into so many numbers.
fn unpack(numbers: usize, bytes: usize, dice: &mut Dice, tally: &mut Tally) {
    let packed = dice.bytes(bytes);
    let scale = f32::from_bits(words::any(dice));
    let before = dice.words(numbers + GUARD);
    let mut wanted = before.clone();
    let wanted_reply = reply_to(numbers, bytes);
    if wanted_reply == DONE {
        wanted[..NUMBERS].copy_from_slice(&read_i4_group(&packed, scale));
    }
    let mut ours = before.clone();
    let our_reply = boundary::unpack_i4_group(&packed, scale, &mut ours[..numbers]);
    tally.equal((wanted_reply, wanted), (our_reply, ours), || {
        let scale = scale.to_bits();
        format!("unpack {packed:02x?} scale {scale:08x} into {numbers} numbers of {before:08x?}")
    });
}

/// The reply that the paper gives to such lengths.
fn reply_to(numbers: usize, bytes: usize) -> u32 {
    if numbers < NUMBERS || bytes < BYTES {
        SHORT
    } else {
        DONE
    }
}

/// The group's own scale, or any.
fn scale_for(run: &[u32], dice: &mut Dice) -> f32 {
    match dice.below(2) {
        0 => rust::compute_int4_scale(&words::measured(run)),
        _ => f32::from_bits(words::any(dice)),
    }
}
