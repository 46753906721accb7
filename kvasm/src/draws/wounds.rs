//! Damage to a call file.
use crate::dice::Dice;
use crate::records::{Met, Reader, Record, APPEND, MARK, MOST_NUMBERS};

/// Where in an append its n stands.
const NUMBERS_PLACE: usize = 5;

/// A file with one wound, seldom with two.
pub fn wounded(file: Vec<u8>, dice: &mut Dice) -> Vec<u8> {
    let file = once(file, dice);
    match dice.one_of(6) {
        true => once(file, dice),
        false => file,
    }
}

fn once(file: Vec<u8>, dice: &mut Dice) -> Vec<u8> {
    match dice.below(10) {
        0 | 1 => cut(file, dice),
        2 | 3 => changed(file, dice),
        4 => inserted(file, dice),
        5 => removed(file, dice),
        6 => wrong_start(file, dice),
        7 => wrong_count(file, dice),
        8 => large_count(file, dice),
        _ => lengthened(file, dice),
    }
}

/// Cut anywhere, or inside the last record.
fn cut(mut file: Vec<u8>, dice: &mut Dice) -> Vec<u8> {
    let last = starts(&file).last().copied().unwrap_or(0);
    let from = dice.pick(&[0, last]);
    let kept = from + dice.place(file.len() - from + 1);
    file.truncate(kept);
    file
}

/// One byte, or one bit of it, changed.
pub fn changed(mut file: Vec<u8>, dice: &mut Dice) -> Vec<u8> {
    let place = dice.place(file.len());
    let other = dice.word() as u8;
    let bit = 1 << dice.below(8);
    if let Some(byte) = file.get_mut(place) {
        *byte = dice.pick(&[other, *byte ^ bit, byte.wrapping_add(1)]);
    }
    file
}

/// Some bytes more, anywhere or between two records.
fn inserted(mut file: Vec<u8>, dice: &mut Dice) -> Vec<u8> {
    let between = any_start(&file, dice).unwrap_or(0);
    let anywhere = dice.place(file.len() + 1);
    let place = dice.pick(&[between, anywhere]);
    let length = 1 + dice.place(4);
    let mut bytes = dice.bytes(length);
    if dice.one_of(3) {
        bytes = MARK[..1 + dice.place(2)].to_vec();
    }
    file.splice(place..place, bytes);
    file
}

/// Some bytes less.
fn removed(mut file: Vec<u8>, dice: &mut Dice) -> Vec<u8> {
    let place = dice.place(file.len());
    let end = file.len().min(place + 1 + dice.place(4));
    file.drain(place..end);
    file
}

/// A wrong byte in the mark or the kind of a record.
fn wrong_start(mut file: Vec<u8>, dice: &mut Dice) -> Vec<u8> {
    if let Some(start) = any_start(&file, dice) {
        let byte = dice.pick(&[0, 1, 2, 3, 4, 5, 6, 7, 0x4B, 0x56, u8::MAX]);
        file[start + dice.pick(&[0, 1, 2, 2])] = byte;
    }
    file
}

/// Another n in an append.
fn wrong_count(mut file: Vec<u8>, dice: &mut Dice) -> Vec<u8> {
    let mut appends = starts(&file);
    appends.retain(|start| file[start + 2] == APPEND);
    if !appends.is_empty() {
        let place = dice.pick(&appends) + NUMBERS_PLACE;
        let count = u16::from_le_bytes([file[place], file[place + 1]]);
        let count = dice.pick(&[513, 512, 514, 1024, u16::MAX, count + 512, count + 1]);
        file[place..place + 2].copy_from_slice(&count.to_le_bytes());
    }
    file
}

/// An append of more numbers than one may have, all of which are there.
fn large_count(mut file: Vec<u8>, dice: &mut Dice) -> Vec<u8> {
    let numbers = vec![0; MOST_NUMBERS + dice.pick(&[1, 2, 100])];
    let append = Record::Append {
        layer: dice.below(3) as u16,
        keys: numbers.clone(),
        values: numbers,
    };
    let place = any_start(&file, dice).unwrap_or(0);
    file.splice(place..place, append.bytes());
    file
}

/// Bytes behind the last record.
fn lengthened(mut file: Vec<u8>, dice: &mut Dice) -> Vec<u8> {
    let length = 1 + dice.place(6);
    let bytes = dice.bytes(length);
    file.extend([&MARK[..dice.place(3)], &bytes].concat());
    file
}

fn any_start(file: &[u8], dice: &mut Dice) -> Option<usize> {
    let starts = starts(file);
    (!starts.is_empty()).then(|| dice.pick(&starts))
}

/// Where records begin.
fn starts(file: &[u8]) -> Vec<usize> {
    let mut reader = Reader::new(file);
    let mut starts = vec![0];
    while let Met::Record(_) = reader.meet() {
        starts.push(reader.place);
    }
    starts.pop();
    starts
}
