//! The law of the text: what comes back of a file assembles to the same bytes.
use kvasm::back::back;
use kvasm::dice::{self, SEED};
use kvasm::{draws, folder, numbers, text};

fn comes_back(file: &[u8]) {
    let text = back(file);
    assert_eq!(
        text::assembled(text.as_bytes()).as_deref(),
        Ok(file),
        "{text}"
    );
}

#[test]
fn random_and_damaged_files_come_back() {
    for number in 0..6000 {
        comes_back(&draws::file(&mut dice::of(SEED, number)));
    }
}

#[test]
fn bytes_without_any_order_come_back() {
    for number in 0..3000 {
        let mut dice = dice::of(SEED + 1, number);
        let length = dice.place(300);
        comes_back(&dice.bytes(length));
    }
}

#[test]
fn fixed_files_come_back() {
    for (_, file) in folder::made().data {
        comes_back(&file);
    }
}

#[test]
fn every_cut_comes_back() {
    let (_, file) = folder::made().data.swap_remove(0);
    for kept in 0..=file.len() {
        comes_back(&file[..kept]);
    }
}

#[test]
fn number_reads_back_to_its_bits() {
    let special = [
        0x0000_0000,
        0x8000_0000,
        0x0000_0001,
        0x007F_FFFF,
        0x0080_0000,
        0x7F7F_FFFF,
        0xFF7F_FFFF,
        0x7F80_0000,
        0xFF80_0000,
        0x7F80_0001,
        0x7FC0_0000,
        0xFFFF_FFFF,
    ];
    let mut dice = dice::of(SEED, 0);
    let drawn = (0..200_000).map(|_| dice.word());
    for bits in special.into_iter().chain(drawn) {
        let word = numbers::word_of(bits);
        assert_eq!(numbers::bits_of(&word), Some(bits), "{word}");
    }
}

#[test]
fn bad_part_is_told_and_stands_as_bytes_of_sixteen() {
    let file = [&b"KV\x05KV\x09"[..], &[0xAB; 20]].concat();
    let wanted = "report\n# bad at 3\n\
        bytes 4B 56 09 AB AB AB AB AB AB AB AB AB AB AB AB AB\n\
        bytes AB AB AB AB AB AB AB\n";
    assert_eq!(back(&file), wanted);
}
