//! Numbers as words of a text.

/// A number of up to so many characters is written without an exponent.
const PLAIN: usize = 14;

/// The bits of a number's word: a decimal, `inf`, `-inf`, or `x` and eight hex digits.
pub fn bits_of(word: &str) -> Option<u32> {
    if let Some(digits) = word.strip_prefix('x') {
        return hex(digits, 8);
    }
    let decimal = |character: char| character.is_ascii_digit() || "+-.eE".contains(character);
    // The standard parse also takes words as nan and infinity, which this text does not have.
    if !matches!(word, "inf" | "-inf") && !word.chars().all(decimal) {
        return None;
    }
    word.parse::<f32>().ok().map(f32::to_bits)
}

/// The word with the fewest digits that reads back to the same bits.
pub fn word_of(bits: u32) -> String {
    let number = f32::from_bits(bits);
    if number.is_nan() {
        return format!("x{bits:08X}");
    }
    let plain = number.to_string();
    match plain.len() {
        0..=PLAIN => plain,
        _ => format!("{number:e}"),
    }
}

/// A number of exactly so many hex digits.
pub fn hex(digits: &str, length: usize) -> Option<u32> {
    // The standard parse also takes a sign.
    if digits.len() != length || !digits.chars().all(|digit| digit.is_ascii_hexdigit()) {
        return None;
    }
    u32::from_str_radix(digits, 16).ok()
}
