//! The fixed list: runs of words, and the answers that a Rattle program gives again.
mod runs;

use crate::{rules, rust, words};
use std::path::Path;
use std::{fs, io};

/// Numbers of a group.
const GROUP: usize = rust::INT4_GROUP_SIZE;

/// Writes the list to the files `stdin` and `stdout` of a folder.
pub fn write(folder: &Path) -> io::Result<()> {
    let runs = runs::all();
    fs::create_dir_all(folder)?;
    fs::write(folder.join("stdin"), lines(&runs, asked))?;
    fs::write(folder.join("stdout"), lines(&runs, answered))
}

/// The text of every run, one after the other.
fn lines(runs: &[Vec<u32>], text: fn(&[u32]) -> String) -> String {
    runs.iter().map(|run| text(run)).collect()
}

/// The line of `stdin` that is a run.
fn asked(run: &[u32]) -> String {
    let words: Vec<String> = run.iter().map(|word| format!("{word:08X}")).collect();
    words.join(" ") + "\n"
}

/// The lines of `stdout` that answer a run.
fn answered(run: &[u32]) -> String {
    int8_line(run) + &int4_line(run) + &bf16_line(run)
}

/// The INT8 scale of a run, its codes, and what they read as.
fn int8_line(run: &[u32]) -> String {
    let numbers = words::measured(run);
    let scale = rust::compute_int8_scale(&numbers);
    let code = |number: &f32| rust::quantize_i8(*number, scale) as u8;
    let codes: Vec<u8> = numbers.iter().map(code).collect();
    let reads = codes.iter().map(|code| rules::read_i8(*code, scale));
    format!(
        "int8 scale {:08x} codes{} reads{}\n",
        scale.to_bits(),
        bytes_text(&codes),
        words_text(reads)
    )
}

/// The INT4 scale of a run's first group, its bytes, and what they read as; or the refusal.
fn int4_line(run: &[u32]) -> String {
    if run.len() < GROUP {
        return "int4 no 7\n".to_string();
    }
    let group = words::measured(&run[..GROUP]);
    let scale = rust::compute_int4_scale(&group);
    let mut bytes = [0; GROUP / 2];
    rust::pack_i4_group(&group, scale, &mut bytes);
    let reads = rules::read_i4_group(&bytes, scale);
    format!(
        "int4 scale {:08x} bytes{} reads{}\n",
        scale.to_bits(),
        bytes_text(&bytes),
        words_text(reads.into_iter())
    )
}

/// The BF16 halves of a run, and what they read as.
fn bf16_line(run: &[u32]) -> String {
    let halves: Vec<u16> = run.iter().copied().map(rules::bf16_by_rule).collect();
    let halves_text: String = halves.iter().map(|half| format!(" {half:04x}")).collect();
    let reads = halves.iter().copied().map(rules::read_bf16);
    format!("bf16 halves{halves_text} reads{}\n", words_text(reads))
}

/// Bytes, each after a space.
fn bytes_text(bytes: &[u8]) -> String {
    bytes.iter().map(|byte| format!(" {byte:02x}")).collect()
}

/// Words, each after a space.
fn words_text(words: impl Iterator<Item = u32>) -> String {
    words.map(|word| format!(" {word:08x}")).collect()
}

#[cfg(test)]
mod tests {
    use super::*;

    #[test]
    fn keys_of_the_whole_case() {
        assert_eq!(
            int8_line(&runs::examples()[0]),
            "int8 scale 3f800000 codes 7f 01 ff fd reads 42fe0000 3f800000 bf800000 c0400000\n"
        );
    }

    #[test]
    fn a_group_puts_number_16_into_the_upper_half_of_byte_0() {
        let line = int4_line(&runs::examples()[1]);
        let bytes = format!("1f{}", " 88".repeat(15));
        assert!(line.starts_with(&format!(
            "int4 scale 3f800000 bytes {bytes} reads 40e00000 "
        )));
    }

    #[test]
    fn zeros_and_nans_have_scale_one() {
        for example in 2..4 {
            let bytes = " 88".repeat(16);
            let line = int4_line(&runs::examples()[example]);
            assert!(line.starts_with(&format!("int4 scale 3f800000 bytes{bytes} reads 00000000")));
        }
    }

    #[test]
    fn one_infinity_makes_every_read_a_nan() {
        let line = format!(
            "int4 scale 7f800000 bytes{} reads{}\n",
            " 88".repeat(16),
            " 7fc00000".repeat(32)
        );
        assert_eq!(int4_line(&runs::examples()[4]), line);
    }

    #[test]
    fn subnormals_change_the_scale_at_4_and_at_64() {
        assert!(int4_line(&runs::examples()[5]).starts_with("int4 scale 00000000 "));
        assert!(int4_line(&runs::examples()[6]).starts_with("int4 scale 00000001 "));
        assert!(int8_line(&runs::examples()[7]).starts_with("int8 scale 00000000 "));
        assert!(int8_line(&runs::examples()[8]).starts_with("int8 scale 00000001 "));
    }

    #[test]
    fn halves_go_away_from_zero() {
        assert!(int8_line(&runs::examples()[9])
            .starts_with("int8 scale 3f800000 codes 7f 00 01 ff 00 01 ff reads"));
    }

    #[test]
    fn an_empty_run_has_empty_lists() {
        assert_eq!(asked(&[]), "\n");
        assert_eq!(
            answered(&[]),
            "int8 scale 3f800000 codes reads\nint4 no 7\nbf16 halves reads\n"
        );
    }

    #[test]
    fn runs_are_within_the_longest() {
        assert!(runs::all().iter().all(|run| run.len() <= runs::LONGEST));
    }
}
