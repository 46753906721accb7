//! The model, rule by rule.
use kvasm::history::{history, History};
use kvasm::model::play;
use kvasm::shape::{BF16, F32, INT4, INT8};

/// What the program prints, the lines joined by `; `.
fn printed(history: History) -> String {
    lines(&history.bytes())
}

fn lines(file: &[u8]) -> String {
    let output = play(file).output();
    assert!(output.is_empty() || output.ends_with('\n'));
    output.trim_end().replace('\n', "; ")
}

/// Two layers, two heads of two numbers, three positions.
fn opened() -> History {
    history().open(F32, [2, 2, 2, 3])
}

#[test]
fn whole_case_prints_what_the_paper_says() {
    let file = [
        0x4B, 0x56, 0x01, 0x02, 0x01, 0x00, 0x01, 0x00, 0x04, 0x00, 0x02, 0x00, // open
        0x4B, 0x56, 0x02, 0x00, 0x00, 0x04, 0x00, // append to layer 0, 4 numbers a side
        0x00, 0x00, 0xFE, 0x42, 0x00, 0x00, 0x00, 0x3F, // 127, 0.5
        0x00, 0x00, 0x00, 0xBF, 0x00, 0x00, 0x20, 0xC0, // -0.5, -2.5
        0x00, 0x00, 0x00, 0x00, 0x00, 0x00, 0x00, 0x00, // values
        0x00, 0x00, 0x00, 0x00, 0x00, 0x00, 0x00, 0x00, //
        0x4B, 0x56, 0x05, // report
        0x4B, 0x56, 0x03, 0x01, 0x00, 0x00, 0x00, // truncate layer 1
    ];
    let output = "ok\nok\nseq 0 bytes 16 len 1\nno 4\n";
    assert_eq!(play(&file).output(), output);
}

#[test]
fn empty_file_prints_nothing() {
    assert_eq!(play(&[]).output(), "");
}

#[test]
fn before_an_open_every_other_kind_gets_1() {
    let calls = history().append(0, 0).truncate(9, 0).advance(0).report();
    assert_eq!(printed(calls), "no 1; no 1; no 1; no 1");
}

#[test]
fn refused_open_keeps_the_store() {
    let refused = opened().advance(3).open(F32, [0, 1, 1, 1]).report();
    assert_eq!(printed(refused), "ok; ok; no 1; seq 3 bytes 0 len 0 0");
    let refused = opened().append(1, 4).open(F32, [128, 64, 1, 9]).report();
    assert_eq!(printed(refused), "ok; ok; no 2; seq 0 bytes 32 len 0 1");
}

#[test]
fn accepted_open_starts_anew() {
    let anew = opened().append(0, 4).advance(3).open(BF16, [1, 1, 1, 1]);
    assert_eq!(
        printed(anew.report()),
        "ok; ok; ok; ok; seq 0 bytes 0 len 0"
    );
}

#[test]
fn shape_past_a_limit_gets_1_whatever_it_needs() {
    let outside = [
        (4, [1, 1, 1, 1]),
        (F32, [129, 1, 1, 1]),
        (F32, [1, 65, 1, 1]),
        (F32, [1, 1, 257, 1]),
        (F32, [1, 1, 1, 4097]),
        (INT4, [1, 1, 48, 1]),
        (INT4, [128, 64, 48, 4096]),
        (F32, [3, 64, 256, 4096]),
        (255, [65535; 4]),
    ];
    for (format, sizes) in outside {
        assert_eq!(printed(history().open(format, sizes)), "no 1", "{sizes:?}");
    }
}

#[test]
fn shape_that_needs_more_than_is_at_hand_gets_2() {
    let opens = [
        ("ok", F32, [1, 1, 1, 4096]),
        ("ok", INT8, [1, 1, 16, 1024]),
        ("ok", INT4, [1, 1, 32, 1024]),
        ("no 2", INT8, [5, 29, 113, 1]),
        ("no 2", INT8, [1, 1, 1, 1025]),
        ("no 2", INT4, [1, 1, 32, 1025]),
        ("no 2", F32, [2, 64, 256, 4096]),
    ];
    for (line, format, sizes) in opens {
        assert_eq!(printed(history().open(format, sizes)), line, "{sizes:?}");
    }
}

#[test]
fn refused_append_changes_nothing() {
    let calls = opened().append(0, 8).append(0, 8).append(0, 4).report();
    assert_eq!(printed(calls), "ok; ok; no 9; ok; seq 0 bytes 96 len 3 0");
}

#[test]
fn lowest_refusal_of_an_append_is_given() {
    assert_eq!(printed(opened().append(2, 3)), "ok; no 4");
    assert_eq!(printed(opened().append(2, 16)), "ok; no 4");
    assert_eq!(printed(opened().append(1, 17)), "ok; no 7");
    assert_eq!(printed(opened().append(1, 16)), "ok; no 9");
    // A head is no position where there are two.
    assert_eq!(printed(opened().append(1, 2)), "ok; no 7");
}

#[test]
fn append_of_nothing_changes_nothing() {
    let full = opened().append(0, 12).append(0, 0).report();
    assert_eq!(printed(full), "ok; ok; ok; seq 0 bytes 96 len 3 0");
    assert_eq!(printed(opened().append(2, 0)), "ok; no 4");
}

#[test]
fn truncate_at_or_past_the_length_changes_nothing() {
    let calls = opened().append(0, 8).truncate(0, 2).truncate(0, 65535);
    assert_eq!(
        printed(calls.report()),
        "ok; ok; ok; ok; seq 0 bytes 64 len 2 0"
    );
}

#[test]
fn truncate_leaves_seq() {
    let calls = opened().append(0, 8).advance(2).truncate(0, 1).report();
    assert_eq!(printed(calls), "ok; ok; ok; ok; seq 2 bytes 32 len 1 0");
}

#[test]
fn layer_is_taken_whole() {
    let calls = opened().append(256, 4).truncate(65535, 0);
    assert_eq!(printed(calls), "ok; no 4; no 4");
}

#[test]
fn advance_past_the_largest_word_gets_10() {
    let calls = opened().advance(1).advance(u32::MAX).report();
    assert_eq!(printed(calls), "ok; ok; no 10; seq 1 bytes 0 len 0 0");
    let calls = opened().advance(1).advance(u32::MAX - 1).report();
    assert_eq!(printed(calls), "ok; ok; ok; seq 4294967295 bytes 0 len 0 0");
}

#[test]
fn byte_count_has_cells_and_scales_of_both_sides() {
    let one = |format, size: u16| {
        let opened = history().open(format, [1, 2, size, 2]);
        printed(opened.append(0, 2 * usize::from(size)).report())
    };
    assert_eq!(one(F32, 3), "ok; ok; seq 0 bytes 48 len 1");
    assert_eq!(one(BF16, 3), "ok; ok; seq 0 bytes 24 len 1");
    assert_eq!(one(INT8, 3), "ok; ok; seq 0 bytes 28 len 1");
    assert_eq!(one(INT4, 64), "ok; ok; seq 0 bytes 160 len 1");
}

#[test]
fn bad_record_is_told_by_its_first_byte_and_ends_the_walk() {
    let bad = |bytes: &[u8]| printed(opened().raw(bytes).report());
    assert_eq!(bad(&[0x4B, 0x57, 5]), "ok; bad at 12");
    assert_eq!(bad(&[0x4B, 0x56, 6]), "ok; bad at 12");
    assert_eq!(bad(&[0x4B, 0x56, 0]), "ok; bad at 12");
    assert_eq!(printed(opened().raw(&[0x4B, 0x56])), "ok; bad at 12");
}

#[test]
fn bad_record_is_judged_before_any_store() {
    let over = [&[0x4B, 0x56, 2, 9, 0, 1, 2][..], &[0; 8 * 513]].concat();
    assert_eq!(lines(&over), "bad at 0");
    assert_eq!(printed(opened().raw(&over)), "ok; bad at 12");
    assert_eq!(printed(history().raw(&[0x4B, 0x56, 2, 9, 0])), "bad at 0");
}

#[test]
fn file_over_16384_bytes_prints_one_line() {
    let long = |length| printed(opened().filled_to(length));
    assert!(long(16_384).starts_with("ok; no 9"));
    assert_eq!(long(16_385), "bad at 16384");
    assert_eq!(lines(&[0; 16_385]), "bad at 16384");
    assert_eq!(lines(&[0; 16_384]), "bad at 0");
}
