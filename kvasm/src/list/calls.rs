//! Every kind, accepted and refused.
use super::{case, filled, opened, Case};
use crate::history::history;
use crate::numbers;
use crate::records::Record;
use crate::shape::{BF16, F32, INT4, INT8};

pub fn all() -> Vec<Case> {
    [
        whole(),
        before_an_open(),
        appends(),
        truncations(),
        advances(),
        reports(),
    ]
    .into_iter()
    .flatten()
    .collect()
}

/// The paper's whole case, every kind, and a history in each format.
fn whole() -> Vec<Case> {
    let keys = ["127", "0.5", "-0.5", "-2.5"].map(bits);
    let append = Record::Append {
        layer: 0,
        keys: keys.into(),
        values: vec![0; 4],
    };
    let whole_case = history().open(INT8, [1, 1, 4, 2]).record(&append);
    let formats = [
        ("f32", F32, 6),
        ("bf16", BF16, 6),
        ("int8", INT8, 6),
        ("int4", INT4, 64),
    ];
    let mut cases = vec![
        case("whole_case", whole_case.report().truncate(1, 0)),
        case("every_kind_accepted", filled().report().truncate(1, 0)),
    ];
    cases.extend(formats.map(|(name, format, size)| {
        let numbers = 2 * usize::from(size);
        let opened = history().open(format, [3, 2, size, 4]);
        let filled = opened.append(0, numbers).append(2, 2 * numbers).report();
        let cut = filled.truncate(2, 1).report().append(2, 3 * numbers);
        case(
            format!("history_in_{name}"),
            cut.report().append(2, numbers).truncate(0, 0).report(),
        )
    }));
    cases
}

/// Without a store every kind but an open gets 1, whatever its fields.
fn before_an_open() -> Vec<Case> {
    vec![
        case("append_before_open", history().append(0, 4)),
        case("append_of_nothing_before_open", history().append(0, 0)),
        case("truncate_before_open", history().truncate(0, 0)),
        case("advance_before_open", history().advance(0)),
        case("report_before_open", history().report()),
        case(
            "seq_before_open_is_not_kept",
            history().advance(7).open(F32, [1, 1, 1, 1]).report(),
        ),
    ]
}

fn appends() -> Vec<Case> {
    let full = || filled().append(0, 8);
    let special = ["x7FC00001", "inf", "-inf", "-0"].map(bits);
    let special = Record::Append {
        layer: 0,
        keys: special.into(),
        values: special.into(),
    };
    vec![
        case("append_layer_2_of_2", filled().append(2, 4).report()),
        case("append_layer_256", filled().append(256, 4).report()),
        case("append_layer_65535", filled().append(65535, 4).report()),
        case("append_torn_short", filled().append(0, 3).report()),
        case("append_fills_the_layer", filled().append(1, 4).report()),
        case("append_one_past_the_room", filled().append(1, 8).report()),
        case("append_to_full_layer", full().append(0, 4).report()),
        case("append_of_nothing", filled().append(0, 0).report()),
        case("append_of_nothing_full", full().append(0, 0).report()),
        case("append_of_nothing_layer_2", filled().append(2, 0).report()),
        case("append_special_numbers", opened().record(&special).report()),
        case(
            "append_refused_between_two_good",
            opened().append(0, 4).append(0, 12).append(0, 8).report(),
        ),
        case(
            "append_512_numbers",
            history().open(INT8, [1, 1, 4, 128]).append(0, 512).report(),
        ),
        case(
            "append_512_in_one_position",
            history().open(F32, [1, 2, 256, 2]).append(0, 512).report(),
        ),
        case(
            "append_position_over_512",
            history()
                .open(BF16, [1, 3, 256, 2])
                .append(0, 512)
                .append(0, 0),
        ),
        case(
            "append_past_256_positions",
            (0..8).fold(history().open(BF16, [1, 1, 1, 300]), |history, _| {
                history.append(0, 40).report()
            }),
        ),
    ]
}

fn truncations() -> Vec<Case> {
    let cut = |name: &str, to| case(name, filled().truncate(1, to).report());
    vec![
        cut("truncate_to_nothing", 0),
        cut("truncate_below_the_length", 1),
        cut("truncate_at_the_length", 2),
        cut("truncate_past_the_length", 3),
        cut("truncate_to_256", 256),
        cut("truncate_to_65535", 65535),
        case("truncate_layer_2_of_2", filled().truncate(2, 0).report()),
        case("truncate_layer_256", filled().truncate(256, 0).report()),
        case("truncate_layer_65535", filled().truncate(65535, 0).report()),
        case(
            "truncate_leaves_seq_and_other_layers",
            filled().truncate(1, 0).truncate(1, 0).report(),
        ),
        case(
            "truncate_makes_room_again",
            filled()
                .append(1, 4)
                .append(1, 4)
                .truncate(1, 2)
                .append(1, 4)
                .report(),
        ),
    ]
}

fn advances() -> Vec<Case> {
    let most = || opened().advance(u32::MAX).report();
    vec![
        case("advance_by_nothing", opened().advance(0).report()),
        case("advance_up_to_the_largest", most()),
        case(
            "advance_in_two_to_the_largest",
            filled().advance(u32::MAX - 5).report(),
        ),
        case(
            "advance_one_past_the_largest",
            filled().advance(u32::MAX - 4).report(),
        ),
        case("advance_at_the_largest", most().advance(1).report()),
        case(
            "advance_by_nothing_at_the_largest",
            most().advance(0).report(),
        ),
        case(
            "advance_refused_then_smaller",
            filled().advance(u32::MAX).report().advance(9).report(),
        ),
    ]
}

fn reports() -> Vec<Case> {
    let many = history().open(INT8, [128, 1, 2, 3]);
    vec![
        case("report_new_store", opened().report()),
        case(
            "report_128_layers",
            many.append(0, 2)
                .append(126, 6)
                .append(127, 4)
                .report()
                .append(128, 2),
        ),
    ]
}

fn bits(word: &str) -> u32 {
    numbers::bits_of(word).expect("a number's word")
}
