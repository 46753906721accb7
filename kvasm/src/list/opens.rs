//! Opens: the limits, what is at hand, and a second store.
use super::{case, filled, Case};
use crate::history::history;
use crate::shape::{BF16, F32, INT4, INT8};

/// A name, a format, and L, H, D and C.
type Open = (&'static str, u8, [u16; 4]);

const ACCEPTED: [Open; 9] = [
    ("least", F32, [1, 1, 1, 1]),
    ("layers_128", BF16, [128, 1, 1, 1]),
    ("heads_64", INT8, [1, 64, 2, 3]),
    ("size_256", INT4, [1, 2, 256, 3]),
    ("all_cells_f32_room_4096", F32, [1, 1, 1, 4096]),
    ("all_cells_bf16", BF16, [4, 2, 16, 64]),
    ("all_scales_int8", INT8, [1, 1, 8, 1024]),
    ("all_cells_and_scales_int8", INT8, [1, 1, 16, 1024]),
    ("all_cells_and_scales_int4", INT4, [1, 1, 32, 1024]),
];

const OUTSIDE_LIMITS: [Open; 16] = [
    ("format_4", 4, [1, 1, 4, 2]),
    ("format_255", 255, [1, 1, 4, 2]),
    ("layers_0", F32, [0, 1, 4, 2]),
    ("layers_129", F32, [129, 1, 1, 1]),
    ("layers_257", F32, [257, 1, 1, 1]),
    ("heads_0", F32, [1, 0, 4, 2]),
    ("heads_65", F32, [1, 65, 1, 1]),
    ("size_0", F32, [1, 1, 0, 2]),
    ("size_257", F32, [1, 1, 257, 1]),
    ("room_0", F32, [1, 1, 4, 0]),
    ("room_4097", INT8, [1, 1, 1, 4097]),
    ("int4_size_16", INT4, [1, 1, 16, 2]),
    ("int4_size_48", INT4, [1, 1, 48, 2]),
    ("cells_past_all", F32, [3, 64, 256, 4096]),
    ("cells_just_past_all", F32, [113, 29, 10, 4096]),
    ("all_65535", 255, [65535; 4]),
];

/// The first has exactly as many cells as any store may have.
const NOT_AT_HAND: [Open; 8] = [
    ("cells_of_the_largest", F32, [2, 64, 256, 4096]),
    ("one_position_more_f32", F32, [1, 1, 4, 1025]),
    ("one_position_more_int8", INT8, [1, 1, 16, 1025]),
    ("one_position_more_int4", INT4, [1, 1, 32, 1025]),
    ("four_cells_more_bf16", BF16, [3, 1, 1, 2731]),
    ("two_cells_more_int8", INT8, [5, 29, 113, 1]),
    ("two_scales_more_size_8", INT8, [5, 5, 8, 41]),
    ("two_scales_more_size_15", INT8, [1, 1, 15, 1025]),
];

pub fn all() -> Vec<Case> {
    let mut cases: Vec<Case> = ACCEPTED.into_iter().map(accepted).collect();
    cases.extend(OUTSIDE_LIMITS.into_iter().map(refused));
    cases.extend(NOT_AT_HAND.into_iter().map(refused));
    cases.extend(second_opens());
    cases
}

/// A new store takes a position in its last layer.
fn accepted((name, format, sizes): Open) -> Case {
    let [layers, heads, size, _] = sizes;
    let position = usize::from(heads) * usize::from(size);
    let opened = history().open(format, sizes).report();
    case(
        format!("open_{name}"),
        opened.append(layers - 1, position).report(),
    )
}

/// The store that was there stays.
fn refused((name, format, sizes): Open) -> Case {
    case(
        format!("open_{name}"),
        filled().open(format, sizes).report(),
    )
}

fn second_opens() -> Vec<Case> {
    let torn = (INT4, [1, 1, 48, 1]);
    let large = (F32, [2, 64, 256, 4096]);
    vec![
        case(
            "open_same_shape_anew",
            filled().open(INT8, [2, 1, 4, 3]).report(),
        ),
        case(
            "open_other_shape_anew",
            filled()
                .open(F32, [1, 2, 3, 1])
                .report()
                .append(1, 4)
                .append(0, 6)
                .report(),
        ),
        case(
            "open_more_layers_anew",
            filled()
                .open(INT8, [4, 1, 4, 3])
                .report()
                .append(3, 12)
                .report(),
        ),
        case(
            "open_refused_by_1_keeps_the_store",
            filled().open(torn.0, torn.1).report().append(0, 8).report(),
        ),
        case(
            "open_refused_by_2_keeps_the_store",
            filled()
                .open(large.0, large.1)
                .report()
                .append(0, 8)
                .advance(1)
                .report(),
        ),
        case(
            "open_refused_first",
            history()
                .open(torn.0, torn.1)
                .report()
                .append(0, 0)
                .open(large.0, large.1)
                .report(),
        ),
        case(
            "open_refused_then_accepted",
            history()
                .open(large.0, large.1)
                .open(INT8, [1, 1, 4, 2])
                .append(0, 4)
                .report(),
        ),
    ]
}
