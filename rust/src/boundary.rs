//! A safe function on slices and borrows for each of the static library's functions that takes a pointer.
//!
//! All `unsafe` of the crate stands here. The library checks every record, length and number that it is lent. It trusts
//! its caller in three things: a pointer goes with the length beside it, what a call writes overlaps no other argument,
//! and nobody else writes what a call is lent. A slice or a borrow promises all three, whatever it holds.
use crate::refusal::{answer, Refusal};
use crate::shape::{Need, Shape, Side};
use kv_sys::*;

pub use kv_sys::{
    kv_bf16_to_f32, kv_dequantize_i8, kv_f32_to_bf16, kv_quantize_i4, kv_quantize_i8, Record,
};

/// What a store lends to its calls.
#[derive(PartialEq, Eq)]
pub struct Lent {
    pub record: Record,
    pub cells: Vec<u8>,
    pub scales: Vec<u32>,
}

/// A number as the library takes it. One that does not fit is past every limit of the paper, and so is the greatest
/// word: the call is refused, or for a truncation changes nothing, as it would be for the number itself.
pub fn word(number: usize) -> u32 {
    u32::try_from(number).unwrap_or(u32::MAX)
}

/// What a store of a shape needs.
pub fn need(shape: &Shape) -> Result<Need, Refusal> {
    let [format, layers, heads, head_size, capacity] = shape.words();
    let (mut cells, mut scales) = (0, 0);
    // SAFETY: the two counts are all that is written.
    answer(unsafe {
        kv_need(
            format,
            layers,
            heads,
            head_size,
            capacity,
            &mut cells,
            &mut scales,
        )
    })?;
    Ok(Need { cells, scales })
}

/// Opens a store in what is lent.
pub fn open(lent: &mut Lent, shape: &Shape) -> Result<(), Refusal> {
    let [format, layers, heads, head_size, capacity] = shape.words();
    // SAFETY: record and buffers are three owners of their own, each buffer with its own length.
    answer(unsafe {
        kv_open(
            &mut lent.record,
            format,
            layers,
            heads,
            head_size,
            capacity,
            lent.cells.as_mut_ptr(),
            lent.cells.len(),
            lent.scales.as_mut_ptr(),
            lent.scales.len(),
        )
    })
}

/// Appends positions to a layer.
pub fn append(lent: &mut Lent, layer: u32, keys: &[f32], values: &[f32]) -> Result<(), Refusal> {
    // SAFETY: as in `open`; keys and values are read alone, each as its own count of words in place of floats.
    answer(unsafe {
        kv_append(
            &mut lent.record,
            lent.cells.as_mut_ptr(),
            lent.cells.len(),
            lent.scales.as_mut_ptr(),
            lent.scales.len(),
            layer,
            keys.as_ptr().cast::<u32>(),
            keys.len(),
            values.as_ptr().cast::<u32>(),
            values.len(),
        )
    })
}

/// Keeps the first `t` positions of a layer.
pub fn truncate(lent: &mut Lent, layer: u32, t: u32) -> Result<(), Refusal> {
    // SAFETY: as in `open`.
    answer(unsafe {
        kv_truncate(
            &mut lent.record,
            lent.cells.as_mut_ptr(),
            lent.cells.len(),
            lent.scales.as_mut_ptr(),
            lent.scales.len(),
            layer,
            t,
        )
    })
}

/// Adds to `seq_len`.
pub fn advance(record: &mut Record, count: u32) -> Result<(), Refusal> {
    // SAFETY: the record is all that is lent.
    answer(unsafe { kv_advance(record, count) })
}

/// The positions of a layer.
pub fn cached_len(record: &Record, layer: u32) -> Result<u64, Refusal> {
    let mut count = 0;
    // SAFETY: the record is read alone; only the count is written.
    answer(unsafe { kv_cached_len(record, layer, &mut count) })?;
    Ok(count)
}

/// The bytes of all rows.
pub fn memory_bytes(record: &Record) -> Result<u64, Refusal> {
    let mut count = 0;
    // SAFETY: the record is read alone; only the count is written.
    answer(unsafe { kv_memory_bytes(record, &mut count) })?;
    Ok(count)
}

/// Reads one row.
pub fn read_row(
    lent: &Lent,
    layer: u32,
    side: Side,
    head: u32,
    position: u32,
    out: &mut [f32],
) -> Result<(), Refusal> {
    // SAFETY: what is lent is read alone; only `out` is written, with words that are floats whatever their bits are.
    answer(unsafe {
        kv_read_row(
            &lent.record,
            lent.cells.as_ptr(),
            lent.cells.len(),
            lent.scales.as_ptr(),
            lent.scales.len(),
            layer,
            side as u32,
            head,
            position,
            out.as_mut_ptr().cast::<u32>(),
            out.len(),
        )
    })
}

/// Scores the first positions of a head's keys, as many as `out` has places.
pub fn scores(
    lent: &Lent,
    layer: u32,
    head: u32,
    query: &[f32],
    scale: f32,
    out: &mut [f32],
) -> Result<(), Refusal> {
    // SAFETY: what is lent and the query are read alone; only `out` is written, with words that are floats.
    answer(unsafe {
        kv_scores(
            &lent.record,
            lent.cells.as_ptr(),
            lent.cells.len(),
            lent.scales.as_ptr(),
            lent.scales.len(),
            layer,
            head,
            query.as_ptr(),
            query.len(),
            scale,
            out.as_mut_ptr().cast::<u32>(),
            out.len(),
        )
    })
}

/// Sums the first positions of a head's values, as many as there are weights.
pub fn sums(
    lent: &Lent,
    layer: u32,
    head: u32,
    weights: &[f32],
    out: &mut [f32],
) -> Result<(), Refusal> {
    // SAFETY: what is lent and the weights are read alone; only `out` is written, with words that are floats.
    answer(unsafe {
        kv_sums(
            &lent.record,
            lent.cells.as_ptr(),
            lent.cells.len(),
            lent.scales.as_ptr(),
            lent.scales.len(),
            layer,
            head,
            weights.as_ptr(),
            weights.len(),
            out.as_mut_ptr().cast::<u32>(),
            out.len(),
        )
    })
}

/// The scale of an INT8 head.
pub fn int8_scale(run: &[f32]) -> f32 {
    // SAFETY: the run is read alone, as its own count of words in place of floats.
    unsafe { kv_int8_scale(run.as_ptr().cast::<u32>(), run.len()) }
}

/// The scale of an INT4 group.
pub fn int4_scale(run: &[f32]) -> f32 {
    // SAFETY: the run is read alone, as its own count of words in place of floats.
    unsafe { kv_int4_scale(run.as_ptr().cast::<u32>(), run.len()) }
}

/// Codes the first 32 numbers into the first 16 bytes.
pub fn pack_i4_group(src: &[f32], scale: f32, dst: &mut [u8]) -> Result<(), Refusal> {
    // SAFETY: the numbers are read alone, as their own count of words in place of floats; only `dst` is written.
    answer(unsafe {
        kv_pack_i4_group(
            src.as_ptr().cast::<u32>(),
            src.len(),
            scale,
            dst.as_mut_ptr(),
            dst.len(),
        )
    })
}

/// Reads the first 16 bytes into the first 32 numbers.
pub fn unpack_i4_group(packed: &[u8], scale: f32, dst: &mut [f32]) -> Result<(), Refusal> {
    // SAFETY: the bytes are read alone; only `dst` is written, with words that are floats whatever their bits are.
    answer(unsafe {
        kv_unpack_i4_group(
            packed.as_ptr(),
            packed.len(),
            scale,
            dst.as_mut_ptr().cast::<u32>(),
            dst.len(),
        )
    })
}
