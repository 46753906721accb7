//! A safe wrapper on slices for each of the static library's functions.
//!
//! What a call only reads of a store is lent by a mutable pointer too: the compiler may not assume that it stays.
use crate::record::{Lent, Shape, FIRST_LENGTH, SEQ_LEN, WORDS};
use crate::replies::{Head, Place};
use kv_sys::*;
use std::mem::offset_of;

/// The reply of a call that was done.
pub const DONE: u32 = 0;
/// What a count holds before it is told.
const DIRT: usize = 0xA5A5_A5A5;
/// The reply to a group under 32 numbers or 16 bytes.
pub const SHORT: u32 = 7;

const _: () = assert!(size_of::<Record>() == 4 * WORDS);
const _: () = assert!(offset_of!(Record, seq_len) == 4 * SEQ_LEN);
const _: () = assert!(offset_of!(Record, lens) == 4 * FIRST_LENGTH);

/// The INT8 scale of a run.
pub fn int8_scale(run: &[u32]) -> f32 {
    unsafe { kv_int8_scale(run.as_ptr(), run.len()) }
}

/// The INT4 scale of a run.
pub fn int4_scale(run: &[u32]) -> f32 {
    unsafe { kv_int4_scale(run.as_ptr(), run.len()) }
}

/// The INT8 code of a number, a byte in two's complement.
pub fn quantize_i8(word: u32, scale: f32) -> u8 {
    kv_quantize_i8(word, scale)
}

/// The INT4 code of a number.
pub fn quantize_i4(word: u32, scale: f32) -> u8 {
    kv_quantize_i4(word, scale)
}

/// The word that an INT8 code reads as.
pub fn dequantize_i8(code: u8, scale: f32) -> u32 {
    kv_dequantize_i8(code, scale)
}

/// Packs the first 32 numbers into the first 16 bytes; the reply.
pub fn pack_i4_group(src: &[u32], scale: f32, dst: &mut [u8]) -> u32 {
    unsafe { kv_pack_i4_group(src.as_ptr(), src.len(), scale, dst.as_mut_ptr(), dst.len()) }
}

/// Unpacks the first 16 bytes into the first 32 numbers; the reply.
pub fn unpack_i4_group(packed: &[u8], scale: f32, dst: &mut [u32]) -> u32 {
    unsafe {
        kv_unpack_i4_group(
            packed.as_ptr(),
            packed.len(),
            scale,
            dst.as_mut_ptr(),
            dst.len(),
        )
    }
}

/// The BF16 half of a word.
pub fn f32_to_bf16(word: u32) -> u16 {
    kv_f32_to_bf16(word)
}

/// The word that a BF16 half reads as.
pub fn bf16_to_f32(half: u16) -> u32 {
    kv_bf16_to_f32(half)
}

/// The reply to a shape, and what it needs.
pub fn need(shape: &Shape) -> (u32, Lent) {
    let mut need = Lent {
        cells: DIRT,
        scales: DIRT,
    };
    let reply = unsafe {
        kv_need(
            shape.format,
            shape.layers,
            shape.heads,
            shape.head_size,
            shape.capacity,
            &mut need.cells,
            &mut need.scales,
        )
    };
    (reply, need)
}

/// What a call on a store is lent. It is open to changes even where the call only reads, so that those are seen.
pub struct Lending<'a> {
    pub record: &'a mut [u32; WORDS],
    pub cells: &'a mut [u8],
    pub scales: &'a mut [u32],
}

/// Opens a store; the reply.
pub fn open(lending: Lending, shape: &Shape) -> u32 {
    unsafe {
        kv_open(
            lending.record.as_mut_ptr().cast(),
            shape.format,
            shape.layers,
            shape.heads,
            shape.head_size,
            shape.capacity,
            lending.cells.as_mut_ptr(),
            lending.cells.len(),
            lending.scales.as_mut_ptr(),
            lending.scales.len(),
        )
    }
}

/// Appends positions to a layer; the reply.
pub fn append(lending: Lending, layer: u32, keys: &[u32], values: &[u32]) -> u32 {
    unsafe {
        kv_append(
            lending.record.as_mut_ptr().cast(),
            lending.cells.as_mut_ptr(),
            lending.cells.len(),
            lending.scales.as_mut_ptr(),
            lending.scales.len(),
            layer,
            keys.as_ptr(),
            keys.len(),
            values.as_ptr(),
            values.len(),
        )
    }
}

/// Truncates a layer; the reply.
pub fn truncate(lending: Lending, layer: u32, to: u32) -> u32 {
    unsafe {
        kv_truncate(
            lending.record.as_mut_ptr().cast(),
            lending.cells.as_mut_ptr(),
            lending.cells.len(),
            lending.scales.as_mut_ptr(),
            lending.scales.len(),
            layer,
            to,
        )
    }
}

/// Adds to `seq_len`; the reply.
pub fn advance(record: &mut [u32; WORDS], count: u32) -> u32 {
    unsafe { kv_advance(record.as_mut_ptr().cast(), count) }
}

/// Counts a layer's positions; the reply.
pub fn cached_len(record: &mut [u32; WORDS], layer: u32, count: &mut u64) -> u32 {
    unsafe { kv_cached_len(record.as_mut_ptr().cast(), layer, count) }
}

/// Counts the bytes of all rows; the reply.
pub fn memory_bytes(record: &mut [u32; WORDS], count: &mut u64) -> u32 {
    unsafe { kv_memory_bytes(record.as_mut_ptr().cast(), count) }
}

/// Reads a row; the reply.
pub fn read_row(lending: Lending, place: Place, output: &mut [u32]) -> u32 {
    unsafe {
        kv_read_row(
            lending.record.as_mut_ptr().cast(),
            lending.cells.as_mut_ptr(),
            lending.cells.len(),
            lending.scales.as_mut_ptr(),
            lending.scales.len(),
            place.layer,
            place.side,
            place.head,
            place.position,
            output.as_mut_ptr(),
            output.len(),
        )
    }
}

/// Scores the first positions of a head, as many as the output has places; the reply.
/// The query is held as words, so that no bits of a NaN change on the way.
pub fn scores(lending: Lending, head: Head, query: &[u32], scale: f32, output: &mut [u32]) -> u32 {
    unsafe {
        kv_scores(
            lending.record.as_mut_ptr().cast(),
            lending.cells.as_mut_ptr(),
            lending.cells.len(),
            lending.scales.as_mut_ptr(),
            lending.scales.len(),
            head.layer,
            head.head,
            query.as_ptr().cast(),
            query.len(),
            scale,
            output.as_mut_ptr(),
            output.len(),
        )
    }
}

/// Sums the first positions of a head, as many as there are weights; the reply.
pub fn sums(lending: Lending, head: Head, weights: &[u32], output: &mut [u32]) -> u32 {
    unsafe {
        kv_sums(
            lending.record.as_mut_ptr().cast(),
            lending.cells.as_mut_ptr(),
            lending.cells.len(),
            lending.scales.as_mut_ptr(),
            lending.scales.len(),
            head.layer,
            head.head,
            weights.as_ptr().cast(),
            weights.len(),
            output.as_mut_ptr(),
            output.len(),
        )
    }
}
