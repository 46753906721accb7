//! The static library's functions and its record, declared once for the crate and for everything that tests the library.
//!
//! Each function does what its line in `include/kv.h` says; a test holds this list to that header and to the library's
//! source. The library checks every record, length and number that it is lent. It trusts its caller in four things: a
//! pointer goes with the length beside it, what a call writes overlaps no other argument, nobody else writes what a call
//! is lent, and the processor rounds to nearest and keeps subnormals.
//!
//! A build links `target/staticlib/TARGET/libhost.a` for what it is built for, as `tools/archive TARGET` makes it, or the
//! `libhost.a` of the folder that `KV_LIB_DIR` names. A dependent's build script has the archive's name in
//! `DEP_HOST_ARCHIVE`.

/// The most layers of a record.
pub const MOST_LAYERS: usize = 128;

/// The record of a store: 134 words of 32 bits.
#[repr(C)]
#[derive(Clone, PartialEq, Eq, Debug)]
pub struct Record {
    pub format: u32,
    pub layers: u32,
    pub heads: u32,
    pub head_size: u32,
    pub capacity: u32,
    pub seq_len: u32,
    pub lens: [u32; MOST_LAYERS],
}

const _: () = assert!(size_of::<Record>() == 134 * 4);
// The archives count in words of 64 bits.
const _: () = assert!(size_of::<usize>() == 8);

impl Record {
    /// The record before a store is opened.
    pub const ZEROS: Record = Record {
        format: 0,
        layers: 0,
        heads: 0,
        head_size: 0,
        capacity: 0,
        seq_len: 0,
        lens: [0; MOST_LAYERS],
    };
}

// SAFETY: `rust/tests/header.rs` holds each to the library's own declaration; the safe ones take numbers alone.
unsafe extern "C" {
    pub fn kv_need(
        format: u32,
        layers: u32,
        heads: u32,
        head_size: u32,
        capacity: u32,
        cells: *mut usize,
        scales: *mut usize,
    ) -> u32;
    pub fn kv_open(
        rec: *mut Record,
        format: u32,
        layers: u32,
        heads: u32,
        head_size: u32,
        capacity: u32,
        cells: *mut u8,
        cells_len: usize,
        scales: *mut u32,
        scales_len: usize,
    ) -> u32;
    pub fn kv_append(
        rec: *mut Record,
        cells: *mut u8,
        cells_len: usize,
        scales: *mut u32,
        scales_len: usize,
        layer: u32,
        keys: *const u32,
        keys_len: usize,
        values: *const u32,
        values_len: usize,
    ) -> u32;
    pub fn kv_truncate(
        rec: *mut Record,
        cells: *mut u8,
        cells_len: usize,
        scales: *mut u32,
        scales_len: usize,
        layer: u32,
        t: u32,
    ) -> u32;
    pub fn kv_advance(rec: *mut Record, count: u32) -> u32;
    pub fn kv_cached_len(rec: *const Record, layer: u32, count: *mut u64) -> u32;
    pub fn kv_memory_bytes(rec: *const Record, count: *mut u64) -> u32;
    pub fn kv_read_row(
        rec: *const Record,
        cells: *const u8,
        cells_len: usize,
        scales: *const u32,
        scales_len: usize,
        layer: u32,
        side: u32,
        head: u32,
        position: u32,
        out: *mut u32,
        out_len: usize,
    ) -> u32;
    pub fn kv_scores(
        rec: *const Record,
        cells: *const u8,
        cells_len: usize,
        scales: *const u32,
        scales_len: usize,
        layer: u32,
        head: u32,
        query: *const f32,
        query_len: usize,
        scale: f32,
        out: *mut u32,
        out_len: usize,
    ) -> u32;
    pub fn kv_sums(
        rec: *const Record,
        cells: *const u8,
        cells_len: usize,
        scales: *const u32,
        scales_len: usize,
        layer: u32,
        head: u32,
        weights: *const f32,
        weights_len: usize,
        out: *mut u32,
        out_len: usize,
    ) -> u32;
    pub fn kv_int8_scale(run: *const u32, run_len: usize) -> f32;
    pub fn kv_int4_scale(run: *const u32, run_len: usize) -> f32;
    pub safe fn kv_quantize_i8(x: u32, scale: f32) -> u8;
    pub safe fn kv_quantize_i4(x: u32, scale: f32) -> u8;
    pub safe fn kv_dequantize_i8(code: u8, scale: f32) -> u32;
    pub fn kv_pack_i4_group(
        src: *const u32,
        src_len: usize,
        scale: f32,
        dst: *mut u8,
        dst_len: usize,
    ) -> u32;
    pub fn kv_unpack_i4_group(
        packed: *const u8,
        packed_len: usize,
        scale: f32,
        dst: *mut u32,
        dst_len: usize,
    ) -> u32;
    pub safe fn kv_f32_to_bf16(x: u32) -> u16;
    pub safe fn kv_bf16_to_f32(half: u16) -> u32;
}
