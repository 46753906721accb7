/*
 * Karonjeenu: a key/value cache whose undo is proved. Link target/staticlib/TARGET/libhost.a, made by `tools/archive`.
 *
 * Every call ends, whatever it is lent. One that can refuse answers a reply: 0, or the lowest number that applies, and
 * then it has changed nothing save what its own line below says. The caller sees to four things that no callee can see:
 * a pointer points to as many elements as the length beside it says (at length 0 it may be NULL); memory that a call
 * writes overlaps no other argument of that call; no other thread writes what a call is lent while it runs; and the
 * processor rounds to nearest and keeps subnormals, as it does unless a program sets it otherwise or is linked with
 * -ffast-math.
 *
 * A number in an array is a binary32 float. Those that are stored pass as their bits, so that a NaN keeps its own. A NaN
 * that a call computes is written as 7FC00000, and an output of a refused call keeps every bit.
 */
#ifndef KV_H
#define KV_H

#include <stddef.h>
#include <stdint.h>

#ifdef __cplusplus
extern "C" {
#endif

/* The limits of a shape; its cells may be at most KV_MOST_CELLS bytes, and INT4 wants a head size that 32 divides. */
enum {
    KV_MOST_LAYERS = 128,
    KV_MOST_HEADS = 64,
    KV_MOST_HEAD_SIZE = 256,
    KV_MOST_CAPACITY = 4096,
    KV_MOST_CELLS = 1073741824
};

enum kv_format { KV_F32 = 0, KV_BF16 = 1, KV_INT8 = 2, KV_INT4 = 3 };

enum kv_side { KV_KEYS = 0, KV_VALUES = 1 };

enum kv_reply {
    KV_DONE = 0,           /* done */
    KV_REPLY_SHAPE = 1,    /* the shape is outside the limits */
    KV_REPLY_ROOM = 2,     /* the length of the cells or of the scales is not the exact one */
    KV_REPLY_LENGTHS = 3,  /* a layer's length exceeds the capacity, or one past the layers is not 0 */
    KV_REPLY_LAYER = 4,    /* the layer is not below the number of layers */
    KV_REPLY_HEAD = 5,     /* the head is not below the number of heads, or the side is not 0 or 1 */
    KV_REPLY_FORMAT = 6,   /* scores or sums are asked of BF16 or INT8 */
    KV_REPLY_SIZE = 7,     /* keys, values, a query, an output or a group has the wrong length */
    KV_REPLY_POSITION = 8, /* more scores or weights than positions, or a position that is not there */
    KV_REPLY_FULL = 9,     /* the new positions exceed the capacity */
    KV_REPLY_SEQUENCE = 10 /* seq_len would pass 4,294,967,295 */
};

/* The record of a store: 134 words of 32 bits. Read it freely; only the calls below should write it. */
typedef struct kv_record {
    uint32_t format;
    uint32_t layers;
    uint32_t heads;
    uint32_t head_size;
    uint32_t capacity;
    uint32_t seq_len;
    uint32_t lens[KV_MOST_LAYERS]; /* the positions of each layer; 0 past the layers */
} kv_record;

/* Tells the cell bytes and scale words that a shape needs, 0 and 0 with a refusal. */
uint32_t kv_need(uint32_t format, uint32_t layers, uint32_t heads, uint32_t head_size, uint32_t capacity,
                 size_t *cells, size_t *scales);

/* Makes an empty store in buffers of exactly the shape's need, all zero; refused, it leaves a record of zeros. */
uint32_t kv_open(kv_record *rec, uint32_t format, uint32_t layers, uint32_t heads, uint32_t head_size,
                 uint32_t capacity, uint8_t *cells, size_t cells_len, uint32_t *scales, size_t scales_len);

/* Appends the keys and values of n positions to a layer, n * heads * head_size numbers each, position first. */
uint32_t kv_append(kv_record *rec, uint8_t *cells, size_t cells_len, uint32_t *scales, size_t scales_len,
                   uint32_t layer, const float *keys, size_t keys_len, const float *values, size_t values_len);

/* Keeps the first t positions of a layer and zeroes the cells and scales of the others; seq_len stays. */
uint32_t kv_truncate(kv_record *rec, uint8_t *cells, size_t cells_len, uint32_t *scales, size_t scales_len,
                     uint32_t layer, uint32_t t);

/* Adds to seq_len, and to nothing else. */
uint32_t kv_advance(kv_record *rec, uint32_t count);

/* Tells the positions of a layer, 0 with a refusal. */
uint32_t kv_cached_len(const kv_record *rec, uint32_t layer, uint64_t *count);

/* Tells the bytes of all rows of all layers, 0 with a refusal. */
uint32_t kv_memory_bytes(const kv_record *rec, uint64_t *count);

/* Reads one position of a side and head into the head_size numbers of out. */
uint32_t kv_read_row(const kv_record *rec, const uint8_t *cells, size_t cells_len, const uint32_t *scales,
                     size_t scales_len, uint32_t layer, uint32_t side, uint32_t head, uint32_t position, float *out,
                     size_t out_len);

/* Scores the first out_len positions of a head's keys under a query of head_size numbers; F32 and INT4. */
uint32_t kv_scores(const kv_record *rec, const uint8_t *cells, size_t cells_len, const uint32_t *scales,
                   size_t scales_len, uint32_t layer, uint32_t head, const float *query, size_t query_len, float scale,
                   float *out, size_t out_len);

/* Sums the first weights_len positions of a head's values, each times its weight, into out; F32 and INT4. */
uint32_t kv_sums(const kv_record *rec, const uint8_t *cells, size_t cells_len, const uint32_t *scales,
                 size_t scales_len, uint32_t layer, uint32_t head, const float *weights, size_t weights_len, float *out,
                 size_t out_len);

/* The scale of an INT8 head: the largest magnitude by 127, or 1 where that is 0. */
float kv_int8_scale(const float *run, size_t run_len);

/* The scale of an INT4 group: the largest magnitude by 7, or 1 where that is 0. */
float kv_int4_scale(const float *run, size_t run_len);

/* The INT8 code, a byte in two's complement, of the number whose bits x are. */
uint8_t kv_quantize_i8(uint32_t x, float scale);

/* The INT4 code, 0 to 15 for -8 to 7, of the number whose bits x are. */
uint8_t kv_quantize_i4(uint32_t x, float scale);

/* The bits of the number that an INT8 code reads as. */
uint32_t kv_dequantize_i8(uint8_t code, float scale);

/* Codes the first 32 numbers of src into the first 16 bytes of dst, or answers 7. */
uint32_t kv_pack_i4_group(const float *src, size_t src_len, float scale, uint8_t *dst, size_t dst_len);

/* Reads the first 16 bytes of packed into the first 32 numbers of dst, or answers 7. */
uint32_t kv_unpack_i4_group(const uint8_t *packed, size_t packed_len, float scale, float *dst, size_t dst_len);

/* The BF16 pattern of the number whose bits x are. */
uint16_t kv_f32_to_bf16(uint32_t x);

/* The bits of the number whose BF16 pattern half is. */
uint32_t kv_bf16_to_f32(uint16_t half);

#ifdef __cplusplus
}
#endif

#endif
