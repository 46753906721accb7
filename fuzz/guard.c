/* Each call's memory is lent as a copy that ends, or begins, at a page nobody may touch; what it may not write is held to what it was. */
#define _DEFAULT_SOURCE
#include "kv.h"

#include <stdio.h>
#include <stdlib.h>
#include <string.h>
#include <sys/mman.h>

enum { SLOTS = 5, PAGE = 4096 };
static const size_t ROOM = (size_t)1 << 26;

enum { REPLIES = KV_REPLY_SEQUENCE + 1 };

static uint8_t *rooms[SLOTS];
static unsigned long calls;
static unsigned long replies[REPLIES];

static void stop(const char *why)
{
    fprintf(stderr, "%s\n", why);
    abort();
}

static void tell(void)
{
    fprintf(stderr, "calls by their reply, 0 to %d:", REPLIES - 1);
    for (int i = 0; i < REPLIES; i++)
        fprintf(stderr, " %lu", replies[i]);
    fprintf(stderr, "\n");
}

static uint32_t counted(uint32_t reply)
{
    static int told;
    if (!told++)
        atexit(tell);
    if (reply >= REPLIES)
        stop("a reply that the paper does not have");
    replies[reply]++;
    return reply;
}

/* The same input lends at the same sides whenever it is played. */
void guard_new_input(void);
void guard_new_input(void)
{
    calls = 0;
}

static uint8_t *room(int slot)
{
    if (!rooms[slot]) {
        uint8_t *whole = mmap(NULL, ROOM + 2 * PAGE, PROT_NONE, MAP_PRIVATE | MAP_ANONYMOUS | MAP_NORESERVE, -1, 0);
        if (whole == MAP_FAILED || mprotect(whole + PAGE, ROOM, PROT_READ | PROT_WRITE))
            stop("no memory");
        rooms[slot] = whole + PAGE;
    }
    return rooms[slot];
}

/* The copy of a slot: its last byte lies before the closed page on one call, its first behind one on the next. */
static void *lent(int slot, const void *from, size_t bytes)
{
    if (bytes > ROOM)
        stop("more is lent than the fuzzer has room for");
    uint8_t *copy = calls % 2 ? room(slot) : room(slot) + ROOM - bytes;
    if (bytes)
        memcpy(copy, from, bytes);
    return copy;
}

static void returned(void *to, const void *copy, size_t bytes)
{
    if (bytes)
        memcpy(to, copy, bytes);
}

static void unchanged(const void *from, const void *copy, size_t bytes)
{
    if (bytes && memcmp(from, copy, bytes))
        stop("a call wrote what it may only read");
}

/* A store that a call may change, and one that it may only read. */
#define STORE_LENT                                                                                                     \
    kv_record *r = lent(0, rec, sizeof *rec);                                                                          \
    uint8_t *c = lent(1, cells, cells_len);                                                                            \
    uint32_t *s = lent(2, scales, scales_len * sizeof *scales)

#define STORE_RETURNED                                                                                                 \
    returned(rec, r, sizeof *rec);                                                                                     \
    returned(cells, c, cells_len);                                                                                     \
    returned(scales, s, scales_len * sizeof *scales)

#define STORE_UNCHANGED                                                                                                \
    unchanged(rec, r, sizeof *rec);                                                                                    \
    unchanged(cells, c, cells_len);                                                                                    \
    unchanged(scales, s, scales_len * sizeof *scales)

/* The linker gives the library's function the first name, and whoever calls it the second. */
#define REAL(result, name, parameters)                                                                                 \
    result __real_##name parameters;                                                                                   \
    result __wrap_##name parameters;                                                                                   \
    result __wrap_##name parameters

REAL(uint32_t, kv_open,
     (kv_record *rec, uint32_t format, uint32_t layers, uint32_t heads, uint32_t head_size, uint32_t capacity,
      uint8_t *cells, size_t cells_len, uint32_t *scales, size_t scales_len))
{
    calls++;
    STORE_LENT;
    uint32_t reply = __real_kv_open(r, format, layers, heads, head_size, capacity, c, cells_len, s, scales_len);
    STORE_RETURNED;
    return counted(reply);
}

REAL(uint32_t, kv_append,
     (kv_record *rec, uint8_t *cells, size_t cells_len, uint32_t *scales, size_t scales_len, uint32_t layer,
      const float *keys, size_t keys_len, const float *values, size_t values_len))
{
    calls++;
    STORE_LENT;
    float *k = lent(3, keys, keys_len * sizeof *keys);
    float *v = lent(4, values, values_len * sizeof *values);
    uint32_t reply = __real_kv_append(r, c, cells_len, s, scales_len, layer, k, keys_len, v, values_len);
    STORE_RETURNED;
    unchanged(keys, k, keys_len * sizeof *keys);
    unchanged(values, v, values_len * sizeof *values);
    return counted(reply);
}

REAL(uint32_t, kv_truncate,
     (kv_record *rec, uint8_t *cells, size_t cells_len, uint32_t *scales, size_t scales_len, uint32_t layer,
      uint32_t t))
{
    calls++;
    STORE_LENT;
    uint32_t reply = __real_kv_truncate(r, c, cells_len, s, scales_len, layer, t);
    STORE_RETURNED;
    return counted(reply);
}

REAL(uint32_t, kv_advance, (kv_record *rec, uint32_t count))
{
    calls++;
    kv_record *r = lent(0, rec, sizeof *rec);
    uint32_t reply = __real_kv_advance(r, count);
    returned(rec, r, sizeof *rec);
    return counted(reply);
}

REAL(uint32_t, kv_cached_len, (const kv_record *rec, uint32_t layer, uint64_t *count))
{
    calls++;
    kv_record *r = lent(0, rec, sizeof *rec);
    uint32_t reply = __real_kv_cached_len(r, layer, count);
    unchanged(rec, r, sizeof *rec);
    return counted(reply);
}

REAL(uint32_t, kv_memory_bytes, (const kv_record *rec, uint64_t *count))
{
    calls++;
    kv_record *r = lent(0, rec, sizeof *rec);
    uint32_t reply = __real_kv_memory_bytes(r, count);
    unchanged(rec, r, sizeof *rec);
    return counted(reply);
}

REAL(uint32_t, kv_read_row,
     (const kv_record *rec, const uint8_t *cells, size_t cells_len, const uint32_t *scales, size_t scales_len,
      uint32_t layer, uint32_t side, uint32_t head, uint32_t position, float *out, size_t out_len))
{
    calls++;
    STORE_LENT;
    float *o = lent(3, out, out_len * sizeof *out);
    uint32_t reply = __real_kv_read_row(r, c, cells_len, s, scales_len, layer, side, head, position, o, out_len);
    STORE_UNCHANGED;
    returned(out, o, out_len * sizeof *out);
    return counted(reply);
}

REAL(uint32_t, kv_scores,
     (const kv_record *rec, const uint8_t *cells, size_t cells_len, const uint32_t *scales, size_t scales_len,
      uint32_t layer, uint32_t head, const float *query, size_t query_len, float scale, float *out, size_t out_len))
{
    calls++;
    STORE_LENT;
    float *q = lent(3, query, query_len * sizeof *query);
    float *o = lent(4, out, out_len * sizeof *out);
    uint32_t reply = __real_kv_scores(r, c, cells_len, s, scales_len, layer, head, q, query_len, scale, o, out_len);
    STORE_UNCHANGED;
    unchanged(query, q, query_len * sizeof *query);
    returned(out, o, out_len * sizeof *out);
    return counted(reply);
}

REAL(uint32_t, kv_sums,
     (const kv_record *rec, const uint8_t *cells, size_t cells_len, const uint32_t *scales, size_t scales_len,
      uint32_t layer, uint32_t head, const float *weights, size_t weights_len, float *out, size_t out_len))
{
    calls++;
    STORE_LENT;
    float *w = lent(3, weights, weights_len * sizeof *weights);
    float *o = lent(4, out, out_len * sizeof *out);
    uint32_t reply = __real_kv_sums(r, c, cells_len, s, scales_len, layer, head, w, weights_len, o, out_len);
    STORE_UNCHANGED;
    unchanged(weights, w, weights_len * sizeof *weights);
    returned(out, o, out_len * sizeof *out);
    return counted(reply);
}

#define SCALE(name)                                                                                                    \
    REAL(float, name, (const float *run, size_t run_len))                                                              \
    {                                                                                                                  \
        calls++;                                                                                                       \
        float *n = lent(3, run, run_len * sizeof *run);                                                                \
        float scale = __real_##name(n, run_len);                                                                       \
        unchanged(run, n, run_len * sizeof *run);                                                                      \
        return scale;                                                                                                  \
    }

SCALE(kv_int8_scale)
SCALE(kv_int4_scale)

REAL(uint32_t, kv_pack_i4_group, (const float *src, size_t src_len, float scale, uint8_t *dst, size_t dst_len))
{
    calls++;
    float *n = lent(3, src, src_len * sizeof *src);
    uint8_t *d = lent(4, dst, dst_len);
    uint32_t reply = __real_kv_pack_i4_group(n, src_len, scale, d, dst_len);
    unchanged(src, n, src_len * sizeof *src);
    returned(dst, d, dst_len);
    return counted(reply);
}

REAL(uint32_t, kv_unpack_i4_group, (const uint8_t *packed, size_t packed_len, float scale, float *dst, size_t dst_len))
{
    calls++;
    uint8_t *p = lent(3, packed, packed_len);
    float *d = lent(4, dst, dst_len * sizeof *dst);
    uint32_t reply = __real_kv_unpack_i4_group(p, packed_len, scale, d, dst_len);
    unchanged(packed, p, packed_len);
    returned(dst, d, dst_len * sizeof *dst);
    return counted(reply);
}
