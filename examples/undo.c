/* A paragraph is typed and withdrawn: two stores open, append, cut and print their rows. */
#include "kv.h"

#include <stdio.h>
#include <stdlib.h>
#include <string.h>

enum { LAYERS = 2, HEADS = 1, HEAD_SIZE = 4, CAPACITY = 8, HEADING = 2 };

typedef struct {
    kv_record record;
    uint8_t *cells;
    uint32_t *scales;
    size_t cells_len, scales_len;
} store;

static void must(int holds, const char *what)
{
    if (!holds) {
        fprintf(stderr, "%s failed\n", what);
        exit(1);
    }
}

static void open_store(store *s)
{
    must(kv_need(KV_INT8, LAYERS, HEADS, HEAD_SIZE, CAPACITY, &s->cells_len, &s->scales_len) == KV_DONE, "need");
    s->cells = malloc(s->cells_len);
    s->scales = malloc(s->scales_len * sizeof *s->scales);
    must(s->cells && s->scales, "memory");
    must(kv_open(&s->record, KV_INT8, LAYERS, HEADS, HEAD_SIZE, CAPACITY, s->cells, s->cells_len, s->scales,
                 s->scales_len) == KV_DONE,
         "open");
}

/* Every layer gets the rows; a predictor's layers would have keys and values of their own. */
static void append(store *s, const float *rows, size_t len)
{
    for (uint32_t layer = 0; layer < LAYERS; layer++)
        must(kv_append(&s->record, s->cells, s->cells_len, s->scales, s->scales_len, layer, rows, len, rows, len)
                 == KV_DONE,
             "append");
}

static void print_keys(const store *s, const char *when)
{
    printf("%s\n", when);
    for (uint32_t p = 0; p < s->record.lens[0]; p++) {
        float row[HEAD_SIZE];
        must(kv_read_row(&s->record, s->cells, s->cells_len, s->scales, s->scales_len, 0, KV_KEYS, 0, p, row, HEAD_SIZE)
                 == KV_DONE,
             "read");
        printf("  position %u: %g %g %g %g\n", (unsigned)p, row[0], row[1], row[2], row[3]);
    }
}

int main(void)
{
    const float heading[HEADING * HEAD_SIZE] = {127, 0.5f, -0.5f, -2.5f, 254, 1, -1, 100};
    const float paragraph[HEAD_SIZE] = {-63.5f, 10, 20, 30};
    store desk, fresh;
    open_store(&desk);
    append(&desk, heading, HEADING * HEAD_SIZE);
    append(&desk, paragraph, HEAD_SIZE);
    print_keys(&desk, "typed");

    for (uint32_t layer = 0; layer < LAYERS; layer++)
        must(kv_truncate(&desk.record, desk.cells, desk.cells_len, desk.scales, desk.scales_len, layer, HEADING)
                 == KV_DONE,
             "truncate");
    print_keys(&desk, "withdrawn");

    open_store(&fresh);
    append(&fresh, heading, HEADING * HEAD_SIZE);
    must(!memcmp(&desk.record, &fresh.record, sizeof desk.record), "the same record");
    must(!memcmp(desk.cells, fresh.cells, desk.cells_len), "the same cells");
    must(!memcmp(desk.scales, fresh.scales, desk.scales_len * sizeof *desk.scales), "the same scales");
    printf("no byte differs from a store that never saw the paragraph\n");
    free(desk.cells);
    free(desk.scales);
    free(fresh.cells);
    free(fresh.scales);
    return 0;
}
