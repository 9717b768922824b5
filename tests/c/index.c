/* Puts names one by one with repeats off, by an index, into a buffer and an index that grow by realloc, with closes between; and checks
   the image beside that of cqdb_put in a large buffer. Ends with status 1 where something differs.

       cc -I include tests/c/index.c target/staticlib/libcqdb_c.a -o index && ./index */
#include <stdio.h>
#include <stdlib.h>
#include <string.h>

#include "cqdb.h"

#define NAMES 2000u
#define LARGE 200000u

static unsigned checked, different;

static void expect(int holds, const char *what) {
    checked++;
    if (!holds) {
        different++;
        fprintf(stderr, "index: wrong: %s\n", what);
    }
}

/* A writer with its buffer and its index, and how often each has grown. */
typedef struct {
    cqdb_writer writer;
    uint8_t *buf;
    size_t len;
    uint32_t *slots;
    size_t words;
    unsigned grown, indexed;
} growing;

/* Doubles the buffer. */
static int more_room(growing *g) {
    uint8_t *larger = realloc(g->buf, 2 * g->len);
    if (larger == NULL) {
        return 0;
    }
    g->buf = larger;
    g->len *= 2;
    g->grown++;
    return cqdb_grown(&g->writer, g->len) == 0;
}

/* Doubles the words and makes the index anew. */
static int more_slots(growing *g) {
    uint32_t *larger = realloc(g->slots, 2 * g->words * sizeof *larger);
    if (larger == NULL) {
        return 0;
    }
    g->slots = larger;
    g->words *= 2;
    g->indexed++;
    return cqdb_index(&g->writer, g->buf, g->len, g->slots, g->words) == 0;
}

/* Puts a name. The index grows before it is more than half full, the buffer where there is no room. */
static uint32_t put(growing *g, const char *name, uint32_t id) {
    uint32_t refusal;
    if (g->words < cqdb_index_words((size_t)g->writer.entries + 1) && !more_slots(g)) {
        return CQDB_INDEX_FULL;
    }
    do {
        refusal = cqdb_put_indexed_text(&g->writer, g->buf, g->len, g->slots, g->words, name, id);
    } while (refusal == CQDB_NO_ROOM && more_room(g));
    return refusal;
}

int main(void) {
    static uint8_t large[LARGE];
    char name[32];
    cqdb_writer w;
    growing g = {.len = 4096, .words = 32};
    cqdb_close_answer a, b;
    g.buf = malloc(g.len);
    g.slots = malloc(g.words * sizeof *g.slots);
    if (g.buf == NULL || g.slots == NULL) {
        return 1;
    }
    expect(cqdb_begin(&g.writer, CQDB_TWOWAY, g.buf, g.len) == 0 && cqdb_begin(&w, CQDB_TWOWAY, large, LARGE) == 0, "begin");
    expect(cqdb_index(&g.writer, g.buf, g.len, g.slots, g.words) == 0, "the index of a fresh writer");
    for (uint32_t id = 0; id < NAMES; id++) {
        snprintf(name, sizeof name, "prism %u", id - id % 10 / 9);
        uint32_t due = cqdb_put_text(&w, large, LARGE, name, id);
        expect(due == (id % 10 == 9 ? CQDB_REPEATED : 0), "each tenth name is that of the put before");
        expect(put(&g, name, id) == due, "each put is answered as cqdb_put answers it");
        if (id % 500 == 0) {
            expect(cqdb_close(&g.writer, g.buf, g.len).refusal == 0, "puts go on after a close");
        }
    }
    expect(g.writer.entries == w.entries && g.writer.end == w.end && g.writer.back == w.back, "both writers have the same numbers");
    expect(memcmp(g.writer.counts, w.counts, sizeof w.counts) == 0, "and the same counts");
    a = cqdb_close(&g.writer, g.buf, g.len);
    b = cqdb_close(&w, large, LARGE);
    expect(a.refusal == 0 && a.size == b.size && memcmp(g.buf, large, a.size) == 0, "both images are the same");
    expect(cqdb_put_indexed_text(&g.writer, g.buf, g.len, g.slots, 2, "mole", 1) == CQDB_INDEX_FULL, "an index of one slot is full");
    free(g.buf);
    free(g.slots);
    printf("index: %u names, the buffer grew %u times, the index %u times; checked %u, %u wrong\n", w.entries, g.grown, g.indexed, checked, different);
    return different != 0 || g.grown == 0 || g.indexed == 0;
}
