/* Puts names one by one as they come, by an index, so that each put takes the same time however many there are. Buffer and index grow.
   A line of standard input is a name, and its id is its place. Prints how many names the image has, and its size.

       cc -I include examples/c/put_by_index.c target/staticlib/libcqdb_c.a -o put_by_index && cut -d ' ' -f 2- examples/prisms.txt | ./put_by_index */
#define _POSIX_C_SOURCE 200809L
#include <stdio.h>
#include <stdlib.h>

#include "cqdb.h"

/* A writer with its buffer and its index, each twice as long when it has grown. */
typedef struct {
    cqdb_writer writer;
    uint8_t *buf;
    size_t len;
    uint32_t *slots;
    size_t words;
} growing;

static int grow_buffer(growing *g) {
    uint8_t *larger = realloc(g->buf, 2 * g->len);
    if (larger == NULL) return 0;
    g->buf = larger;
    g->len *= 2;
    return cqdb_grown(&g->writer, g->len) == 0;
}

static int grow_index(growing *g) {
    uint32_t *larger = realloc(g->slots, 2 * g->words * sizeof *larger);
    if (larger == NULL) return 0;
    g->slots = larger;
    g->words *= 2;
    return cqdb_index(&g->writer, g->buf, g->len, g->slots, g->words) == 0;
}

/* Puts a name. The index grows before it is more than half full, the buffer where there is no room. */
static uint32_t put(growing *g, const char *name, size_t length, uint32_t id) {
    uint32_t refusal;
    if (g->words < cqdb_index_words((size_t)g->writer.entries + 1) && !grow_index(g)) return CQDB_INDEX_FULL;
    do {
        refusal = cqdb_put_indexed(&g->writer, g->buf, g->len, g->slots, g->words, (const uint8_t *)name, length, id);
    } while (refusal == CQDB_NO_ROOM && grow_buffer(g));
    return refusal;
}

int main(void) {
    growing g = {.buf = malloc(4096), .len = 4096, .slots = malloc(256), .words = 64};
    char *line = NULL;
    size_t room = 0;
    uint32_t id = 0;
    if (g.buf == NULL || g.slots == NULL || cqdb_begin(&g.writer, CQDB_TWOWAY, g.buf, g.len) != 0) return 2;
    if (cqdb_index(&g.writer, g.buf, g.len, g.slots, g.words) != 0) return 2;
    for (ssize_t n; (n = getline(&line, &room, stdin)) >= 0; id++) {
        uint32_t refusal = put(&g, line, (size_t)(n - (line[n - 1] == '\n')), id);
        if (refusal != 0) {
            fprintf(stderr, "line %u: %s\n", id + 1, cqdb_refusal_text(refusal));
            return 1;
        }
    }
    cqdb_close_answer closed = cqdb_close(&g.writer, g.buf, g.len);
    printf("%u names, %u bytes\n", g.writer.entries, closed.size);
    free(line);
    free(g.buf);
    free(g.slots);
    return closed.refusal != 0;
}
