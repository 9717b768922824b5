/* Builds an image in a buffer that grows by realloc, with names that are C strings, and checks it beside one that was built
   in a large buffer. Ends with status 1 where something differs.

       cc -I include tests/c/growing.c target/staticlib/libcqdb_c.a -o growing && ./growing */
#include <stdio.h>
#include <stdlib.h>
#include <string.h>

#include "cqdb.h"

#define NAMES 2000u
#define LARGE 200000u

static unsigned checked, different;

static void expect(int holds, const char *what) {
    checked++;
    if (!holds) {
        different++;
        fprintf(stderr, "growing: wrong: %s\n", what);
    }
}

static const char *name_of(uint32_t id) {
    static char name[32];
    snprintf(name, sizeof name, "prism %u", id);
    return name;
}

/* Puts a name; where there is no room, doubles the buffer and puts it again. */
static uint32_t put_growing(cqdb_writer *w, uint8_t **buf, size_t *len, uint32_t id, unsigned *grown) {
    uint64_t size = cqdb_size_with(w, strlen(name_of(id)), id);
    uint32_t refusal = cqdb_put_text(w, *buf, *len, name_of(id), id);
    expect((refusal == CQDB_NO_ROOM) == (size > *len), "refused exactly where the size after the put exceeds the buffer");
    while (refusal == CQDB_NO_ROOM) {
        uint8_t *larger = realloc(*buf, 2 * *len);
        if (larger == NULL) {
            return refusal;
        }
        *buf = larger;
        *len = 2 * *len;
        ++*grown;
        expect(cqdb_grown(w, *len) == 0, "the writer takes the larger buffer");
        refusal = cqdb_put_text(w, *buf, *len, name_of(id), id);
    }
    return refusal;
}

int main(void) {
    static uint8_t large[LARGE];
    cqdb_writer w, v;
    size_t len = 4096;
    unsigned grown = 0;
    uint8_t *buf = malloc(len);
    if (buf == NULL) {
        return 1;
    }
    expect(cqdb_begin(&w, CQDB_TWOWAY, buf, len) == 0 && cqdb_begin(&v, CQDB_TWOWAY, large, LARGE) == 0, "begin");
    for (uint32_t id = 0; id < NAMES; id++) {
        expect(put_growing(&w, &buf, &len, id, &grown) == 0, "each name is put into the buffer that grows");
        expect(cqdb_put_text(&v, large, LARGE, name_of(id), id) == 0, "each name is put into the large buffer");
    }
    expect(cqdb_grown(&w, len - 1) == CQDB_UNFIT && w.length == len, "a shorter buffer is refused and changes nothing");
    expect(cqdb_grown(&w, len) == 0 && w.length == len, "the same length changes nothing");
    cqdb_writer odd = w;
    odd.mode = 2;
    expect(cqdb_grown(&odd, len + 1) == CQDB_UNFIT && odd.mode == 2 && odd.length == len, "a mode that is neither 0 nor 1 is refused and changes nothing");
    expect(cqdb_size_with(&w, UINT32_MAX, 0) == UINT64_MAX && cqdb_size_with(&w, UINT32_MAX - 1u, 0) < UINT64_MAX, "a name that fits into no image");
    cqdb_close_answer a = cqdb_close(&w, buf, len);
    cqdb_close_answer b = cqdb_close(&v, large, LARGE);
    expect(a.refusal == 0 && a.size == b.size && memcmp(buf, large, a.size) == 0, "both images are the same");
    for (uint32_t id = 0; id < NAMES; id++) {
        cqdb_id_answer found = cqdb_to_id_text(buf, a.size, name_of(id));
        expect(found.found == 1 && found.id == id, "a name that is a C string finds its id");
    }
    expect(cqdb_hash_text("A", 0).hash == 0x89284101u, "the hash of a C string");
    expect(strcmp(CQDB_VERSION, "") != 0, "the header has a version");
    free(buf);
    printf("growing: %u names, the buffer grew %u times to %zu bytes; checked %u, %u wrong\n", NAMES, grown, len, checked, different);
    return different != 0 || grown == 0;
}
