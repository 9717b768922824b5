/* Rebuilds the load of a seed, and checks what it gets. Ends with status 1 where something differs.

       ./make-archive
       cc -I include tests/c/load.c target/staticlib/libcqdb_c.a -o load && ./load */
#include <stdio.h>
#include <string.h>

#include "cqdb.h"

static unsigned checked, different;

static void expect(int holds, const char *what) {
    checked++;
    if (!holds) {
        different++;
        fprintf(stderr, "load: wrong: %s\n", what);
    }
}

static uint32_t size_word(const uint8_t *image) {
    return image[4] | (uint32_t)image[5] << 8 | (uint32_t)image[6] << 16 | (uint32_t)image[7] << 24;
}

/* A buffer of len bytes takes this many entries, and the image has this size. */
static void takes(uint8_t *buf, size_t len, uint32_t entries, uint32_t size, const char *what) {
    memset(buf, 7, len);
    cqdb_load_answer a = cqdb_load(0, buf, len);
    expect(a.refusal == 0 && a.accepted == entries && size_word(buf) == size, what);
    expect(cqdb_open(buf, size).num == entries, what);
    expect(size == len || (buf[size] == 7 && buf[len - 1] == 7), "the bytes behind the image");
}

int main(void) {
    static uint8_t buf[157800];
    static const char first[] = "P3C6EF35F";
    takes(buf, 2072, 0, 2072, "no entry");
    takes(buf, 157719, 4095, 157682, "one byte too few for all entries");
    takes(buf, sizeof buf, 4096, 157720, "more bytes than all entries take");
    takes(buf, 157720, 4096, 157720, "room for all entries");
    cqdb_id_answer a = cqdb_to_id(buf, 157720, (const uint8_t *)first, 9);
    expect(a.found == 1 && a.id == 0 && a.offset == 2072, "the first name of seed 0");
    uint32_t found = 0;
    for (uint32_t id = 0, s = 0; id < 4096; id++) {
        char name[10];
        s = 1664525u * s + 1013904223u;
        snprintf(name, sizeof name, "P%08X", (unsigned)s);
        a = cqdb_to_id(buf, 157720, (const uint8_t *)name, 9);
        found += a.found == 1 && a.id == id;
    }
    expect(found == 4096, "each name gives its id");
    memset(buf, 7, sizeof buf);
    cqdb_load_answer refused = cqdb_load(0, buf, 2071);
    expect(refused.refusal == CQDB_TOO_SHORT && refused.accepted == 0 && buf[0] == 7, "a buffer too short to begin");
    printf("load: %u checked, %u different\n", checked, different);
    return different > 0;
}
