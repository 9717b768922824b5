/* Writes a round sheet and reads it back. Ends with status 1 where an answer is another than expected.

       ./make-archive
       cc -I include tests/c/sheet.c target/staticlib/libcqdb_c.a -o sheet && ./sheet */
#include <stdio.h>
#include <string.h>

#include "cqdb.h"

static unsigned checked, different;

static void expect(int so, const char *what) {
    checked++;
    if (!so) {
        different++;
        fprintf(stderr, "sheet: not so: %s\n", what);
    }
}

/* The i-th id of a part, put together from its bytes: a part may start at an odd offset. */
static uint32_t id_at(const uint8_t *part, size_t i) {
    const uint8_t *b = part + 4 * i;
    return b[0] | (uint32_t)b[1] << 8 | (uint32_t)b[2] << 16 | (uint32_t)b[3] << 24;
}

int main(void) {
    static const uint32_t references[] = {7, 4294967295u}, walls[] = {0x04030201}, none[] = {0}, many[65536];
    static const uint8_t file[] = {2, 0, 7, 0, 0, 0, 255, 255, 255, 255, 1, 0, 1, 2, 3, 4, 0, 0};
    static uint8_t large[300000];
    uint8_t buf[20];
    cqdb_sheet_length_answer w;
    cqdb_sheet_answer r;

    memset(buf, 9, sizeof buf);
    w = cqdb_sheet_write(buf, 17, references, 2, walls, 1, none, 0);
    expect(w.refusal == 21 && w.length == 0 && buf[0] == 9, "a buffer that is a byte too short stays as it is");
    w = cqdb_sheet_write(large, sizeof large, references, 2, many, 65536, none, 0);
    expect(w.refusal == 21 && w.length == 0 && large[0] == 0, "a list of 65,536 ids is refused");
    w = cqdb_sheet_write(buf, sizeof buf, references, 2, walls, 1, none, 0);
    expect(w.refusal == 0 && w.length == 18, "the sheet has 6 bytes and 4 for each id");
    expect(memcmp(buf, file, 18) == 0, "counts and ids are little-endian");
    expect(buf[18] == 9 && buf[19] == 9, "no byte past the file is changed");

    r = cqdb_sheet_read(buf, 18);
    expect(r.refusal == 0, "what was written reads back");
    expect(r.counts[0] == 2 && r.counts[1] == 1 && r.counts[2] == 0, "two references, a wall prism, none retired");
    expect(r.starts[0] == 2 && r.starts[1] == 12 && r.starts[2] == 18, "each part begins right behind its count");
    expect(id_at(buf + r.starts[0], 1) == 4294967295u, "the second reference");
    expect(id_at(buf + r.starts[1], 0) == 0x04030201, "the wall prism");
    r = cqdb_sheet_read(buf, 17);
    expect(r.refusal == 19 && r.counts[0] == 0 && r.starts[0] == 0, "a byte fewer gives 19, and zeros");
    r = cqdb_sheet_read(buf, 19);
    expect(r.refusal == 20 && r.counts[0] == 0 && r.starts[0] == 0, "a byte more gives 20, and zeros");
    r = cqdb_sheet_read(buf, 0);
    expect(r.refusal == 19, "no byte at all gives 19");

    printf("sheet: %u checked, %u different\n", checked, different);
    return different > 0;
}
