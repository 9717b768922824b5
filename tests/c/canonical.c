/* Asks whether images are canonical, and checks what it gets. Ends with status 1 where something differs.

       ./make-archive
       cc -I include tests/c/canonical.c target/staticlib/libcqdb_c.a -o canonical && ./canonical */
#include <stdio.h>
#include <string.h>

#include "cqdb.h"

static unsigned checked, different;

static void expect(int holds, const char *what) {
    checked++;
    if (!holds) {
        different++;
        fprintf(stderr, "canonical: wrong: %s\n", what);
    }
}

/* The answer where the byte at `at` is another; the byte is put back. */
static uint32_t with_another(uint8_t *image, size_t size, size_t at) {
    image[at] ^= 1;
    uint32_t answer = cqdb_canonical(image, size);
    image[at] ^= 1;
    return answer;
}

int main(void) {
    static uint8_t buf[4096];
    static const char *const names[] = {"north wall", "crane", "quay"};
    for (uint32_t mode = CQDB_TWOWAY; mode <= CQDB_ONEWAY; mode++) {
        cqdb_writer w;
        memset(buf, 7, sizeof buf);
        expect(cqdb_begin(&w, mode, buf, sizeof buf) == 0, "begin");
        for (uint32_t i = 0; i < 3; i++) {
            expect(cqdb_put(&w, buf, sizeof buf, (const uint8_t *)names[i], strlen(names[i]), 2 * i) == 0, "put");
        }
        expect(cqdb_canonical(buf, sizeof buf) == 0, "no image before the close");
        size_t size = cqdb_close(&w, buf, sizeof buf).size;
        expect(cqdb_canonical(buf, size) == 1, "the image of a list");
        expect(cqdb_canonical(buf, size + 1) == 0 && cqdb_canonical(buf, size - 1) == 0, "one byte behind, one missing");
        expect(with_another(buf, size, 4) == 0, "a size word that is not the length");
        expect(with_another(buf, size, 8) == 0, "another flag word");
        expect(with_another(buf, size, 2080) == 0, "another name");
        expect(with_another(buf, size, size - 1) == 0, "another last byte");
        expect(cqdb_canonical(buf, size) == 1, "the image as it was");
    }
    expect(cqdb_canonical(buf, 0) == 0, "no bytes");
    printf("canonical: %u checked, %u different\n", checked, different);
    return different > 0;
}
