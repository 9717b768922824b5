/* Prints the catalogue of an image, and checks what it gets. Ends with status 1 where something differs.

       ./make-archive
       cc -I include tests/c/page.c target/staticlib/libcqdb_c.a -o page && ./page */
#include <stdio.h>
#include <string.h>

#include "cqdb.h"

static unsigned checked, different;

static void expect(int holds, const char *what) {
    checked++;
    if (!holds) {
        different++;
        fprintf(stderr, "page: wrong: %s\n", what);
    }
}

static const char wanted[] =
    "         0 north wall                       \n"
    "         1 -------------------------------- \n"
    "         2 a name of more than thirty-two b+\n";

int main(void) {
    static uint8_t buf[4096], out[200];
    static const char *const names[] = {"north wall", "a name of more than thirty-two bytes"};
    cqdb_writer w;
    expect(cqdb_begin(&w, CQDB_TWOWAY, buf, sizeof buf) == 0, "begin");
    for (uint32_t i = 0; i < 2; i++) {
        expect(cqdb_put(&w, buf, sizeof buf, (const uint8_t *)names[i], strlen(names[i]), 2 * i) == 0, "put");
    }
    size_t size = cqdb_close(&w, buf, sizeof buf).size;
    size_t length = sizeof wanted - 1;
    expect(cqdb_page_length(buf, size) == length, "the length, 45 for each id up to the largest");
    memset(out, 7, sizeof out);
    cqdb_page_answer a = cqdb_page(buf, size, out, length - 1);
    expect(a.refusal == CQDB_PAGE_TOO_LONG && a.length == 0 && out[0] == 7, "an output that is too short");
    a = cqdb_page(buf, size, out, sizeof out);
    expect(a.refusal == 0 && a.length == length, "an output with room");
    expect(memcmp(out, wanted, length) == 0 && out[length] == 7, "the page, and the bytes behind it");
    memset(out, 7, sizeof out);
    a = cqdb_page_part(buf, size, 1, 9, out, 90);
    expect(a.refusal == 0 && a.length == 90 && memcmp(out, wanted + 45, 90) == 0 && out[90] == 7, "the part from id 1 on");
    a = cqdb_page_part(buf, size, 0, 1, out, 45);
    expect(a.refusal == 0 && a.length == 45 && memcmp(out, wanted, 45) == 0, "the line of id 0");
    a = cqdb_page_part(buf, size, 0, 2, out, 89);
    expect(a.refusal == CQDB_PAGE_TOO_LONG && a.length == 0 && memcmp(out, wanted, 45) == 0, "a part that is too long");
    a = cqdb_page_part(buf, size, 3, 9, NULL, 0);
    expect(a.refusal == 0 && a.length == 0, "no line behind the last id");
    cqdb_page(buf, size, out, sizeof out);
    fwrite(out, 1, length, stdout);
    printf("page: %u checked, %u different\n", checked, different);
    return different > 0;
}
