/* Which name has an id on a date? Ends with status 1 where an answer is another than expected.

       ./make-archive
       cc -I include tests/c/season.c target/staticlib/libcqdb_c.a -o season && ./season */
#include <stdio.h>
#include <string.h>

#include "cqdb.h"

static unsigned checked, different;
static uint8_t image[4096];
static size_t size;

static void expect(cqdb_on_answer a, uint32_t refusal, const char *name, const char *what) {
    size_t n = name == NULL ? 0 : strlen(name);
    int so = a.refusal == refusal && a.found == (name != NULL) && a.len == n;
    checked++;
    if (!so || (n > 0 && memcmp(image + a.start, name, n) != 0)) {
        different++;
        fprintf(stderr, "season: not so: %s\n", what);
    }
}

static void make_image(void) {
    cqdb_writer w;
    cqdb_begin(&w, CQDB_TWOWAY, image, sizeof image);
    cqdb_put(&w, image, sizeof image, (const uint8_t *)"crane", 5, 1);
    size = cqdb_close(&w, image, sizeof image).size;
}

int main(void) {
    static const cqdb_window spring[] = {{2, {2024, 1, 1}, {2025, 1, 1}}, {1, {2024, 3, 1}, {2024, 6, 1}}};
    static const cqdb_window ever[] = {{1, {1900, 1, 1}, {2200, 1, 1}}};
    static const cqdb_window wrong[] = {{2, {2024, 6, 1}, {2024, 3, 1}}, {2, {2023, 2, 29}, {2024, 3, 1}}};
    static const cqdb_date before = {2024, 2, 29}, on = {2024, 3, 1}, end = {2024, 6, 1}, none = {2100, 2, 29};
    static const cqdb_date last = {2199, 12, 31}, after = {2200, 1, 1};
    make_image();
    expect(cqdb_name_on(image, size, 1, before, spring, 2), 0, NULL, "before the first date there is no name");
    expect(cqdb_name_on(image, size, 1, on, spring, 2), 0, "crane", "the first date is included");
    expect(cqdb_name_on(image, size, 1, end, spring, 2), 0, NULL, "the end date is not");
    expect(cqdb_name_on(image, size, 2, on, spring, 2), 0, NULL, "2 has a window and no name");
    expect(cqdb_name_on(image, size, 1, on, spring, 0), 0, NULL, "no windows, no name");
    expect(cqdb_name_on(image, size, 1, last, ever, 1), 0, "crane", "31 December 2199 is the last day");
    expect(cqdb_name_on(image, size, 1, after, ever, 1), CQDB_NO_SUCH_DATE, NULL, "1 January 2200 is an end date only");
    expect(cqdb_name_on(image, size, 1, none, ever, 1), CQDB_NO_SUCH_DATE, NULL, "2100 is no leap year");
    expect(cqdb_name_on(image, size, 1, on, wrong, 1), CQDB_NOT_BEFORE_END, NULL, "a window that ends before it starts");
    expect(cqdb_name_on(image, size, 1, on, wrong, 2), CQDB_NO_SUCH_DATE, NULL, "22 comes before 23");
    printf("season: %u checked, %u different\n", checked, different);
    return different > 0;
}
