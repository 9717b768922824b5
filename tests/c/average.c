/* The average search length of loads and of small images, and checks of what it gives. Ends with status 1 where something differs.

       ./make-archive
       cc -I include tests/c/average.c target/staticlib/libcqdb_c.a -o average && ./average */
#include <stdio.h>
#include <string.h>

#include "cqdb.h"

static unsigned checked, different;

static void expect(int holds, const char *what) {
    checked++;
    if (!holds) {
        different++;
        fprintf(stderr, "average: wrong: %s\n", what);
    }
}

/* The load of a seed has this total, and its counts give the same. */
static void totals(uint8_t *buf, uint32_t seed, uint64_t total) {
    uint32_t counts[16];
    uint64_t entries = 0, sum = 0;
    cqdb_load(seed, buf, 157720);
    cqdb_average_answer a = cqdb_average(buf, 157720);
    expect(a.refusal == 0 && a.entries == 4096, "the entries of a load");
    expect(a.quotient * a.entries + a.remainder == total && a.remainder < a.entries, "the total of a load");
    expect(cqdb_lengths(buf, 157720, counts) == 0, "the counts of a load");
    for (unsigned i = 0; i < 16; i++) {
        entries += counts[i];
        sum += (uint64_t)(i + 1) * counts[i];
    }
    expect(entries == 4096 && sum == total, "the sums of the counts");
}

int main(void) {
    static uint8_t buf[157720];
    uint32_t counts[16];
    cqdb_writer w;
    totals(buf, 0, 4096 + 1577);
    totals(buf, 1, 4096 + 1779);
    totals(buf, 4294967295u, 4096 + 1599);

    cqdb_begin(&w, CQDB_TWOWAY, buf, sizeof buf);
    size_t size = cqdb_close(&w, buf, sizeof buf).size;
    memset(counts, 7, sizeof counts);
    expect(cqdb_average(buf, size).refusal == CQDB_NO_ENTRIES, "an empty image");
    expect(cqdb_lengths(buf, size, counts) == CQDB_NO_ENTRIES && counts[0] == 0x07070707u, "the counts stay");
    cqdb_average_answer a = cqdb_average(buf, size + 1);
    expect(a.refusal == CQDB_NOT_CANONICAL && a.entries == 0 && a.quotient == 0 && a.remainder == 0, "a byte behind it");

    cqdb_begin_repeats(&w, CQDB_TWOWAY, buf, sizeof buf);
    for (uint32_t id = 0; id < 5; id++) {
        expect(cqdb_put(&w, buf, sizeof buf, (const uint8_t *)"crane", 5, id) == 0, "put");
    }
    size = cqdb_close(&w, buf, sizeof buf).size;
    a = cqdb_average(buf, size);
    expect(a.refusal == 0 && a.entries == 5 && a.quotient == 1 && a.remainder == 0, "a repeated name counts each time");
    expect(cqdb_lengths(buf, size, counts) == 0 && counts[0] == 5 && counts[15] == 0, "and in the counts");
    printf("average: %u checked, %u different\n", checked, different);
    return different > 0;
}
