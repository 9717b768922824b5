/* A whole list in one call. Ends with status 1 where an answer is another than expected.

       ./make-archive
       cc -I include tests/c/build.c target/staticlib/libcqdb_c.a -o build && ./build */
#include <stdio.h>
#include <string.h>

#include "cqdb.h"

static unsigned checked, different;

static void expect(int so, const char *what) {
    checked++;
    if (!so) {
        different++;
        fprintf(stderr, "build: not so: %s\n", what);
    }
}

/* A, BB, CCC, no bytes and D: five different names. */
#define NAMES 5
static const uint8_t five[] = {'A', 'B', 'B', 'C', 'C', 'C', 'D'};
static const uint64_t five_ends[NAMES] = {1, 3, 6, 6, 7};

/* The refusals of the five names with these ids in a buffer of `bytes`: how many are 0, and how many are 3. */
typedef struct {
    unsigned none, no_room;
    uint32_t size;
} counted;

static counted build_five(uint32_t mode, uint32_t repeats, uint64_t bytes, const uint32_t *ids, uint64_t words) {
    static uint8_t buf[4096];
    static uint32_t scratch[64];
    uint32_t refusals[NAMES];
    counted c = {0, 0, 0};
    cqdb_build_answer a = cqdb_build(mode, repeats, buf, bytes, five, sizeof five, five_ends, ids, NAMES, refusals, NAMES, scratch, words);
    expect(a.refusal == 0, "the list is accepted");
    for (int i = 0; i < NAMES; i++) {
        c.none += refusals[i] == 0;
        c.no_room += refusals[i] == CQDB_NO_ROOM;
    }
    c.size = a.size;
    return c;
}

/* In a buffer of exactly the bytes that the list needs all names are accepted; one byte less refuses one with 3. */
static void check_needs(uint32_t mode, const uint32_t *ids, uint64_t back) {
    cqdb_build_needs_answer needs = cqdb_build_needs(mode, sizeof five, ids, NAMES);
    expect(needs.bytes == 2072 + sizeof five + 25 * NAMES + 4 * back, "the bytes of head, names, tables and back array");
    for (uint32_t repeats = 0; repeats < 2; repeats++) {
        for (uint64_t words = 0; words <= needs.words; words += needs.words) {
            counted all = build_five(mode, repeats, needs.bytes, ids, words);
            expect(all.none == NAMES && all.size == needs.bytes, "a buffer of exactly these bytes takes all names and is full");
            counted less = build_five(mode, repeats, needs.bytes - 1, ids, words);
            expect(less.no_room > 0 && less.none + less.no_room == NAMES, "one byte less refuses a name with 3");
        }
    }
}

static void check_all_needs(void) {
    static const uint32_t rising[NAMES] = {0, 1, 2, 3, 4}, falling[NAMES] = {90, 70, 50, 30, 10}, equal[NAMES] = {6, 6, 6, 6, 6};
    static const uint32_t zeros[NAMES] = {0, 0, 0, 0, 0}, middle[NAMES] = {3, 200, 7, 200, 1}, most[NAMES] = {4294967295u, 5, 5, 0, 9};
    check_needs(CQDB_TWOWAY, rising, 5);
    check_needs(CQDB_TWOWAY, falling, 91);
    check_needs(CQDB_TWOWAY, equal, 7);
    check_needs(CQDB_TWOWAY, zeros, 1);
    check_needs(CQDB_TWOWAY, middle, 201);
    check_needs(CQDB_ONEWAY, falling, 0);
    check_needs(CQDB_ONEWAY, equal, 0);
    check_needs(CQDB_ONEWAY, most, 0);
    expect(cqdb_build_needs(CQDB_TWOWAY, 7, most, NAMES).bytes == 2072 + 7 + 25 * NAMES + 17179869184u, "the largest id needs more than any image has");
    expect(cqdb_build_needs(CQDB_ONEWAY, SIZE_MAX, most, NAMES).bytes == UINT64_MAX, "a sum that 64 bits do not hold");
    expect(cqdb_build_needs(CQDB_TWOWAY, 0, NULL, 0).bytes == 2072 && cqdb_build_needs(CQDB_TWOWAY, 0, NULL, 0).words == 0, "no names");
}

int main(void) {
    check_all_needs();
    /* A, B, A again, and a name with a zero byte */
    static const uint8_t names[] = {'A', 'B', 'A', 'C', 0};
    static const uint64_t ends[] = {1, 2, 3, 5}, fall[] = {1, 2, 1, 5}, past[] = {1, 2, 3, 6};
    static const uint32_t ids[] = {0, 1, 2, 3};
    static uint8_t buf[4096], single[4096];
    uint32_t refusals[5] = {9, 9, 9, 9, 9}, scratch[20];
    cqdb_build_needs_answer needs = cqdb_build_needs(CQDB_TWOWAY, sizeof(names), ids, 4);
    expect(needs.bytes == 2072 + 5 + 4 * 25 + 4 * 4 && needs.words == 20, "the list needs these bytes and words");

    memset(scratch, 0xff, sizeof(scratch));
    cqdb_build_answer a = cqdb_build(CQDB_TWOWAY, CQDB_REPEATS_OFF, buf, needs.bytes, names, sizeof(names), ends, ids, 4, refusals, 5, scratch, 20);
    expect(a.refusal == 0 && a.accepted == 2 && a.size == 2072 + 2 * 26 + 4 * 2, "A and B are accepted");
    expect(refusals[0] == 0 && refusals[1] == 0 && refusals[2] == CQDB_REPEATED && refusals[3] == CQDB_ZERO_BYTE, "A again, and the zero byte, are refused");
    expect(refusals[4] == 9, "the place behind the last name keeps its content");

    cqdb_writer w;
    expect(cqdb_begin(&w, CQDB_TWOWAY, single, needs.bytes) == 0, "begin");
    for (int i = 0; i < 4; i++) {
        size_t from = i == 0 ? 0 : ends[i - 1];
        expect(cqdb_put(&w, single, needs.bytes, names + from, ends[i] - from, ids[i]) == refusals[i], "a single put answers the same");
    }
    expect(cqdb_close(&w, single, needs.bytes).size == a.size && memcmp(buf, single, a.size) == 0, "the single calls make the same image");
    expect(cqdb_to_id(buf, a.size, names + 1, 1).id == 1, "B is 1");

    a = cqdb_build(CQDB_TWOWAY, CQDB_REPEATS_ON, buf, needs.bytes, names, sizeof(names), ends, ids, 4, refusals, 4, scratch, 0);
    expect(a.refusal == 0 && a.accepted == 3 && refusals[2] == 0, "with repeats on A is accepted again");
    expect(cqdb_build(2, 0, buf, 4096, names, 5, fall, ids, 4, refusals, 3, scratch, 12).refusal == CQDB_UNFIT, "mode 2");
    expect(cqdb_build(0, 0, buf, 4096, names, 5, fall, ids, 4, refusals, 3, scratch, 12).refusal == CQDB_ROUND_UNFIT, "ends that fall");
    expect(cqdb_build(0, 0, buf, 4096, names, 5, past, ids, 4, refusals, 4, scratch, 12).refusal == CQDB_ROUND_UNFIT, "an end past the names");
    expect(cqdb_build(0, 0, buf, 2071, names, 5, ends, ids, 4, refusals, 3, scratch, 12).refusal == CQDB_ANSWERS_TOO_FEW, "a place too few");
    expect(cqdb_build(0, 0, buf, 2071, names, 5, ends, ids, 4, refusals, 4, scratch, 12).refusal == CQDB_TOO_SHORT, "a buffer too short");
    printf("build: %u checked, %u different\n", checked, different);
    return different > 0;
}
