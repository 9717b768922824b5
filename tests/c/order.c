/* Is each reference of a round sighted before its wall prism? Ends with status 1 where an answer is another than expected.

       ./make-archive
       cc -I include tests/c/order.c target/staticlib/libcqdb_c.a -o order && ./order */
#include <stdio.h>

#include "cqdb.h"

#define COUNT(list) (sizeof(list) / sizeof((list)[0]))

static unsigned checked, different;

static void expect(cqdb_order_answer a, uint32_t ok, uint64_t pair, const char *what) {
    checked++;
    if (a.ok != ok || a.pair != pair) {
        different++;
        fprintf(stderr, "order: not so: %s\n", what);
    }
}

int main(void) {
    static const cqdb_pair pairs[] = {{1, 7}, {2, 8}, {3, 3}};
    static const uint32_t good[] = {1, 7, 2, 7, 8}, late[] = {1, 7, 8, 2}, itself[] = {3, 2, 8}, none[] = {7};
    expect(cqdb_references_first(pairs, 3, good, COUNT(good)), 1, 0, "each reference comes before its wall prism");
    expect(cqdb_references_first(pairs, 3, late, COUNT(late)), 0, 1, "2 comes after 8, so pair 1 fails");
    expect(cqdb_references_first(pairs, 3, itself, COUNT(itself)), 0, 2, "3 with itself fails where 3 occurs");
    expect(cqdb_references_first(pairs, 2, itself, COUNT(itself)), 1, 0, "the first two pairs are kept there");
    expect(cqdb_references_first(pairs, 3, none, COUNT(none)), 0, 0, "7 without 1: pair 0 fails");
    expect(cqdb_references_first(pairs, 3, none, 0), 1, 0, "an empty round keeps every pair");
    expect(cqdb_references_first(pairs, 0, none, COUNT(none)), 1, 0, "without pairs the answer is yes");
    printf("order: %u checked, %u different\n", checked, different);
    return different > 0;
}
