/* NULL with length 0 is no bytes: each call is lent NULL wherever it takes bytes or a list, and answers as it does for an empty
   array. Ends with status 1 where something differs.

       cc -I include tests/c/none.c target/staticlib/libcqdb_c.a -o none && ./none */
#include <stdio.h>
#include <string.h>

#include "cqdb.h"

static unsigned checked, different;

static void expect(int holds, const char *what) {
    checked++;
    if (!holds) {
        different++;
        fprintf(stderr, "none: wrong: %s\n", what);
    }
}

/* An empty name in an image, put and asked by NULL. */
static void check_names(void) {
    static uint8_t buf[4096];
    uint8_t empty[1] = {7};
    cqdb_writer w;
    cqdb_hash_answer h = cqdb_hash(NULL, 0, 5), same = cqdb_hash(empty, 0, 5);
    expect(h.refusal == 0 && h.hash == same.hash, "hash");
    expect(cqdb_begin(&w, CQDB_TWOWAY, buf, sizeof buf) == 0, "begin");
    expect(cqdb_put(&w, buf, sizeof buf, NULL, 0, 3) == 0, "put");
    cqdb_close_answer closed = cqdb_close(&w, buf, sizeof buf);
    cqdb_id_answer a = cqdb_to_id(buf, closed.size, NULL, 0);
    expect(closed.refusal == 0 && a.found == 1 && a.id == 3, "to_id of the empty name");
    expect(cqdb_page(NULL, 0, NULL, 0).refusal == 0, "a page of no bytes in no bytes");
    expect(cqdb_page(buf, closed.size, NULL, 0).refusal == CQDB_PAGE_TOO_LONG, "a page in no bytes");
    expect(cqdb_page_part(NULL, 0, 0, 7, NULL, 0).refusal == 0, "a part of a page of no bytes in no bytes");
}

/* No bytes as an image and as a buffer. */
static void check_images(void) {
    cqdb_writer w;
    memset(&w, 0, sizeof w);
    expect(cqdb_open(NULL, 0).refusal == CQDB_TOO_SHORT, "open");
    expect(cqdb_to_id(NULL, 0, NULL, 0).found == 0, "to_id");
    expect(cqdb_to_str(NULL, 0, 0).found == 0 && cqdb_panel(NULL, 0, 0).found == 0, "to_str and panel");
    expect(cqdb_readings_agree(NULL, 0) == 1, "readings_agree");
    expect(cqdb_size_hint(NULL, 0, 0) == 0 && cqdb_home(NULL, 0, 0) == 0 && cqdb_page_length(NULL, 0) == 0, "hint, home, page");
    expect(cqdb_entry(NULL, 0, 0).found == 0 && cqdb_entry(NULL, 0, 2072).found == 0 && cqdb_table(NULL, 0, 7).buckets == 0, "entry and table");
    expect(cqdb_begin(&w, CQDB_ONEWAY, NULL, 0) == CQDB_TOO_SHORT, "begin");
    expect(cqdb_put(&w, NULL, 0, NULL, 0, 0) == CQDB_UNFIT, "put");
    expect(cqdb_close(&w, NULL, 0).refusal == CQDB_UNFIT, "close");
    uint32_t counts[16] = {7};
    expect(cqdb_canonical(NULL, 0) == 0, "canonical");
    expect(cqdb_one_to_one(NULL, 0).refusal == CQDB_NOT_CANONICAL, "one_to_one");
    expect(cqdb_average(NULL, 0).refusal == CQDB_NOT_CANONICAL, "average");
    expect(cqdb_lengths(NULL, 0, counts) == CQDB_NOT_CANONICAL && counts[0] == 7, "lengths");
    expect(cqdb_round(NULL, 0, NULL, 0, NULL, 0, NULL, 0).refusal == 0, "a round of no names");
    expect(cqdb_name_round(NULL, 0, NULL, 0, NULL, 0) == 0, "a round of no ids");
    cqdb_date date = {2024, 2, 29};
    expect(cqdb_name_on(NULL, 0, 7, date, NULL, 0).refusal == 0 && cqdb_name_on(NULL, 0, 7, date, NULL, 0).found == 0, "name_on");
    expect(cqdb_load(7, NULL, 0).refusal == CQDB_TOO_SHORT, "load");
}

/* A list of no names, and one whose two names are empty, without lent memory. */
static void check_lists(void) {
    static uint8_t buf[4096];
    uint64_t ends[2] = {0, 0};
    uint32_t ids[2] = {3, 4}, refusals[2] = {9, 9};
    cqdb_build_answer none = cqdb_build(CQDB_TWOWAY, CQDB_REPEATS_OFF, buf, sizeof buf, NULL, 0, NULL, NULL, 0, NULL, 0, NULL, 0);
    expect(none.refusal == 0 && none.size == 2072 && none.accepted == 0, "a list of no names");
    expect(cqdb_build_needs(CQDB_TWOWAY, 0, NULL, 0).bytes == 2072, "what a list of no names needs");
    cqdb_build_answer two = cqdb_build(CQDB_TWOWAY, CQDB_REPEATS_OFF, buf, sizeof buf, NULL, 0, ends, ids, 2, refusals, 2, NULL, 0);
    expect(two.refusal == 0 && two.accepted == 1 && refusals[0] == 0 && refusals[1] == CQDB_REPEATED, "a list of empty names");
    expect(cqdb_to_id(buf, two.size, NULL, 0).id == 3, "the empty name of a list");
    expect(cqdb_build(CQDB_TWOWAY, CQDB_REPEATS_OFF, NULL, 0, NULL, 0, ends, ids, 2, refusals, 2, NULL, 0).refusal == CQDB_TOO_SHORT,
           "a list in no bytes");
}

/* An index of no words, one of an odd number of them, and one in use for the empty name. */
static void check_indexes(void) {
    static uint8_t buf[4096];
    uint32_t slots[3] = {7, 7, 7};
    cqdb_writer w;
    memset(&w, 0, sizeof w);
    expect(cqdb_index_words(0) == 0 && cqdb_index_words(SIZE_MAX) == SIZE_MAX, "index_words");
    expect(cqdb_index(&w, NULL, 0, NULL, 0) == CQDB_UNFIT, "an index of no bytes");
    expect(cqdb_put_indexed(&w, NULL, 0, NULL, 0, NULL, 0, 0) == CQDB_UNFIT, "put_indexed in no bytes");
    expect(cqdb_begin(&w, CQDB_TWOWAY, buf, sizeof buf) == 0, "begin");
    expect(cqdb_index(&w, buf, sizeof buf, NULL, 0) == 0, "an index of no words for no entries");
    expect(cqdb_put_indexed(&w, buf, sizeof buf, NULL, 0, NULL, 0, 3) == CQDB_INDEX_FULL && w.entries == 0, "put_indexed by no words");
    expect(cqdb_put_indexed(&w, buf, sizeof buf, slots, 1, NULL, 0, 3) == CQDB_INDEX_FULL && slots[0] == 7, "put_indexed by one word");
    expect(cqdb_index(&w, buf, sizeof buf, slots, 3) == 0 && slots[0] == 0 && slots[1] == 0 && slots[2] == 7, "an index of three words");
    expect(cqdb_put_indexed(&w, buf, sizeof buf, slots, 3, NULL, 0, 3) == 0 && slots[1] == 2072 && slots[2] == 7, "put_indexed");
    expect(cqdb_put_indexed(&w, buf, sizeof buf, slots, 3, NULL, 0, 4) == CQDB_REPEATED, "put_indexed again");
    expect(cqdb_put_indexed_text(&w, buf, sizeof buf, slots, 3, "A", 4) == CQDB_INDEX_FULL, "put_indexed by a full index");
    expect(cqdb_index(&w, buf, sizeof buf, NULL, 0) == CQDB_INDEX_FULL, "an index of no words for an entry");
    expect(cqdb_to_id(buf, cqdb_close(&w, buf, sizeof buf).size, NULL, 0).id == 3, "the empty name, put by an index");
}

static void check_rounds(void) {
    uint8_t file[6] = {9, 9, 9, 9, 9, 9};
    uint32_t round[1] = {7};
    cqdb_pair pairs[1] = {{1, 7}};
    expect(cqdb_references_first(NULL, 0, NULL, 0).ok == 1, "no pairs and no round");
    expect(cqdb_references_first(NULL, 0, round, 1).ok == 1 && cqdb_references_first(pairs, 1, NULL, 0).ok == 1, "one of the two");
    expect(cqdb_sheet_write(NULL, 0, NULL, 0, NULL, 0, NULL, 0).refusal == CQDB_SHEET_TOO_LARGE, "a sheet in no bytes");
    expect(cqdb_sheet_write(file, 6, NULL, 0, NULL, 0, NULL, 0).length == 6, "a sheet of empty lists");
    expect(cqdb_sheet_read(file, 6).refusal == 0 && cqdb_sheet_read(NULL, 0).refusal == CQDB_TOO_FEW_BYTES, "sheet_read");
}

/* A report without bytes and ids; and one with an image and a sheet, in whose round no id is sighted. */
static void check_reports(void) {
    static uint8_t buf[4096];
    static const uint32_t ids[1] = {3};
    uint8_t sheet[6] = {0};
    cqdb_date date = {2024, 2, 29}, no_date = {2023, 2, 29};
    cqdb_report report;
    cqdb_writer w;
    memset(&report, 0, sizeof report);
    expect(cqdb_preflight(&report).question == 1 && cqdb_preflight_first(&report).question == 1, "a report of no bytes");
    expect(cqdb_begin(&w, CQDB_TWOWAY, buf, sizeof buf) == 0, "begin");
    report.new_image = buf;
    report.new_len = cqdb_close(&w, buf, sizeof buf).size;
    cqdb_preflight_answer a = cqdb_preflight(&report);
    expect(a.question == 2 && a.refusal == CQDB_TOO_FEW_BYTES, "a sheet of no bytes");
    report.sheet = sheet;
    report.sheet_len = 6;
    expect(cqdb_preflight(&report).question == 4 && cqdb_preflight_first(&report).question == 4, "a round of no ids");
    report.round = ids;
    report.round_len = 1;
    expect(cqdb_preflight(&report).question == 3, "an id that an empty sheet does not list");
    cqdb_preflight_dates_answer d = cqdb_preflight_dates(NULL, 0, NULL, 0, date, date);
    expect(d.question == 0 && d.refusal == 0 && d.place == 0, "dates of no windows and no ids");
    expect(cqdb_preflight_dates(NULL, 0, ids, 1, date, date).question == 11, "dates of no windows");
    expect(cqdb_preflight_dates(NULL, 0, NULL, 0, no_date, date).refusal == CQDB_NO_SUCH_DATE, "a date that does not exist");
}

static void check_bundles(void) {
    uint8_t buf[8] = {0};
    expect(cqdb_bundle_count(NULL, 0).refusal == 0 && cqdb_bundle_count(NULL, 0).images == 0, "an empty bundle");
    expect(cqdb_bundle_open(NULL, 0, 0).refusal == CQDB_NO_SUCH_IMAGE, "no image in it");
    expect(cqdb_bundle_append(buf, 8, 0, NULL, 0).refusal == CQDB_BROKEN_BUNDLE, "no bytes appended");
    expect(cqdb_bundle_append(NULL, 0, 0, NULL, 0).refusal == CQDB_BROKEN_BUNDLE, "no bytes in no bytes");
}

int main(void) {
    check_names();
    check_images();
    check_lists();
    check_indexes();
    check_rounds();
    check_bundles();
    check_reports();
    printf("none: checked %u, %u wrong\n", checked, different);
    return different != 0;
}
