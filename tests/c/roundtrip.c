/* Builds images in one buffer, reads them back, and checks what it gets. Ends with status 1 where something differs.

       ./make-archive
       cc -I include tests/c/roundtrip.c target/staticlib/libcqdb_c.a -o roundtrip && ./roundtrip */
#include <stdio.h>
#include <string.h>

#include "cqdb.h"

static unsigned checked, different;

static void expect(int holds, const char *what) {
    checked++;
    if (!holds) {
        different++;
        fprintf(stderr, "roundtrip: wrong: %s\n", what);
    }
}

static const uint8_t *bytes(const char *name) {
    return (const uint8_t *)name;
}

typedef struct {
    const char *name;
    uint32_t id;
} pair;

static const pair puts_in_order[] = {{"A", 0}, {"B", 3}, {"C", 0}, {"", 1}, {"prism 7", 2}};
#define PUTS (sizeof puts_in_order / sizeof puts_in_order[0])

/* Each put adds 25 bytes and its name; the back array of a two-way image has a word for each id up to the largest. */
#define SIZE_ONEWAY (2072 + PUTS * 25 + 10)
#define SIZE_TWOWAY (SIZE_ONEWAY + 4 * 4)

/* Begins, puts, closes: gives the image's size, 0 where a call was refused. */
static uint32_t build(cqdb_writer *w, uint32_t mode, uint8_t *buf, size_t len) {
    if (cqdb_begin(w, mode, buf, len) != 0) {
        return 0;
    }
    for (size_t i = 0; i < PUTS; i++) {
        const pair *p = &puts_in_order[i];
        if (cqdb_put(w, buf, len, bytes(p->name), strlen(p->name), p->id) != 0) {
            return 0;
        }
    }
    cqdb_close_answer closed = cqdb_close(w, buf, len);
    return closed.refusal == 0 ? closed.size : 0;
}

static int finds(const uint8_t *image, size_t len, const char *name, uint32_t id) {
    cqdb_id_answer a = cqdb_to_id(image, len, bytes(name), strlen(name));
    const uint8_t *entry = image + a.offset;
    return a.found == 1 && a.id == id && a.buckets >= 1 && entry[0] == id && memcmp(entry + 8, name, strlen(name)) == 0;
}

static int gives(const uint8_t *image, size_t len, uint32_t id, const char *name) {
    cqdb_str_answer a = cqdb_to_str(image, len, id);
    return a.found == 1 && a.len == strlen(name) && memcmp(image + a.start, name, a.len) == 0;
}

static void check_names(const uint8_t *image, size_t len) {
    cqdb_open_answer opened = cqdb_open(image, len);
    expect(opened.refusal == 0 && opened.num == PUTS, "the image opens and has five associations");
    for (size_t i = 0; i < PUTS; i++) {
        expect(finds(image, len, puts_in_order[i].name, puts_in_order[i].id), "a name finds its id");
    }
    cqdb_id_answer none = cqdb_to_id(image, len, bytes("D"), 1);
    expect(none.found == 0 && none.id == 0 && none.offset == 0, "a name that was never put finds nothing");
}

/* The entries stand one behind the other, and the tables lead to each of them. */
static void check_places(const uint8_t *buf, uint32_t size) {
    uint32_t offset = 2072, walked = 0, led = 0;
    for (cqdb_entry_answer e; walked < PUTS && (e = cqdb_entry(buf, size, offset)).found; walked++) {
        expect(e.start == offset + 8u && e.start + e.len < size && buf[e.start + e.len] == 0, "an entry's name, and a zero byte");
        offset = (uint32_t)(e.start + e.len + 1);
    }
    expect(walked == PUTS && cqdb_entry(buf, size, 0).found == 0 && cqdb_entry(buf, size, size).found == 0, "all entries, and none elsewhere");
    for (uint32_t hash = 0; hash < 256; hash++) {
        cqdb_table_answer t = cqdb_table(buf, size, hash);
        expect(cqdb_table(buf, size, hash + 256).start == t.start && t.start + 8u * t.buckets <= size, "a table of the image");
        for (uint32_t i = 0; i < t.buckets; i++) {
            const uint8_t *o = buf + t.start + 8 * i + 4;
            offset = o[0] | (uint32_t)o[1] << 8 | (uint32_t)o[2] << 16 | (uint32_t)o[3] << 24;
            led += offset > 0 && cqdb_entry(buf, size, offset).found;
        }
    }
    expect(led == PUTS, "a bucket for each entry");
}

static void check_two_way(cqdb_writer *w, uint8_t *buf, size_t len) {
    uint32_t size = build(w, CQDB_TWOWAY, buf, len);
    expect(size == SIZE_TWOWAY, "the two-way image's size");
    check_names(buf, size);
    check_places(buf, size);
    expect(gives(buf, size, 0, "C"), "id 0 gives the name of its last put");
    expect(gives(buf, size, 1, ""), "id 1 gives the empty name");
    expect(gives(buf, size, 2, "prism 7") && gives(buf, size, 3, "B"), "ids 2 and 3 give their names");
    cqdb_str_answer none = cqdb_to_str(buf, size, 4);
    expect(none.found == 0 && none.start == 0 && none.len == 0, "id 4 gives nothing");
    uint32_t steps = 0;
    while (cqdb_to_str(buf, size, steps).found) {
        expect(cqdb_size_hint(buf, size, steps) == 4 - steps, "the hint counts down");
        steps++;
    }
    expect(steps == 4 && cqdb_size_hint(buf, size, steps) == 0, "a walk has four steps");
    expect(cqdb_home(buf, size, 0) == 1 && cqdb_home(buf, size, 4) == 0, "0 is home, 4 is not");
    cqdb_str_answer whole = cqdb_to_str(buf, size, 2), shown = cqdb_panel(buf, size, 2);
    expect(shown.found == 1 && shown.start == whole.start && shown.len == whole.len, "a C string shows the whole name");
    expect(cqdb_readings_agree(buf, size) == 1, "and so it is for every id");
    buf[whole.start + 5] = 0;
    shown = cqdb_panel(buf, size, 2);
    expect(shown.found == 1 && shown.start == whole.start && shown.len == 5, "it ends before a zero byte");
    expect(cqdb_panel(buf, size, 4).found == 0, "id 4 has none");
    expect(cqdb_readings_agree(buf, size) == 0, "the check sees that the readings differ");
}

static void check_one_way(cqdb_writer *w, uint8_t *buf, size_t len) {
    uint32_t size = build(w, CQDB_ONEWAY, buf, len);
    expect(size == SIZE_ONEWAY, "the one-way image's size");
    check_names(buf, size);
    expect(cqdb_to_str(buf, size, 0).found == 0, "a one-way image names no id");
    expect(cqdb_size_hint(buf, size, 0) == 0, "and has nothing to walk");
    expect(w->mode == CQDB_ONEWAY && w->entries == PUTS && w->back == 0, "the writer's numbers");
    expect(w->length == len && w->end == 2072 + PUTS * 9 + 10, "and its length and end");
}

/* Refused calls give their number and change neither the buffer nor the writer. */
static void check_refused(cqdb_writer *w, uint8_t *buf, size_t len) {
    static uint8_t buf_before[4096];
    expect(build(w, CQDB_TWOWAY, buf, len) == SIZE_TWOWAY, "the image is built again");
    cqdb_writer w_before = *w;
    memcpy(buf_before, buf, len);
    expect(cqdb_begin(w, CQDB_TWOWAY, buf, 2071) == CQDB_TOO_SHORT, "begin: a buffer of 2,071 bytes");
    expect(cqdb_begin(w, 2, buf, len) == CQDB_UNFIT, "begin: a mode that is neither 0 nor 1");
    expect(cqdb_begin_repeats(w, 2, buf, len) == CQDB_UNFIT, "begin with repeats: the same");
    expect(cqdb_begin_with(w, CQDB_TWOWAY, 2, buf, len) == CQDB_UNFIT, "begin: repeats neither off nor on");
    expect(cqdb_put(w, buf, len - 1, bytes("E"), 1, 5) == CQDB_UNFIT, "put: another buffer's writer");
    expect(cqdb_put(w, buf, len, bytes("E"), 1, UINT32_MAX) == CQDB_NO_ROOM, "put: no room for 2^32 ids");
    expect(cqdb_put(w, buf, len, bytes("E\0F"), 3, 5) == CQDB_ZERO_BYTE, "put: a zero byte in the name");
    expect(cqdb_put(w, buf, len, bytes("E\0F"), 3, UINT32_MAX) == CQDB_ZERO_BYTE, "put: 13 before 3");
    expect(cqdb_put(w, buf, len - 1, bytes("E\0F"), 3, 5) == CQDB_UNFIT, "put: 2 before 13");
    expect(cqdb_put(w, buf, len, bytes("A"), 1, 5) == CQDB_REPEATED, "put: a name that is there");
    expect(cqdb_put(w, buf, len, bytes("A"), 1, UINT32_MAX) == CQDB_REPEATED, "put: 16 before 3");
    expect(cqdb_close(w, buf, len - 1).refusal == CQDB_UNFIT, "close: another buffer's writer");
    expect(memcmp(w, &w_before, sizeof *w) == 0, "the writer is as it was");
    w->back = 5;
    expect(cqdb_close(w, buf, len).refusal == CQDB_INCONSISTENT, "close: a back size that the entries do not have");
    expect(cqdb_put(w, buf, len, bytes("A"), 1, 5) == CQDB_INCONSISTENT, "put: 4 before 16");
    w->back = 4;
    w->repeats = 2;
    expect(cqdb_put(w, buf, len, bytes("E\0F"), 3, 5) == CQDB_UNFIT, "put: repeats neither off nor on, before 13");
    expect(cqdb_close(w, buf, len).refusal == CQDB_UNFIT, "close: the same");
    w->repeats = CQDB_REPEATS_OFF;
    expect(memcmp(w, &w_before, sizeof *w) == 0, "the writer is as it was again");
    expect(memcmp(buf, buf_before, len) == 0, "the buffer is as it was");
    buf[0] = 'c';
    expect(cqdb_open(buf, len).refusal == CQDB_WRONG_LETTERS, "open: wrong letters");
    expect(cqdb_open(buf, 2071).refusal == CQDB_TOO_SHORT, "open: 2,071 bytes");
}

/* A prism that was replaced keeps its name and gets a new id: the writer must be begun with repeats. */
static void check_repeats(cqdb_writer *w, uint8_t *buf, size_t len) {
    expect(cqdb_begin(w, CQDB_TWOWAY, buf, len) == 0 && w->repeats == CQDB_REPEATS_OFF, "repeats are off");
    expect(cqdb_put(w, buf, len, bytes("crane"), 5, 5) == 0, "a first put");
    expect(cqdb_close(w, buf, len).refusal == 0, "a close");
    expect(cqdb_put(w, buf, len, bytes("crane"), 5, 9) == CQDB_REPEATED, "its name again, after the close");
    expect(cqdb_put(w, buf, len, bytes("crane 2"), 7, 9) == 0, "a longer name");
    expect(cqdb_begin_repeats(w, CQDB_TWOWAY, buf, len) == 0 && w->repeats == CQDB_REPEATS_ON, "repeats are on");
    expect(cqdb_put(w, buf, len, bytes("crane"), 5, 5) == 0, "a first put again");
    expect(cqdb_put(w, buf, len, bytes("crane"), 5, 9) == 0 && w->repeats == CQDB_REPEATS_ON, "the same name under another id");
    cqdb_close_answer closed = cqdb_close(w, buf, len);
    expect(closed.refusal == 0 && closed.size == 2072 + 2 * 30 + 4 * 10, "the image's size");
    expect(finds(buf, closed.size, "crane", 5), "the name finds its first id");
    expect(gives(buf, closed.size, 5, "crane") && gives(buf, closed.size, 9, "crane"), "both ids give the name");
    expect(cqdb_home(buf, closed.size, 5) == 1 && cqdb_home(buf, closed.size, 9) == 1, "both are home");
}

int main(void) {
    static uint8_t buf[4096];
    static cqdb_writer w;
    cqdb_hash_answer hashed = cqdb_hash(bytes("A"), 1, 0);
    expect(hashed.refusal == 0 && hashed.hash == 0x89284101, "the hash of A");
    check_two_way(&w, buf, sizeof buf);
    check_one_way(&w, buf, sizeof buf);
    check_refused(&w, buf, sizeof buf);
    check_repeats(&w, buf, sizeof buf);
    printf("roundtrip: %u checked, %u different\n", checked, different);
    return different > 0;
}
