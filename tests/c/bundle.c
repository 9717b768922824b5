/* Two images in one file, each opened by its position, and checks what it gets. Ends with status 1 where something differs.

       ./make-archive
       cc -I include tests/c/bundle.c target/staticlib/libcqdb_c.a -o bundle && ./bundle */
#include <stdio.h>
#include <string.h>

#include "cqdb.h"

static unsigned checked, different;

static void expect(int holds, const char *what) {
    checked++;
    if (!holds) {
        different++;
        fprintf(stderr, "bundle: wrong: %s\n", what);
    }
}

/* An image with one name, under id 0: gives its size. */
static uint32_t build(const char *name, uint8_t *buf, size_t len) {
    cqdb_writer w;
    expect(cqdb_begin(&w, CQDB_TWOWAY, buf, len) == 0, "begin");
    expect(cqdb_put(&w, buf, len, (const uint8_t *)name, strlen(name), 0) == 0, "put");
    cqdb_close_answer closed = cqdb_close(&w, buf, len);
    expect(closed.refusal == 0, "close");
    return closed.size;
}

/* Does the image at a position of the file have this name under id 0? */
static int has(const uint8_t *file, size_t len, uint64_t position, const char *name) {
    cqdb_bundle_open_answer wall = cqdb_bundle_open(file, len, position);
    if (wall.refusal != 0 || wall.num != 1) {
        return 0;
    }
    cqdb_str_answer named = cqdb_to_str(file + wall.start, wall.size, 0);
    cqdb_id_answer found = cqdb_to_id(file + wall.start, wall.size, (const uint8_t *)name, strlen(name));
    return named.found == 1 && named.len == strlen(name) && memcmp(file + wall.start + named.start, name, named.len) == 0 &&
           found.found == 1 && found.id == 0;
}

int main(void) {
    static uint8_t buf[4096], file[5000], before[sizeof file];
    memset(file, 7, sizeof file);
    uint32_t north = build("north wall", buf, sizeof buf);
    cqdb_bundle_append_answer a = cqdb_bundle_append(file, sizeof file, 0, buf, north);
    expect(a.refusal == 0 && a.length == north, "the first image is appended to an empty file");
    uint32_t quay = build("quay", buf, sizeof buf);
    a = cqdb_bundle_append(file, sizeof file, a.length, buf, quay);
    expect(a.refusal == 0 && a.length == (uint64_t)north + quay, "and the second behind it");
    expect(file[a.length] == 7, "the bytes behind them");
    size_t len = a.length;
    expect(cqdb_bundle_count(file, len).refusal == 0 && cqdb_bundle_count(file, len).images == 2, "two images");
    expect(has(file, len, 0, "north wall") && has(file, len, 1, "quay"), "each by its position");
    cqdb_bundle_open_answer second = cqdb_bundle_open(file, len, 1);
    expect(second.start == north && second.size == quay, "where the second stands");
    cqdb_bundle_open_answer none = cqdb_bundle_open(file, len, 2);
    expect(none.refusal == CQDB_NO_SUCH_IMAGE && none.num == 0 && none.start == 0 && none.size == 0, "no third");
    expect(cqdb_bundle_open(file, len + 7, 2).refusal == CQDB_BROKEN_BUNDLE, "seven bytes behind the last");
    expect(cqdb_bundle_open(file, len + 7, 1).refusal == 0, "which an earlier position does not see");
    cqdb_bundle_count_answer n = cqdb_bundle_count(file, len - 1);
    expect(n.refusal == CQDB_BROKEN_BUNDLE && n.images == 0, "the count of a file that is a byte short");

    memcpy(before, file, sizeof file);
    a = cqdb_bundle_append(file, len + quay - 1, len, buf, quay);
    expect(a.refusal == CQDB_NO_ROOM && a.length == 0, "a buffer that is a byte short");
    a = cqdb_bundle_append(file, sizeof file, len, buf, quay - 1);
    expect(a.refusal == CQDB_BROKEN_BUNDLE && a.length == 0, "an image that is a byte short");
    a = cqdb_bundle_append(file, sizeof file, sizeof file + 1, buf, quay);
    expect(a.refusal == CQDB_BROKEN_BUNDLE && a.length == 0, "a file longer than its buffer");
    expect(memcmp(file, before, sizeof file) == 0, "refused appends change nothing");
    printf("bundle: %u checked, %u different\n", checked, different);
    return different > 0;
}
