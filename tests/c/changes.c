/* Which ids do two images name differently, and where did an old name go? And has each image one name for one id? Ends with
   status 1 where an answer is another than expected.

       ./make-archive
       cc -I include tests/c/changes.c target/staticlib/libcqdb_c.a -o changes && ./changes */
#include <stdio.h>
#include <string.h>

#include "cqdb.h"

typedef struct {
    const char *name;
    uint32_t id;
} pair;

static unsigned checked, different;

static void expect(int so, const char *what) {
    checked++;
    if (!so) {
        different++;
        fprintf(stderr, "changes: not so: %s\n", what);
    }
}

static size_t make_image(uint8_t *buf, size_t len, const pair *pairs, size_t n) {
    cqdb_writer w;
    cqdb_begin_repeats(&w, CQDB_TWOWAY, buf, len);
    for (size_t i = 0; i < n; i++)
        cqdb_put(&w, buf, len, (const uint8_t *)pairs[i].name, strlen(pairs[i].name), pairs[i].id);
    return cqdb_close(&w, buf, len).size;
}

/* Is the place that of this name, or of none where name is NULL? */
static int is_name(const uint8_t *image, cqdb_str_answer a, const char *name) {
    if (name == NULL)
        return a.found == 0 && a.len == 0 && a.start == 0;
    return a.found == 1 && a.len == strlen(name) && memcmp(image + a.start, name, a.len) == 0;
}

/* Is entry `at` of these pairs the first that is not one to one, in this way? */
static int fails_at(const pair *pairs, size_t n, size_t at, uint32_t kind) {
    static uint8_t image[4096];
    size_t offset = 2072;
    for (size_t i = 0; i < at; i++)
        offset += strlen(pairs[i].name) + 9;
    cqdb_one_to_one_answer a = cqdb_one_to_one(image, make_image(image, sizeof image, pairs, n));
    return a.refusal == 0 && a.ok == 0 && a.kind == kind && a.offset == offset;
}

static void check_one_to_one(const uint8_t *image, size_t len) {
    static const pair two_names[] = {{"quay", 3}, {"crane", 0}, {"mole", 0}};
    static const pair two_ids[] = {{"crane", 5}, {"mole", 0}, {"crane", 9}};
    cqdb_one_to_one_answer a = cqdb_one_to_one(image, len);
    expect(a.refusal == 0 && a.ok == 1 && a.kind == 0 && a.offset == 0, "one name for one id");
    expect(fails_at(two_names, 3, 1, CQDB_OTHER_NAME), "id 0 has the name mole, and crane was put first");
    expect(fails_at(two_ids, 3, 2, CQDB_OTHER_ID), "crane has id 5, and was put again with 9");
    a = cqdb_one_to_one(image, len - 1);
    expect(a.refusal == CQDB_NOT_CANONICAL && a.ok == 0 && a.kind == 0 && a.offset == 0, "a byte is missing");
}

int main(void) {
    static const pair last_week[] = {{"north wall 1", 14}, {"north wall 2", 15}, {"crane", 16}, {"quay", 17}};
    static const pair this_week[] = {{"north wall 2", 14}, {"north wall 1", 15}, {"crane", 16}, {"gate", 18}};
    static const struct {
        uint32_t id;
        const char *before, *after;
        uint32_t moved, to;
    } wanted[] = {
        {14, "north wall 1", "north wall 2", 1, 15},
        {15, "north wall 2", "north wall 1", 1, 14},
        {17, "quay", NULL, 0, 0},
        {18, NULL, "gate", 0, 0},
    };
    static uint8_t old_image[4096], new_image[4096];
    size_t old_len = make_image(old_image, sizeof old_image, last_week, 4);
    size_t new_len = make_image(new_image, sizeof new_image, this_week, 4);
    uint64_t from = 0;
    for (size_t i = 0; i < sizeof wanted / sizeof wanted[0]; i++) {
        cqdb_change_answer c = cqdb_next_change(old_image, old_len, new_image, new_len, from);
        cqdb_moved_answer m = cqdb_moved(old_image, old_len, new_image, new_len, wanted[i].id);
        expect(c.found == 1 && c.id == wanted[i].id, "the changes come in rising order");
        expect(is_name(old_image, c.before, wanted[i].before), "the name that the id had");
        expect(is_name(new_image, c.after, wanted[i].after), "the name that the id has");
        expect(m.found == wanted[i].moved && m.id == wanted[i].to, "where the old name went");
        from = (uint64_t)c.id + 1;
    }
    expect(cqdb_next_change(old_image, old_len, new_image, new_len, from).found == 0, "there is no further change");
    expect(cqdb_next_change(old_image, old_len, new_image, new_len, UINT64_MAX).found == 0, "nor one behind all ids");
    expect(cqdb_next_change(old_image, old_len, old_image, old_len, 0).found == 0, "an image and itself have none");
    expect(cqdb_next_change(NULL, 0, new_image, new_len, 15).id == 15, "no bytes name nothing");
    expect(cqdb_moved(old_image, old_len, new_image, new_len, 16).found == 0, "crane is where it was");
    check_one_to_one(new_image, new_len);
    printf("changes: %u checked, %u different\n", checked, different);
    return different > 0;
}
