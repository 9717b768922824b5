/* Names a whole round in one call, in both directions. Ends with status 1 where an answer is another than expected.

       ./make-archive
       cc -I include tests/c/round.c target/staticlib/libcqdb_c.a -o round && ./round */
#include <stdio.h>
#include <string.h>

#include "cqdb.h"

static unsigned checked, different;

static void expect(int so, const char *what) {
    checked++;
    if (!so) {
        different++;
        fprintf(stderr, "round: not so: %s\n", what);
    }
}

static int same_answer(cqdb_id_answer a, cqdb_id_answer b) {
    return a.found == b.found && a.id == b.id && a.buckets == b.buckets && a.offset == b.offset;
}

int main(void) {
    static uint8_t image[3000];
    static const char *const put[] = {"north wall", "crane", "quay 7"};
    /* crane, quay 7, nothing, crane, an empty name, and two bytes that belong to none */
    static const uint8_t names[] = "cranequay 7bollardcrane??";
    static const uint64_t ends[] = {5, 11, 18, 23, 23}, falls[] = {5, 4}, passes[] = {5, 26};
    static const uint64_t many[513];
    static const uint32_t ids[] = {2, 9, 0}, none[513];
    cqdb_id_answer answers[7], kept, all[513];
    cqdb_str_answer places[4];
    cqdb_round_answer r;
    cqdb_writer w;
    uint64_t sum;
    size_t i;

    expect(cqdb_begin(&w, CQDB_TWOWAY, image, sizeof image) == 0, "a fresh writer");
    for (i = 0; i < 3; i++)
        expect(cqdb_put(&w, image, sizeof image, (const uint8_t *)put[i], strlen(put[i]), (uint32_t)i) == 0, "a put");
    expect(cqdb_close(&w, image, sizeof image).refusal == 0, "an image");

    memset(answers, 7, sizeof answers);
    kept = answers[6];
    r = cqdb_round(image, sizeof image, names, 25, falls, 2, answers, 7);
    expect(r.refusal == 14 && r.buckets == 0 && same_answer(answers[0], kept), "ends that fall give 14, unwritten");
    r = cqdb_round(image, sizeof image, names, 25, passes, 2, answers, 7);
    expect(r.refusal == 14 && r.buckets == 0, "ends that pass the bytes give 14");
    r = cqdb_round(image, sizeof image, names, 25, many, 513, answers, 7);
    expect(r.refusal == 14 && r.buckets == 0, "513 names give 14, also with too few places");
    r = cqdb_round(image, sizeof image, names, 25, many, 512, all, 512);
    expect(r.refusal == 0, "512 empty names are a round");
    expect(r.buckets == cqdb_to_id(image, sizeof image, names, 0).buckets, "and are searched for once");
    r = cqdb_round(image, sizeof image, names, 25, ends, 5, answers, 4);
    expect(r.refusal == 15 && r.buckets == 0 && same_answer(answers[0], kept), "too few places give 15, unwritten");
    r = cqdb_round(image, sizeof image, names, 25, ends, 5, answers, 7);
    expect(r.refusal == 0, "a round of five names");
    sum = 0;
    for (i = 0; i < 5; i++) {
        uint64_t start = i == 0 ? 0 : ends[i - 1];
        cqdb_id_answer one = cqdb_to_id(image, sizeof image, names + start, (size_t)(ends[i] - start));
        expect(same_answer(answers[i], one), "the answer of a single lookup");
        sum += i == 3 ? 0 : one.buckets;
    }
    expect(answers[0].found == 1 && answers[0].id == 1 && answers[1].id == 2 && answers[2].found == 0, "found or not");
    expect(r.buckets == sum, "crane, which stands twice, counts once");
    expect(same_answer(answers[5], kept) && same_answer(answers[6], kept), "places past the last keep their content");

    memset(places, 7, sizeof places);
    expect(cqdb_name_round(image, sizeof image, none, 513, places, 4) == 14, "513 ids give 14");
    expect(cqdb_name_round(image, sizeof image, ids, 3, places, 2) == 15 && places[0].len == 0x07070707, "too few places give 15");
    expect(cqdb_name_round(image, sizeof image, ids, 3, places, 4) == 0, "a round of three ids");
    expect(places[0].found == 1 && places[0].len == 6 && memcmp(image + places[0].start, "quay 7", 6) == 0, "the name of 2");
    expect(places[1].found == 0 && places[1].len == 0 && places[1].start == 0, "9 has none");
    expect(places[2].found == 1 && places[2].start == 2072 + 8, "the name of 0");
    expect(places[3].len == 0x07070707, "the fourth place keeps its content");

    printf("round: %u checked, %u different\n", checked, different);
    return different > 0;
}
