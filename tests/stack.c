/* How much stack each call takes: it runs in a thread whose stack was filled with one byte, and the part that changed is counted,
   less what an empty call changes. Prints a line for each call, its name without cqdb_ and the bytes; tests/stack compares them
   with the header's table. */
#define _POSIX_C_SOURCE 200809L
#include <pthread.h>
#include <stdio.h>
#include <stdlib.h>
#include <string.h>

#include "cqdb.h"

#define STACK ((size_t)1 << 20)
#define NAMES 4096u
#define ROOM 200000u

static uint8_t image[ROOM], buf[ROOM], file[2 * ROOM], page[45 * NAMES], names[9 * NAMES], sheet[6 + 4 * NAMES];
static uint64_t ends[NAMES];
static uint32_t ids[NAMES], refusals[NAMES], work[7 * NAMES], counts[16], slots[16];
static size_t size;
static cqdb_writer w;
static cqdb_id_answer answers[512];
static cqdb_str_answer places[512];
static const cqdb_pair pairs[1] = {{1, 7}};
static volatile uint64_t kept;

static void none(void) {}
static void hash(void) { kept = cqdb_hash(names, 9, 0).hash; }
static void open_(void) { kept = cqdb_open(image, size).num; }
static void to_id(void) { kept = cqdb_to_id(image, size, names + 9 * 77, 9).id; }
static void to_str(void) { kept = cqdb_to_str(image, size, 77).start; }
static void panel(void) { kept = cqdb_panel(image, size, 77).start; }
static void readings_agree(void) { kept = cqdb_readings_agree(image, size); }
static void size_hint(void) { kept = cqdb_size_hint(image, size, 0); }
static void entry(void) { kept = cqdb_entry(image, size, 2072).start; }
static void table(void) { kept = cqdb_table(image, size, 7).start; }
static void home(void) { kept = cqdb_home(image, size, 77); }
static void canonical(void) { kept = cqdb_canonical(image, size); }
static void one_to_one(void) { kept = cqdb_one_to_one(image, size).ok; }
static void average(void) { kept = cqdb_average(image, size).quotient; }
static void lengths(void) { kept = cqdb_lengths(image, size, counts); }
static void page_length(void) { kept = cqdb_page_length(image, size); }
static void version_number(void) { kept = cqdb_version_number(); }
static void print(void) { kept = cqdb_page(image, size, page, sizeof page).length; }
static void page_part(void) { kept = cqdb_page_part(image, size, 7, 70, page, sizeof page).length; }
static void grown(void) { kept = cqdb_grown(&w, sizeof buf); }
static void size_with(void) { kept = cqdb_size_with(&w, 9, 7); }
static void build_needs(void) { kept = cqdb_build_needs(CQDB_TWOWAY, sizeof names, ids, NAMES).bytes; }
static void round_(void) { kept = cqdb_round(image, size, names, sizeof names, ends, 512, answers, 512).buckets; }
static void name_round(void) { kept = cqdb_name_round(image, size, ids, 512, places, 512); }
static void begin(void) { kept = cqdb_begin(&w, CQDB_TWOWAY, buf, sizeof buf); }
static void put_on(void) { w.repeats = CQDB_REPEATS_ON, kept = cqdb_put(&w, buf, sizeof buf, names, 9, 1); }
static void put_off(void) { w.repeats = CQDB_REPEATS_OFF, kept = cqdb_put(&w, buf, sizeof buf, names + 9, 9, 2); }
static void index_(void) { kept = cqdb_index(&w, buf, sizeof buf, slots, 16); }
static void put_indexed(void) { kept = cqdb_put_indexed(&w, buf, sizeof buf, slots, 16, names + 18, 9, 3); }
static void index_words(void) { kept = cqdb_index_words(NAMES); }
static void close_(void) { kept = cqdb_close(&w, buf, sizeof buf).size; }
static void build_(void) {
    cqdb_build_answer a = cqdb_build(CQDB_TWOWAY, CQDB_REPEATS_OFF, buf, sizeof buf, names, sizeof names, ends, ids, NAMES, refusals, NAMES, work, 0);
    kept = a.accepted == NAMES ? a.size : 0;
}
/* The last name is the first one: it is refused, and the names are put one by one. */
static void refused(size_t words) {
    uint8_t last[9];
    memcpy(last, names + 9 * (NAMES - 1), 9);
    memcpy(names + 9 * (NAMES - 1), names, 9);
    kept = cqdb_build(CQDB_TWOWAY, CQDB_REPEATS_OFF, buf, sizeof buf, names, sizeof names, ends, ids, NAMES, refusals, NAMES, work, words).accepted;
    memcpy(names + 9 * (NAMES - 1), last, 9);
}
static void build_refused(void) { refused(5 * NAMES); }
static void build_walked(void) { refused(0); }
static void load(void) { kept = cqdb_load(1, buf, sizeof buf).accepted; }
static void name_on(void) {
    cqdb_date date = {2024, 2, 29};
    cqdb_window window = {77, {2024, 1, 1}, {2025, 1, 1}};
    kept = cqdb_name_on(image, size, 77, date, &window, 1).start;
}
static void next_change(void) { kept = cqdb_next_change(image, size, image, size, 0).found; }
static void moved(void) { kept = cqdb_moved(image, size, image, size, 77).found; }
static void bundle_append(void) { kept = cqdb_bundle_append(file, sizeof file, size, image, size).length; }
static void bundle_open(void) { kept = cqdb_bundle_open(file, 2 * size, 1).num; }
static void bundle_count(void) { kept = cqdb_bundle_count(file, 2 * size).images; }
static void sheet_write(void) { kept = cqdb_sheet_write(buf, sizeof buf, ids, 100, ids, 100, ids, 100).length; }
static void sheet_read(void) { kept = cqdb_sheet_read(buf, 1206).refusal; }
/* A round of 512 on a sheet of all ids. */
static const cqdb_report *report(void) {
    static cqdb_report all;
    cqdb_report r = {image, size, image, size, sheet, sizeof sheet, ids, 512, ids, 8};
    all = r;
    return &all;
}
static void preflight(void) { kept = cqdb_preflight(report()).unsighted; }
static void preflight_first(void) { kept = cqdb_preflight_first(report()).unsighted; }
static void preflight_dates(void) {
    cqdb_date date = {2024, 2, 29};
    cqdb_window window = {0, {2024, 1, 1}, {2025, 1, 1}};
    kept = cqdb_preflight_dates(&window, 1, ids, 1, date, date).question;
}
static void references_first(void) { kept = cqdb_references_first(pairs, 1, ids, NAMES).ok; }

static const struct {
    const char *name;
    void (*call)(void);
} calls[] = {{"version_number", version_number}, {"page_length", page_length}, {"hash", hash}, {"open", open_}, {"to_id", to_id}, {"to_str", to_str}, {"panel", panel}, {"readings_agree", readings_agree},
             {"size_hint", size_hint}, {"home", home}, {"canonical", canonical}, {"one_to_one", one_to_one}, {"average", average}, {"lengths", lengths}, {"page", print}, {"page_part", page_part}, {"grown", grown},
             {"build_needs", build_needs}, {"entry", entry}, {"table", table}, {"size_with", size_with},
             {"round", round_}, {"name_round", name_round}, {"begin", begin}, {"put, repeats on", put_on}, {"put, repeats off", put_off},
             {"index", index_}, {"put_indexed", put_indexed}, {"index_words", index_words}, {"close", close_}, {"build, no name refused", build_}, {"build, a name refused, 5 words", build_refused},
             {"build, a name refused, no words", build_walked}, {"load", load}, {"name_on", name_on},
             {"next_change", next_change}, {"moved", moved}, {"bundle_append", bundle_append}, {"bundle_open", bundle_open}, {"bundle_count", bundle_count}, {"sheet_write", sheet_write},
             {"sheet_read", sheet_read}, {"references_first", references_first}, {"preflight", preflight}, {"preflight_first", preflight_first}, {"preflight_dates", preflight_dates}};

static void (*running)(void);

static void *run(void *unused) {
    running();
    return unused;
}

/* The bytes of the stack that a call changes. */
static size_t changed(void (*call)(void)) {
    static uint8_t *stack;
    pthread_attr_t attributes;
    pthread_t thread;
    size_t left = 0;
    if (stack == NULL && posix_memalign((void **)&stack, 4096, STACK) != 0) {
        exit(2);
    }
    memset(stack, 0xA5, STACK);
    running = call;
    if (pthread_attr_init(&attributes) != 0 || pthread_attr_setstack(&attributes, stack, STACK) != 0 ||
        pthread_create(&thread, &attributes, run, NULL) != 0 || pthread_join(thread, NULL) != 0) {
        exit(2);
    }
    pthread_attr_destroy(&attributes);
    while (left < STACK && stack[left] == 0xA5) {
        left++;
    }
    return STACK - left;
}

int main(void) {
    for (uint32_t i = 0; i < NAMES; i++) {
        char name[16];
        snprintf(name, sizeof name, "P%08u", i);
        memcpy(names + 9 * i, name, 9);
        ends[i] = 9 * ((uint64_t)i + 1);
        ids[i] = i;
    }
    build_();
    size = (size_t)kept;
    memcpy(image, buf, size);
    memcpy(file, buf, size);
    cqdb_sheet_write(sheet, sizeof sheet, NULL, 0, ids, NAMES, NULL, 0);
    size_t least = changed(none);
    for (size_t i = 0; i < sizeof calls / sizeof *calls; i++) {
        size_t all = changed(calls[i].call);
        printf("%s: %zu\n", calls[i].name, all > least ? all - least : 0);
    }
    return size == 0;
}
