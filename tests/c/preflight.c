/* May this report leave? Reports of two weeks are asked about, and named only where the answer is yes. Ends with status 1 where an answer
   is another than expected.

       ./make-archive
       cc -I include tests/c/preflight.c target/staticlib/libcqdb_c.a -o preflight && ./preflight */
#include <stdio.h>

#include "cqdb.h"

static size_t make_image(uint8_t *buf, size_t len, const char *first, const char *second) {
    cqdb_writer w;
    cqdb_begin(&w, CQDB_TWOWAY, buf, len);
    cqdb_put_text(&w, buf, len, "east pier", 0);
    cqdb_put_text(&w, buf, len, first, 14);
    cqdb_put_text(&w, buf, len, second, 15);
    return cqdb_close(&w, buf, len).size;
}

/* What breaks the question that fails. */
static void say_why(const cqdb_report *report, cqdb_preflight_answer a) {
    static const char *const why[] = {
        "", "the new image is not canonical, or one-way", "the sheet does not read", "is not on the sheet once, as a reference or a wall",
        "no id is sighted", "has no name", "has the name of another sighted id", "the last image is not canonical, or one-way",
        "the two images name no id alike", "has another name than in the last report", "has the name that another id lost"};
    printf("held back, question %u: ", a.question);
    if (a.question == 3 || a.question == 5 || a.question == 6 || a.question >= 9)
        printf("id %u ", report->round[a.place]);
    printf("%s", why[a.question]);
    if (a.question == 6)
        printf(", id %u", report->round[a.other]);
    if (a.question == 10)
        printf(", id %u", a.id);
    printf("\n");
}

/* Prints the names of the round, from the bytes that were asked about, where the report may leave. Gives the question that fails. Whether
   there is a last report is said: an old image that is empty by mistake must not pass for none. */
static uint32_t print_report(const cqdb_report *report, int is_first) {
    cqdb_preflight_answer a = is_first ? cqdb_preflight_first(report) : cqdb_preflight(report);
    if (a.question != 0) {
        say_why(report, a);
        return a.question;
    }
    for (size_t i = 0; i < report->round_len; i++) {
        cqdb_str_answer name = cqdb_to_str(report->new_image, report->new_len, report->round[i]);
        printf("%.*s\n", (int)name.len, (const char *)report->new_image + name.start);
    }
    printf("compared %u of %u, %u new, %u not sighted\n", (unsigned)a.compared, (unsigned)report->round_len, (unsigned)a.added,
           (unsigned)a.unsighted);
    return 0;
}

int main(void) {
    static uint8_t last_week[4096], this_week[4096], sheet[64];
    static const uint32_t references[] = {0}, walls[] = {14, 15}, round[] = {0, 14, 15}, renamed[] = {14, 15};
    static const cqdb_window windows[] = {{0, {1990, 1, 1}, {2200, 1, 1}}, {14, {2024, 1, 1}, {2024, 6, 1}}};
    static const cqdb_date monday = {2024, 5, 27}, next = {2024, 6, 3};
    cqdb_report report = {NULL, 0, this_week, 0, sheet, 0, round, 3, NULL, 0};
    unsigned different = 0;
    report.sheet_len = (size_t)cqdb_sheet_write(sheet, sizeof sheet, references, 1, walls, 2, NULL, 0).length;
    report.new_len = make_image(this_week, sizeof this_week, "north wall", "crane");
    different += print_report(&report, 1) != 0; /* the first report */
    report.old_len = make_image(last_week, sizeof last_week, "north wall", "crane");
    report.old_image = last_week;
    different += print_report(&report, 0) != 0; /* nothing has changed */
    report.new_len = make_image(this_week, sizeof this_week, "crane", "north wall");
    different += print_report(&report, 0) != 9; /* two prisms have each other's names */
    report.accepted = renamed;
    report.accepted_len = 2;
    different += print_report(&report, 0) != 10; /* that these are intended renames does not help */
    report.old_len--;
    different += print_report(&report, 0) != 7; /* a byte of the last image is missing */
    cqdb_preflight_dates_answer d = cqdb_preflight_dates(windows, 2, round, 2, monday, next);
    different += d.refusal != 0 || d.question != 11 || d.place != 1; /* prism 14 was taken away between the two dates */
    return different > 0;
}
