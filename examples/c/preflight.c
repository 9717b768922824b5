/* May this report leave? Asks about the ids of standard input, one after the other as they were sighted, and prints their names by the
   image NEW only where the answer is yes. OLD is the image of the last report, or the word --first. The status is 1 for no.

       cc -I include examples/c/preflight.c target/staticlib/libcqdb_c.a -o preflight
       printf '0\n14\n' | ./preflight last.cqdb harbour.cqdb round.sheet */
#include <inttypes.h>
#include <stdio.h>
#include <stdlib.h>

#include "cqdb.h"

#define MOST 512

/* The bytes of a file; NULL where it cannot be read. */
static uint8_t *read_file(const char *path, size_t *size) {
    FILE *file = fopen(path, "rb");
    long length = file != NULL && fseek(file, 0, SEEK_END) == 0 ? ftell(file) : -1;
    uint8_t *bytes = length < 0 ? NULL : malloc((size_t)length + 1);
    *size = bytes == NULL ? 0 : (size_t)length;
    if (bytes != NULL && (fseek(file, 0, SEEK_SET) != 0 || fread(bytes, 1, *size, file) != *size)) {
        free(bytes);
        bytes = NULL;
    }
    if (bytes == NULL) perror(path);
    if (file != NULL) fclose(file);
    return bytes;
}

/* What breaks the question that fails. */
static void say_why(const cqdb_report *report, cqdb_preflight_answer a) {
    static const char *const why[] = {
        "", "the new image is not canonical, or one-way", "the sheet does not read", "is not on the sheet once, as a reference or a wall",
        "no id is sighted", "has no name", "has the name of another sighted id", "the last image is not canonical, or one-way",
        "the two images name no id alike", "has another name than in the last report", "has the name that another id lost"};
    fprintf(stderr, "no, question %" PRIu32 ": ", a.question);
    if (a.question == 3 || a.question == 5 || a.question == 6 || a.question >= 9)
        fprintf(stderr, "id %" PRIu32 " ", report->round[a.place]);
    fprintf(stderr, "%s\n", why[a.question]);
}

int main(int arguments, char **argument) {
    static uint32_t ids[MOST];
    cqdb_report report = {NULL, 0, NULL, 0, NULL, 0, ids, 0, NULL, 0};
    if (arguments != 4) {
        fputs("usage: preflight OLD|--first NEW SHEET <IDS\n", stderr);
        return 2;
    }
    /* That there is no last report is said: an old image that is empty by mistake must not pass for none. */
    int first = strcmp(argument[1], "--first") == 0;
    if (!first && (report.old_image = read_file(argument[1], &report.old_len)) == NULL) return 2;
    if ((report.new_image = read_file(argument[2], &report.new_len)) == NULL) return 2;
    if ((report.sheet = read_file(argument[3], &report.sheet_len)) == NULL) return 2;
    while (report.round_len < MOST && scanf("%" SCNu32, &ids[report.round_len]) == 1) report.round_len++;
    if (!feof(stdin)) {
        fprintf(stderr, "preflight: no id, or more than %d of them, behind %zu\n", MOST, report.round_len);
        return 2;
    }
    cqdb_preflight_answer a = first ? cqdb_preflight_first(&report) : cqdb_preflight(&report);
    if (a.question != 0) {
        say_why(&report, a);
        return 1;
    }
    for (size_t i = 0; i < report.round_len; i++) {
        cqdb_str_answer name = cqdb_to_str(report.new_image, report.new_len, ids[i]);
        printf("%" PRIu32 " %.*s\n", ids[i], (int)name.len, (const char *)report.new_image + name.start);
    }
    fprintf(stderr, "compared %" PRIu64 " of %zu, %" PRIu64 " new, %" PRIu64 " not sighted\n", a.compared, report.round_len, a.added, a.unsighted);
    return fflush(stdout) != 0 ? 2 : 0;
}
