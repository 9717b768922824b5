/* Makes a catalogue of a list in one call and writes it to a file, beside its place and then moved there, so that a reader never sees a
   part. A line of standard input is an id, a space and the name. A wrong line is told with its number, and then nothing is written.

       cc -I include examples/c/build_list.c target/staticlib/libcqdb_c.a -o build_list && ./build_list harbour.cqdb <examples/prisms.txt */
#define _POSIX_C_SOURCE 200809L
#include <inttypes.h>
#include <stdio.h>
#include <stdlib.h>

#include "cqdb.h"

/* The names, joined, with the place where each ends, and their ids. */
static uint8_t *names;
static uint64_t *ends;
static uint32_t *ids;
static size_t length, count;

static int fails(const char *why) {
    fprintf(stderr, "build_list: %s\n", why);
    return 2;
}

static void *memory(void *before, size_t bytes) {
    void *at = realloc(before, bytes + 1);
    if (at == NULL) exit(fails("no memory"));
    return at;
}

/* Adds a line to the list; 0 where it is not an id, a space and a name. */
static int add(const char *line, size_t n) {
    char *rest;
    uintmax_t id = line[0] >= '0' && line[0] <= '9' ? strtoumax(line, &rest, 10) : UINTMAX_MAX;
    if (id > UINT32_MAX || *rest != ' ') return 0;
    size_t name = (size_t)(rest + 1 - line);
    names = memory(names, length + n - name);
    ends = memory(ends, (count + 1) * sizeof *ends);
    ids = memory(ids, (count + 1) * sizeof *ids);
    memcpy(names + length, rest + 1, n - name);
    ends[count] = length += n - name;
    ids[count++] = (uint32_t)id;
    return 1;
}

/* Writes a file beside its place and moves it there. */
static int replace(const char *path, const uint8_t *bytes, size_t size) {
    char *beside = memory(NULL, strlen(path) + 4);
    strcat(strcpy(beside, path), ".new");
    FILE *file = fopen(beside, "wb");
    int written = file != NULL && fwrite(bytes, 1, size, file) == size;
    written = file != NULL && fclose(file) == 0 && written && rename(beside, path) == 0;
    if (!written) perror(path);
    if (!written && file != NULL) remove(beside);
    free(beside);
    return written;
}

int main(int arguments, char **argument) {
    char *line = NULL;
    size_t room = 0;
    if (arguments != 2) return fails("usage: build_list IMAGE <LIST");
    for (ssize_t n; (n = getline(&line, &room, stdin)) >= 0;) {
        if (line[n - 1] == '\n') n--;
        if (!add(line, (size_t)n)) {
            fprintf(stderr, "line %zu is not an id, a space and a name\n", count + 1);
            return 1;
        }
    }
    cqdb_build_needs_answer needs = cqdb_build_needs(CQDB_TWOWAY, length, ids, count);
    size_t bytes = needs.bytes < UINT32_MAX ? needs.bytes : UINT32_MAX;
    uint8_t *image = memory(NULL, bytes);
    uint32_t *refusals = memory(NULL, count * sizeof *refusals), *scratch = memory(NULL, needs.words * sizeof *scratch);
    cqdb_build_answer built = cqdb_build(CQDB_TWOWAY, CQDB_REPEATS_OFF, image, bytes, names, length, ends, ids, count, refusals, count, scratch,
                                         needs.words);
    for (size_t i = 0; i < count; i++)
        if (refusals[i] != 0) fprintf(stderr, "line %zu: %s (refusal %u)\n", i + 1, cqdb_refusal_text(refusals[i]), refusals[i]);
    if (built.refusal != 0 || built.accepted != count || !replace(argument[1], image, built.size)) return 1;
    printf("%s: %zu entries, %u bytes\n", argument[1], count, built.size);
    return 0;
}
