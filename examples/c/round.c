/* Names a whole round of sightings in one call: the ids of standard input, up to 512, by the image in a file. Prints each id with its
   name. The status is 1 where an id has no name, and then nothing is printed, since a report without a name is none.

       cc -I include examples/c/round.c target/staticlib/libcqdb_c.a -o round && printf '30\n7\n' | ./round harbour.cqdb */
#include <stdio.h>
#include <stdlib.h>

#include "cqdb.h"

#define MOST 512

/* The bytes of a file; NULL where it cannot be read. */
static uint8_t *read_file(const char *path, size_t *size) {
    FILE *file = fopen(path, "rb");
    long length = file != NULL && fseek(file, 0, SEEK_END) == 0 ? ftell(file) : -1;
    uint8_t *bytes = length < 0 ? NULL : malloc((size_t)length + 1);
    *size = bytes == NULL ? 0 : (size_t)length;
    if (bytes != NULL && (fseek(file, 0, SEEK_SET) != 0 || fread(bytes, 1, *size, file) != *size)) {
        free(bytes);
        bytes = NULL;
    }
    if (bytes == NULL) perror(path);
    if (file != NULL) fclose(file);
    return bytes;
}

int main(int arguments, char **argument) {
    uint32_t ids[MOST];
    cqdb_str_answer names[MOST];
    size_t size, count = 0, unnamed = 0;
    uint8_t *image = arguments == 2 ? read_file(argument[1], &size) : NULL;
    if (image == NULL) {
        fputs("usage: round IMAGE <IDS\n", stderr);
        return 2;
    }
    while (count < MOST && scanf("%u", &ids[count]) == 1) count++;
    uint32_t refusal = cqdb_name_round(image, size, ids, count, names, MOST);
    if (refusal != 0) {
        fprintf(stderr, "round: %s\n", cqdb_refusal_text(refusal));
        return 2;
    }
    for (size_t i = 0; i < count; i++) {
        if (!names[i].found) {
            unnamed++;
            fprintf(stderr, "no name: %u\n", ids[i]);
        }
    }
    for (size_t i = 0; i < count && unnamed == 0; i++)
        printf("%u %.*s\n", ids[i], (int)names[i].len, (const char *)image + names[i].start);
    free(image);
    return unnamed > 0;
}
