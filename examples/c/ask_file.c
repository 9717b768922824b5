/* Maps the image in a file and looks up names: prints the id and the name of each that the image has. The status is 1 where a name is
   missing, 2 where the file cannot be read or is no image. The map stays as it is while the file is replaced by another one.

       cc -I include examples/c/ask_file.c target/staticlib/libcqdb_c.a -o ask_file && ./ask_file harbour.cqdb crane 'mole head' */
#define _POSIX_C_SOURCE 200809L
#include <fcntl.h>
#include <stdio.h>
#include <sys/mman.h>
#include <sys/stat.h>
#include <unistd.h>

#include "cqdb.h"

/* The bytes of a file, mapped for reading; NULL where there are none, or where that fails. */
static const uint8_t *map_file(const char *path, size_t *size) {
    struct stat status;
    int file = open(path, O_RDONLY);
    void *bytes = NULL;
    *size = 0;
    if (file >= 0 && fstat(file, &status) == 0 && status.st_size > 0) {
        *size = (size_t)status.st_size;
        bytes = mmap(NULL, *size, PROT_READ, MAP_PRIVATE, file, 0);
    }
    if (file < 0 || bytes == MAP_FAILED) {
        perror(path);
        bytes = NULL;
        *size = 0;
    }
    if (file >= 0) close(file);
    return bytes;
}

int main(int arguments, char **argument) {
    size_t size;
    int missing = 0;
    if (arguments < 2) {
        fputs("usage: ask_file IMAGE NAME..\n", stderr);
        return 2;
    }
    const uint8_t *image = map_file(argument[1], &size);
    cqdb_open_answer opened = cqdb_open(image, size);
    if (opened.refusal != 0) {
        fprintf(stderr, "%s: %s\n", argument[1], cqdb_refusal_text(opened.refusal));
        return 2;
    }
    for (int i = 2; i < arguments; i++) {
        cqdb_id_answer answer = cqdb_to_id_text(image, size, argument[i]);
        if (answer.found) {
            printf("%u %s\n", answer.id, argument[i]);
        } else {
            fprintf(stderr, "not found: %s\n", argument[i]);
            missing = 1;
        }
    }
    return fclose(stdout) == 0 ? missing : 2;
}
