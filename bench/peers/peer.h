/* What the benchmark asks of each library: one peer for each, by the library's name. */
#ifndef PEER_H
#define PEER_H

#include <stddef.h>
#include <stdint.h>

#define PEER_ABSENT (-1)
#define PEER_FAILED (-2)

/* n names of `length` bytes, one behind the other; the ids count from 0. */
typedef struct {
    const uint8_t *bytes;
    size_t length;
    size_t n;
} peer_list;

/* Writes the list to a new file at the path; 0 when it is done. */
typedef int peer_build(const char *path, const peer_list *list);

typedef struct {
    /* Does not look whether a name is there already. NULL where the library always looks. */
    peer_build *add;
    /* Would refuse a name that is there already. */
    peer_build *insert;
    /* The file, ready for find; NULL where it cannot be read. */
    void *(*open)(const char *path);
    /* The id of a name; PEER_ABSENT where the file does not have it, PEER_FAILED where the file could not be asked. */
    int64_t (*find)(void *db, const uint8_t *name, size_t length);
    void (*close)(void *db);
} peer;

#endif
