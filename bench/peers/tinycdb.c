/* tinycdb: a file by cdb_make; the library maps it when it is read. A value is the id's four bytes. */
#include <cdb.h>
#include <fcntl.h>
#include <stdlib.h>
#include <string.h>
#include <unistd.h>
#include "peer.h"

static int build(const char *path, const peer_list *list, enum cdb_put_mode mode) {
    struct cdb_make made;
    int file = open(path, O_RDWR | O_CREAT | O_TRUNC, 0600);
    if (file < 0 || cdb_make_start(&made, file) != 0) return 1;
    for (size_t i = 0; i < list->n; i++) {
        uint32_t id = (uint32_t)i;
        const uint8_t *name = list->bytes + i * list->length;
        if (cdb_make_put(&made, name, (unsigned)list->length, &id, sizeof id, mode) != 0) return 1;
    }
    int failed = cdb_make_finish(&made) != 0;
    return close(file) != 0 || failed;
}

static int add(const char *path, const peer_list *list) {
    return build(path, list, CDB_PUT_ADD);
}

static int insert(const char *path, const peer_list *list) {
    return build(path, list, CDB_PUT_INSERT);
}

static void *open_file(const char *path) {
    struct cdb *db = malloc(sizeof *db);
    int file = open(path, O_RDONLY);
    return db != NULL && file >= 0 && cdb_init(db, file) == 0 ? db : NULL;
}

static int64_t find(void *db, const uint8_t *name, size_t length) {
    uint32_t id;
    int found = cdb_find(db, name, (unsigned)length);
    if (found <= 0) return found == 0 ? PEER_ABSENT : PEER_FAILED;
    const void *value = cdb_getdata((struct cdb *)db);
    if (value == NULL || cdb_datalen((struct cdb *)db) != sizeof id) return PEER_FAILED;
    memcpy(&id, value, sizeof id);
    return id;
}

static void close_file(void *db) {
    close(cdb_fileno((struct cdb *)db));
    cdb_free(db);
    free(db);
}

const peer tinycdb = {add, insert, open_file, find, close_file};
