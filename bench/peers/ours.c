/* Ours: a buffer of the image's size, taken for each build, and one write of it to the file; without a path, no file. A file is
   read where it is mapped. */
#include <fcntl.h>
#include <stdlib.h>
#include <sys/mman.h>
#include <sys/stat.h>
#include <unistd.h>
#include "cqdb.h"
#include "peer.h"

static int keep(const char *path, const uint8_t *bytes, size_t length) {
    if (path == NULL) return 0;
    int file = open(path, O_WRONLY | O_CREAT | O_TRUNC, 0600);
    if (file < 0) return 1;
    size_t done = 0;
    while (done < length) {
        ssize_t more = write(file, bytes + done, length - done);
        if (more < 0) break;
        done += (size_t)more;
    }
    return close(file) != 0 || done < length;
}

/* Single puts, repeats on. */
static int add(const char *path, const peer_list *list) {
    size_t size = 2072 + list->n * (list->length + 29);
    uint8_t *buf = malloc(size);
    cqdb_writer w;
    if (buf == NULL || cqdb_begin_repeats(&w, CQDB_TWOWAY, buf, size) != 0) return 1;
    for (size_t i = 0; i < list->n; i++) {
        if (cqdb_put(&w, buf, size, list->bytes + i * list->length, list->length, (uint32_t)i) != 0) return 1;
    }
    cqdb_close_answer image = cqdb_close(&w, buf, size);
    int failed = image.refusal != 0 || image.size != size || keep(path, buf, size) != 0;
    free(buf);
    return failed;
}

/* The whole list in one call, repeats off. The lists of ends and ids are made here too. */
static int insert(const char *path, const peer_list *list) {
    size_t n = list->n;
    uint64_t *ends = malloc(n * sizeof *ends);
    uint32_t *ids = malloc(2 * n * sizeof *ids), *refusals = ids + n;
    if (ends == NULL || ids == NULL) return 1;
    for (size_t i = 0; i < n; i++) {
        ends[i] = (i + 1) * list->length;
        ids[i] = (uint32_t)i;
    }
    cqdb_build_needs_answer needs = cqdb_build_needs(CQDB_TWOWAY, n * list->length, ids, n);
    uint8_t *buf = malloc(needs.bytes);
    uint32_t *work = malloc(needs.words * sizeof *work);
    if (buf == NULL || work == NULL) return 1;
    cqdb_build_answer image = cqdb_build(CQDB_TWOWAY, CQDB_REPEATS_OFF, buf, needs.bytes, list->bytes, n * list->length,
                                         ends, ids, n, refusals, n, work, needs.words);
    int failed = image.refusal != 0 || image.accepted != n || keep(path, buf, image.size) != 0;
    free(work);
    free(buf);
    free(ids);
    free(ends);
    return failed;
}

typedef struct {
    const uint8_t *image;
    size_t length;
} mapped;

static void *open_file(const char *path) {
    int file = open(path, O_RDONLY);
    struct stat about;
    mapped *db = malloc(sizeof *db);
    if (file < 0 || db == NULL || fstat(file, &about) != 0) return NULL;
    db->length = (size_t)about.st_size;
    db->image = mmap(NULL, db->length, PROT_READ, MAP_SHARED, file, 0);
    close(file);
    return db->image != MAP_FAILED && cqdb_open(db->image, db->length).refusal == 0 ? db : NULL;
}

static int64_t find(void *db, const uint8_t *name, size_t length) {
    const mapped *m = db;
    cqdb_id_answer answer = cqdb_to_id(m->image, m->length, name, length);
    return answer.found ? (int64_t)answer.id : PEER_ABSENT;
}

static void close_file(void *db) {
    mapped *m = db;
    munmap((void *)m->image, m->length);
    free(m);
}

const peer ours = {add, insert, open_file, find, close_file};
