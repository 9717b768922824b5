/* LMDB: built in one write transaction without a sync, and read in one read transaction. A value is the id's four bytes. */
#include <lmdb.h>
#include <stdlib.h>
#include <string.h>
#include "peer.h"

#define ROOM ((size_t)1 << 30)

typedef struct {
    MDB_env *env;
    MDB_txn *txn;
    MDB_dbi dbi;
} opened;

/* One file and no folder; one process, so no lock file. */
static int begin(opened *o, const char *path, unsigned flags) {
    return mdb_env_create(&o->env) != 0 || mdb_env_set_mapsize(o->env, ROOM) != 0 ||
           mdb_env_open(o->env, path, MDB_NOSUBDIR | MDB_NOLOCK | flags, 0600) != 0 ||
           mdb_txn_begin(o->env, NULL, flags & MDB_RDONLY, &o->txn) != 0 || mdb_dbi_open(o->txn, NULL, 0, &o->dbi) != 0;
}

static MDB_val name_of(const uint8_t *name, size_t length) {
    MDB_val key = {length, (void *)name};
    return key;
}

static int insert(const char *path, const peer_list *list) {
    opened o;
    if (begin(&o, path, MDB_NOSYNC) != 0) return 1;
    for (size_t i = 0; i < list->n; i++) {
        uint32_t id = (uint32_t)i;
        MDB_val key = name_of(list->bytes + i * list->length, list->length), value = {sizeof id, &id};
        if (mdb_put(o.txn, o.dbi, &key, &value, MDB_NOOVERWRITE) != 0) return 1;
    }
    int failed = mdb_txn_commit(o.txn) != 0;
    mdb_env_close(o.env);
    return failed;
}

static void *open_file(const char *path) {
    opened *o = malloc(sizeof *o);
    return o != NULL && begin(o, path, MDB_RDONLY) == 0 ? o : NULL;
}

static int64_t find(void *db, const uint8_t *name, size_t length) {
    const opened *o = db;
    uint32_t id;
    MDB_val key = name_of(name, length), value;
    int found = mdb_get(o->txn, o->dbi, &key, &value);
    if (found == MDB_NOTFOUND) return PEER_ABSENT;
    if (found != 0 || value.mv_size != sizeof id) return PEER_FAILED;
    memcpy(&id, value.mv_data, sizeof id);
    return id;
}

static void close_file(void *db) {
    opened *o = db;
    mdb_txn_abort(o->txn);
    mdb_env_close(o->env);
    free(o);
}

const peer lmdb = {NULL, insert, open_file, find, close_file};
