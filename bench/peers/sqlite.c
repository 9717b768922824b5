/* SQLite: a table whose rows stand in its index by name; prepared statements, bound without a copy, in one transaction. Built
   without a journal and without a sync; read with the whole file mapped. */
#include <sqlite3.h>
#include <stdlib.h>
#include "peer.h"

typedef struct {
    sqlite3 *db;
    sqlite3_stmt *statement;
} opened;

/* Opens the file, runs the commands and prepares the statement. */
static int begin(opened *o, const char *path, int flags, const char *commands, const char *statement) {
    return sqlite3_open_v2(path, &o->db, flags | SQLITE_OPEN_NOMUTEX, NULL) != SQLITE_OK ||
           sqlite3_exec(o->db, commands, NULL, NULL, NULL) != SQLITE_OK ||
           sqlite3_prepare_v3(o->db, statement, -1, SQLITE_PREPARE_PERSISTENT, &o->statement, NULL) != SQLITE_OK;
}

static int end(opened *o) {
    sqlite3_finalize(o->statement);
    int failed = sqlite3_exec(o->db, "COMMIT", NULL, NULL, NULL) != SQLITE_OK;
    return sqlite3_close(o->db) != SQLITE_OK || failed;
}

static int insert(const char *path, const peer_list *list) {
    opened o;
    if (begin(&o, path, SQLITE_OPEN_READWRITE | SQLITE_OPEN_CREATE,
              "PRAGMA journal_mode = OFF; PRAGMA synchronous = OFF; PRAGMA locking_mode = EXCLUSIVE;"
              "PRAGMA cache_size = -262144;"
              "CREATE TABLE names (name BLOB PRIMARY KEY, id INTEGER NOT NULL) WITHOUT ROWID; BEGIN",
              "INSERT INTO names VALUES (?, ?)") != 0) return 1;
    for (size_t i = 0; i < list->n; i++) {
        sqlite3_bind_blob(o.statement, 1, list->bytes + i * list->length, (int)list->length, SQLITE_STATIC);
        sqlite3_bind_int64(o.statement, 2, (sqlite3_int64)i);
        if (sqlite3_step(o.statement) != SQLITE_DONE || sqlite3_reset(o.statement) != SQLITE_OK) return 1;
    }
    return end(&o);
}

static void *open_file(const char *path) {
    opened *o = malloc(sizeof *o);
    return o != NULL && begin(o, path, SQLITE_OPEN_READONLY, "PRAGMA mmap_size = 1073741824; BEGIN",
                              "SELECT id FROM names WHERE name = ?") == 0 ? o : NULL;
}

static int64_t find(void *db, const uint8_t *name, size_t length) {
    const opened *o = db;
    sqlite3_bind_blob(o->statement, 1, name, (int)length, SQLITE_STATIC);
    int found = sqlite3_step(o->statement);
    int64_t id = found == SQLITE_ROW ? sqlite3_column_int64(o->statement, 0) : found == SQLITE_DONE ? PEER_ABSENT : PEER_FAILED;
    sqlite3_reset(o->statement);
    return id;
}

static void close_file(void *db) {
    end(db);
    free(db);
}

const peer sqlite = {NULL, insert, open_file, find, close_file};
