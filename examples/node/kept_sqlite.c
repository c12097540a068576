/* Kept bytes in a database of SQLite, kept.sqlite: a name's bytes are replaced in one transaction, which is synced. */
#include <sqlite3.h>
#include <stdio.h>
#include <stdlib.h>
#include <string.h>

#include "kept.h"

enum { PATIENCE = 5000 };

static sqlite3 *database;

static void check(int holds) {
    if (holds) return;
    fprintf(stderr, "kept.sqlite: %s\n", database ? sqlite3_errmsg(database) : "there is no memory");
    exit(1);
}

static void order(const char *text) { check(sqlite3_exec(database, text, NULL, NULL, NULL) == SQLITE_OK); }

/* A statement with the name that it is about. It opens the database first. */
static sqlite3_stmt *about(const char *name, const char *text) {
    if (database == NULL) {
        check(sqlite3_open("kept.sqlite", &database) == SQLITE_OK);
        sqlite3_busy_timeout(database, PATIENCE);
        order("PRAGMA journal_mode = WAL");
        order("PRAGMA synchronous = FULL");
        order("CREATE TABLE IF NOT EXISTS kept (name TEXT PRIMARY KEY, bytes BLOB NOT NULL)");
    }
    sqlite3_stmt *statement;
    check(sqlite3_prepare_v2(database, text, -1, &statement, NULL) == SQLITE_OK);
    check(sqlite3_bind_text(statement, 1, name, -1, SQLITE_STATIC) == SQLITE_OK);
    return statement;
}

void kept_store(const char *name, const void *bytes, size_t size) {
    sqlite3_stmt *put = about(name, "INSERT OR REPLACE INTO kept VALUES (?, ?)");
    check(sqlite3_bind_blob64(put, 2, bytes, size, SQLITE_STATIC) == SQLITE_OK);
    check(sqlite3_step(put) == SQLITE_DONE);
    sqlite3_finalize(put);
}

size_t kept_load(const char *name, void *bytes, size_t room) {
    sqlite3_stmt *get = about(name, "SELECT bytes FROM kept WHERE name = ?");
    int step = sqlite3_step(get);
    check(step == SQLITE_ROW || step == SQLITE_DONE);
    size_t size = 0;
    if (step == SQLITE_ROW) {
        size = (size_t)sqlite3_column_bytes(get, 0);
        check(size <= room);
        if (size > 0) memcpy(bytes, sqlite3_column_blob(get, 0), size);
    }
    sqlite3_finalize(get);
    return size;
}
