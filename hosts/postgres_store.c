/* A store in a table of PostgreSQL: a row for each file, and one for each piece that was put behind the gateway's log. The row `claim`
   has a number, and the mark of the life that has the store. Each write is one statement that locks that row, and writes nothing if the
   number was raised: by another life, or by this one when it connected anew. So a statement that an earlier connection left on its way
   changes nothing (hosts/README.md, "Their bytes"). */
#include "report.h"
#include "store.h"

#ifdef WITH_POSTGRES

#include "bytes.h"
#include "patience.h"
#include "watch.h"

#include <inttypes.h>
#include <postgresql/libpq-fe.h>
#include <pthread.h>
#include <stdio.h>
#include <stdlib.h>
#include <string.h>

/* Parameters of a statement; a number as text. */
enum { MOST = 5, NUMBER = 24, TEXT = 512 };

struct table {
    PGconn *connection;
    pthread_mutex_t lock; /* the connection is one thread's at a time */
    struct id mark;
    char path[TEXT], claim[NUMBER]; /* "": none yet */
    uint64_t last;                  /* the number of the last piece */
};

/* A statement, with its parameters; the last one has bytes. */
struct statement {
    const char *text, *words[MOST];
    size_t size;
};

/* What CONNINFO doesn't say: either side gives up a connection whose other side is silent, and the server a statement that takes long. */
static const char *const SETTINGS[] = {"keepalives_idle", "keepalives_interval", "keepalives_count", "tcp_user_timeout", "options",
                                       "dbname", NULL};
static const char SERVERS[] = "-c tcp_keepalives_idle=5 -c tcp_keepalives_interval=2 -c tcp_keepalives_count=3 "
                              "-c tcp_user_timeout=10000 -c statement_timeout=30000";

static const char CLAIM[] = "INSERT INTO sblog AS own VALUES ($1, 'claim', 0, 1, $5) ON CONFLICT (store, name, number) "
                            "DO UPDATE SET claim = own.claim + (own.bytes <> $5)::int, bytes = $5 RETURNING claim::text";
/* The number that follows: it is this life's already if an answer was lost. */
static const char RAISE[] = "UPDATE sblog SET claim = $3 + 1, bytes = $5 WHERE store = $1 AND name = 'claim' "
                            "AND (claim = $3 OR claim = $3 + 1 AND bytes = $5) RETURNING claim::text";
static const char READ[] = "SELECT number::text, bytes FROM sblog WHERE store = $1 AND name = $2 ORDER BY sblog.number";
/* A file has the number 0, and the pieces behind it follow; what is written whole has none. */
static const char WRITE[] =
    "WITH held AS (SELECT FROM sblog WHERE store = $1 AND name = 'claim' AND claim = $3 FOR UPDATE), "
    "gone AS (DELETE FROM sblog USING held WHERE store = $1 AND name = $2 AND number > $4) "
    "INSERT INTO sblog SELECT $1, $2, $4, $3, $5 FROM held "
    "ON CONFLICT (store, name, number) DO UPDATE SET claim = EXCLUDED.claim, bytes = EXCLUDED.bytes";
static const Oid TYPES[MOST] = {25, 25, 20, 20, 17}; /* text, text, bigint, bigint, bytea */

static int failed(const struct store *store, const char *why) {
    report("%s: %.*s", store->path, (int)strcspn(why, "\n"), why);
    return STATUS_IO;
}

/* Waits for the server, a second at most; false when patience ends. */
static bool waits(const struct table *table, short events, struct patience *patience) {
    struct watch watch;
    watch_begin(&watch, clock_now() + SECOND);
    watch_file(&watch, PQsocket(table->connection), events);
    watch_wait(&watch);
    return patience_lasts(patience);
}

/* Connects, or connects anew. */
static bool connects(const struct table *table, struct patience *patience) {
    PostgresPollingStatusType next = PQresetStart(table->connection) ? PGRES_POLLING_WRITING : PGRES_POLLING_FAILED;
    while (next == PGRES_POLLING_READING || next == PGRES_POLLING_WRITING) {
        if (!waits(table, next == PGRES_POLLING_READING ? POLLIN : POLLOUT, patience)) return false;
        next = PQresetPoll(table->connection);
    }
    return next == PGRES_POLLING_OK && PQsetnonblocking(table->connection, 1) == 0;
}

/* Sends what waits, and hears until there is a result, or none is left. */
static bool hears(const struct table *table, struct patience *patience) {
    for (;;) {
        int left = PQflush(table->connection);
        if (left < 0 || !PQconsumeInput(table->connection)) return false;
        if (left == 0 && !PQisBusy(table->connection)) return true;
        if (!waits(table, left > 0 ? POLLIN | POLLOUT : POLLIN, patience)) return false;
    }
}

/* What a statement answers; null if the connection broke, or patience ends. */
static PGresult *ask(const struct table *table, const struct statement *statement, struct patience *patience) {
    const int lengths[MOST] = {0, 0, 0, 0, (int)statement->size}, formats[MOST] = {0, 0, 0, 0, 1};
    PGresult *last = NULL;
    if (!PQsendQueryParams(table->connection, statement->text, MOST, TYPES, statement->words, lengths, formats, 1)) return NULL;
    while (hears(table, patience)) {
        PGresult *result = PQgetResult(table->connection);
        if (!result) return last;
        PQclear(last);
        last = result;
    }
    PQclear(last);
    return NULL;
}

static bool is_done(const PGresult *result) {
    ExecStatusType status = PQresultStatus(result);
    return status == PGRES_COMMAND_OK || status == PGRES_TUPLES_OK;
}

/* Takes the number that CLAIM or RAISE answers; none if the claim is another life's, as the next write will tell. */
static bool keep_claim(struct table *table, PGresult *result) {
    if (is_done(result) && PQntuples(result) == 1) snprintf(table->claim, NUMBER, "%s", PQgetvalue(result, 0, 0));
    bool is_asked = is_done(result);
    PQclear(result);
    return is_asked;
}

static struct statement with_mark(const struct store *store, const char *text) {
    const struct table *table = store->place;
    const char *claim = *table->claim ? table->claim : NULL;
    return (struct statement){text, {store->key, NULL, claim, NULL, (const char *)table->mark.bytes}, ID_BYTES};
}

/* Connects anew, and claims anew what this life has claimed. */
static bool comes_back(const struct store *store, struct patience *patience) {
    struct table *table = store->place;
    const struct statement raise = with_mark(store, RAISE);
    return connects(table, patience) && (!*table->claim || keep_claim(table, ask(table, &raise, patience)));
}

/* Runs a statement, again and again while the server is silent; what it answers, or null, and why is reported. Run twice, each does
   the same as run once. */
static PGresult *run(const struct store *store, const struct statement *statement) {
    struct table *table = store->place;
    struct patience patience;
    PGresult *result = NULL;
    pthread_mutex_lock(&table->lock);
    patience_begin(&patience, store->path);
    bool is_there = PQstatus(table->connection) == CONNECTION_OK;
    do {
        if (is_there || comes_back(store, &patience)) result = ask(table, statement, &patience);
        is_there = false;
    } while (!result && !store->is_looked_at && patience_waits(&patience));
    if (result) patience_ends(&patience);
    else report("%s: it doesn't answer", store->path);
    const char *why = result ? PQresultErrorMessage(result) : PQerrorMessage(table->connection);
    bool is_taken = is_done(result);
    if (!is_taken && strcspn(why, "\n") > 0) failed(store, why);
    pthread_mutex_unlock(&table->lock);
    if (is_taken) return result;
    PQclear(result);
    return NULL;
}

static int postgres_claim(struct store *store) {
    struct table *table = store->place;
    const struct statement claim = with_mark(store, CLAIM);
    if (store->is_looked_at) return STATUS_DONE;
    PGresult *result = run(store, &claim);
    return result && keep_claim(table, result) ? STATUS_DONE : STATUS_IO;
}

static int postgres_read(const struct store *store, const char *name, uint8_t **bytes, size_t *size) {
    struct table *table = store->place;
    struct bytes all = {0};
    PGresult *result = run(store, &(struct statement){READ, {store->key, name}, 0});
    if (!result) return STATUS_IO;
    int rows = PQntuples(result);
    bool has_memory = true;
    for (int row = 0; row < rows && has_memory; row++) {
        uint64_t number = strtoull(PQgetvalue(result, row, 0), NULL, 10);
        if (number > table->last) table->last = number;
        has_memory = bytes_add(&all, PQgetvalue(result, row, 1), (size_t)PQgetlength(result, row, 1));
    }
    PQclear(result);
    *size = all.size;
    has_memory = has_memory && bytes_add(&all, "", 1);
    *bytes = rows > 0 ? all.at : NULL;
    return has_memory ? STATUS_DONE : store_lacks_memory(store);
}

static int put(const struct store *store, const char *name, uint64_t piece, const void *bytes, size_t size) {
    struct table *table = store->place;
    char number[NUMBER];
    snprintf(number, sizeof number, "%" PRIu64, piece);
    PGresult *result = run(store, &(struct statement){WRITE, {store->key, name, table->claim, number, size > 0 ? bytes : ""}, size});
    if (!result) return STATUS_IO;
    bool is_own = !strcmp(PQcmdTuples(result), "1");
    PQclear(result);
    return is_own ? STATUS_DONE : store_is_lost(store);
}

static int postgres_write(const struct store *store, const char *name, const void *bytes, size_t size) {
    return put(store, name, 0, bytes, size);
}

/* The numbers of pieces go on, also where what they follow is written anew. */
static int postgres_append(const struct store *store, const char *name, const void *bytes, size_t size) {
    struct table *table = store->place;
    return put(store, name, ++table->last, bytes, size);
}

static int postgres_open(struct store *store, const char *where) {
    struct table *table = calloc(1, sizeof *table);
    const char *const values[] = {"5", "2", "3", "10000", SERVERS, where, NULL}; /* `where` goes first in what it says itself */
    store->place = table;
    if (!table) return store_lacks_memory(store);
    pthread_mutex_init(&table->lock, NULL);
    table->connection = PQconnectStartParams(SETTINGS, values, 1);
    const char *name = PQdb(table->connection), *host = PQhost(table->connection);
    snprintf(table->path, TEXT, "postgres:%s@%s", name ? name : "", host ? host : "");
    store->path = table->path;
    if (PQstatus(table->connection) == CONNECTION_BAD) return failed(store, PQerrorMessage(table->connection));
    return id_draw(&table->mark);
}

static void postgres_close(struct store *store) {
    struct table *table = store->place;
    PQfinish(table->connection);
}

const struct storage postgres_storage = {postgres_open, postgres_claim, postgres_read, postgres_write, postgres_append, postgres_close};

#else

const struct storage postgres_storage = {0};

#endif
