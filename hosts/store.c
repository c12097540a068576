#include "store.h"

#include "report.h"

#include <errno.h>
#include <inttypes.h>
#include <stdio.h>
#include <stdlib.h>
#include <string.h>

enum { IDENTITY_LIMIT = 1024, NUMBER_TEXT = 32 };

static const char *const IDENTITY = "identity", *const INCARNATION = "incarnation", *const INEXACT = "inexact";
static const char *const FOLLOWER = "follower";
static const char *const CLUSTER_ID = "cluster-id", *const STORE_ID = "store-id";

/* The first lines of the file `identity`, in their order, and what another one means. The ids are after them. */
static const struct {
    const char *word, *otherwise;
} LINES[] = {
    {"sblog-store", "it is of another version of this program"},
    {"cluster", "it is the store of another cluster"},
    {"process", "it is the store of another process"},
    {"processes", "the cluster had other processes when this store began"},
    {"image", "the image isn't the one that this process began with"},
    {"durable", "whether the process is durable was fixed when this store began, and --volatile asks for no"},
};
enum { LINE_COUNT = sizeof LINES / sizeof *LINES };

static void identity_of(const struct owner *owner, char text[LINE_COUNT][IDENTITY_LIMIT]) {
    const struct cluster *cluster = owner->cluster;
    strcpy(text[0], "3");
    strcpy(text[1], cluster->name);
    snprintf(text[2], IDENTITY_LIMIT, "%d %s", owner->me, cluster->processes[owner->me].name);
    *text[3] = 0;
    for (int p = 1; p <= cluster->count; p++) {
        if (p > 1) strcat(text[3], " ");
        strcat(text[3], cluster->processes[p].name);
    }
    if (owner->image) snprintf(text[4], IDENTITY_LIMIT, "sha256 %s", owner->image);
    else strcpy(text[4], "none");
    strcpy(text[5], owner->durable ? "yes" : "no");
}

/* Compares the stored lines with those that they have to be, and reports the first that is another one. */
static int compare(const struct store *store, const struct owner *owner, char *stored, char **rest) {
    static char wanted[LINE_COUNT][IDENTITY_LIMIT];
    identity_of(owner, wanted);
    for (int i = 0; i < LINE_COUNT; i++) {
        const char *line = strtok_r(i == 0 ? stored : NULL, "\n", rest);
        size_t size = strlen(LINES[i].word);
        bool is_line = line && !strncmp(line, LINES[i].word, size) && line[size] == ' ';
        if (is_line && !strcmp(line + size + 1, wanted[i])) continue;
        if (!is_line) report("%s/%s: the line is missing: %s", store->path, IDENTITY, LINES[i].word);
        else report("%s: %s: %s is stored, and %s was asked for", store->path, LINES[i].otherwise, line + size + 1, wanted[i]);
        return STATUS_STORE;
    }
    return STATUS_DONE;
}

/* A line of an id, or of numbers; false for another one. */
static bool read_id_line(char *line, struct ids *ids) {
    char text[ID_TEXT], word[ID_TEXT];
    int process;
    if (numbers_read(line, &ids->before)) return true;
    if (sscanf(line, "cluster-id %32s", text) == 1) return !strcmp(text, "none") || id_read(text, &ids->cluster);
    if (sscanf(line, "store-id %d %32s", &process, word) != 2 || process < 1 || process > PROCESS_LIMIT) return false;
    return id_read(word, &ids->stores[process]);
}

/* A process has the id of its store, and the gateway that of its cluster. */
static int read_ids(const struct store *store, int me, char **rest, struct ids *ids) {
    memset(ids, 0, sizeof *ids);
    for (char *line; (line = strtok_r(NULL, "\n", rest));) {
        if (read_id_line(line, ids)) continue;
        report("%s/%s: the line isn't one of this program: %s", store->path, IDENTITY, line);
        return STATUS_STORE;
    }
    if (!id_is_none(me == 0 ? &ids->cluster : &ids->stores[me])) return STATUS_DONE;
    report("%s/%s: the line is missing: %s", store->path, IDENTITY, me == 0 ? CLUSTER_ID : STORE_ID);
    return STATUS_STORE;
}

static char *write_ids(char *at, const struct ids *ids) {
    char text[ID_TEXT];
    id_text(&ids->cluster, text);
    at += sprintf(at, "%s %s\n", CLUSTER_ID, id_is_none(&ids->cluster) ? "none" : text);
    for (int p = 1; p <= PROCESS_LIMIT; p++) {
        if (id_is_none(&ids->stores[p])) continue;
        id_text(&ids->stores[p], text);
        at += sprintf(at, "%s %d %s\n", STORE_ID, p, text);
    }
    return numbers_write(&ids->before, at);
}

int store_write_identity(const struct store *store, const struct owner *owner, const struct ids *ids) {
    static char lines[LINE_COUNT][IDENTITY_LIMIT], text[2 * LINE_COUNT * IDENTITY_LIMIT];
    identity_of(owner, lines);
    char *at = text;
    for (int i = 0; i < LINE_COUNT; i++) at += sprintf(at, "%s %s\n", LINES[i].word, lines[i]);
    at = write_ids(at, ids);
    return store_write(store, IDENTITY, text, (size_t)(at - text));
}

int store_read_identity(const struct store *store, char **text) {
    uint8_t *stored;
    size_t size;
    int status = store_read(store, IDENTITY, &stored, &size);
    *text = (char *)stored;
    return status;
}

int store_judge(const struct store *store, const struct owner *owner, struct ids *ids, bool *is_new) {
    char *stored, *rest = NULL;
    int status = store_read_identity(store, &stored);
    *is_new = !stored;
    if (stored) status = compare(store, owner, stored, &rest);
    if (status == STATUS_DONE && stored) status = read_ids(store, owner->me, &rest, ids);
    free(stored);
    return status;
}

/* The words of --store before a place that is no folder. */
static const char *const NATS = "nats:", *const POSTGRES = "postgres:";

bool store_is_remote(const struct store *store) { return store->storage != &folder_storage; }

int store_find(struct store *store, const char *where, const char *cluster, int me, bool looks) {
    *store = (struct store){.storage = &folder_storage, .path = where, .folder = -1, .lock = -1, .is_looked_at = looks};
    if (!strncmp(where, NATS, strlen(NATS))) store->storage = &nats_storage;
    if (!strncmp(where, POSTGRES, strlen(POSTGRES))) store->storage = &postgres_storage;
    if (!store_is_remote(store)) return store->storage->open(store, where);
    store->path = "the store"; /* until it has a name without a password */
    if (!cluster || me < 0) {
        report("--cluster and --me are needed: other processes' stores lie there, too");
        return STATUS_COMMAND;
    }
    if (!store->storage->open) {
        report("%.*s: this program was built where the library for it isn't", (int)strcspn(where, ":"), where);
        return STATUS_COMMAND;
    }
    snprintf(store->key, sizeof store->key, "%s.%d", cluster, me);
    return store->storage->open(store, strchr(where, ':') + 1);
}

int store_open(struct store *store, const char *where, const struct owner *owner, bool looks, struct ids *ids, bool *is_new) {
    *is_new = true;
    int status = store_find(store, where, owner->cluster->name, owner->me, looks);
    if (status == STATUS_DONE) status = store->storage->claim(store);
    return status == STATUS_DONE ? store_judge(store, owner, ids, is_new) : status;
}

int store_write(const struct store *store, const char *name, const void *bytes, size_t size) {
    return store->is_looked_at ? STATUS_DONE : store->storage->write(store, name, bytes, size);
}

int store_read(const struct store *store, const char *name, uint8_t **bytes, size_t *size) {
    *bytes = NULL;
    *size = 0;
    return store->storage->read(store, name, bytes, size);
}

int store_confirm(const struct store *store) { return store_write(store, "confirmed", "", 0); }

int store_is_lost(const struct store *store) {
    report("%s: another life of this process has claimed the store: this one writes nothing more", store->path);
    return STATUS_STORE;
}

int store_lacks_memory(const struct store *store) {
    report("%s: there is no memory", store->path);
    return STATUS_MEMORY;
}

void store_close(struct store *store) { store->storage->close(store); }

static int read_number(const struct store *store, const char *name, uint64_t *number) {
    uint8_t *text;
    size_t size;
    *number = 0;
    int status = store_read(store, name, &text, &size);
    if (status != STATUS_DONE || !text) return status;
    char *end;
    errno = 0;
    *number = strtoull((char *)text, &end, 10);
    bool is_number = errno == 0 && end != (char *)text && !strcmp(end, "\n") && *number >= 1 && *number < (uint64_t)1 << 62;
    free(text);
    if (is_number) return STATUS_DONE;
    report("%s/%s holds no incarnation", store->path, name);
    return STATUS_STORE;
}

static int write_number(const struct store *store, const char *name, uint64_t number) {
    char text[NUMBER_TEXT];
    int size = snprintf(text, sizeof text, "%" PRIu64 "\n", number);
    return store_write(store, name, text, (size_t)size);
}

int store_read_incarnation(const struct store *store, uint64_t *incarnation) { return read_number(store, INCARNATION, incarnation); }

int store_write_incarnation(const struct store *store, uint64_t incarnation) { return write_number(store, INCARNATION, incarnation); }

int store_read_inexact(const struct store *store, uint64_t *incarnation) { return read_number(store, INEXACT, incarnation); }

int store_write_inexact(const struct store *store, uint64_t incarnation) { return write_number(store, INEXACT, incarnation); }

int store_read_follower(const struct store *store, char **name) {
    uint8_t *text;
    size_t size;
    int status = store_read(store, FOLLOWER, &text, &size);
    *name = (char *)text;
    return status;
}

int store_write_follower(const struct store *store, const char *name) { return store_write(store, FOLLOWER, name, strlen(name)); }
