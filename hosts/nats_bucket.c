/* The calls of NATS's client for a store in a bucket. Each waits for a server that is away, as long as patience lasts. */
#include "nats_bucket.h"
#include "report.h"

#ifdef WITH_NATS

#include "patience.h"

#include <inttypes.h>
#include <stdio.h>
#include <string.h>

enum { JET = 128 };                 /* bytes that JetStream's head has at most, before a value: a revision, and whose value it has to be */
enum { TRY = 2000, SUBJECT = 512 }; /* milliseconds of a try; bytes of a key's name */

static const char STREAM[] = "KV_"; /* before a bucket's name */

static const char *subject_of(const struct store *store, struct key key, char text[SUBJECT]) {
    const struct bucket *bucket = store->place;
    int size = snprintf(text, SUBJECT, "$KV.%s.%s", bucket->stream + sizeof STREAM - 1, store->key);
    if (key.piece > 0) snprintf(text + size, SUBJECT - (size_t)size, ".%" PRIu64 ".%" PRIu64, key.writer, key.piece);
    return text;
}

static int failed(const struct store *store, natsStatus status, jsErrCode code) {
    if (code == JSStreamNotFoundErr) report("%s: there is no such bucket; its owner makes it (nats kv add)", store->path);
    else report("%s: %s (%d)", store->path, natsStatus_GetText(status), (int)code);
    return STATUS_IO;
}

bool bucket_fits(const struct store *store, size_t size) {
    int64_t most = natsConnection_GetMaxPayload(((const struct bucket *)store->place)->connection);
    if (most <= 0 || size + JET <= (size_t)most) return true;
    report("%s: it has a value of %zu bytes, and its server's max_payload is %" PRId64 ": make that greater", store->path, size, most);
    return false;
}

/* Whether it has to be tried again, since the server is away, or its replicas choose a leader. */
static bool is_away(natsStatus status, jsErrCode code, struct patience *patience) {
    bool is_silent = status == NATS_TIMEOUT || status == NATS_NO_RESPONDERS || status == NATS_CONNECTION_DISCONNECTED ||
                     status == NATS_NOT_YET_CONNECTED || code == JSClusterNotAvailErr;
    if (!is_silent) patience_ends(patience);
    return is_silent && patience_waits(patience);
}

int bucket_get(const struct store *store, struct key key, struct bytes *value, uint64_t *revision) {
    const struct bucket *bucket = store->place;
    struct patience patience;
    char subject[SUBJECT];
    jsOptions options = {.Wait = TRY};
    natsMsg *found = NULL;
    natsStatus status;
    jsErrCode code;
    *value = (struct bytes){0};
    patience_begin(&patience, store->path);
    do {
        code = 0;
        status = js_GetLastMsg(&found, bucket->jet, bucket->stream, subject_of(store, key, subject), &options, &code);
    } while (is_away(status, code, &patience));
    *revision = status == NATS_OK ? natsMsg_GetSequence(found) : 0;
    if (status != NATS_OK) return code == JSNoMessageFoundErr ? STATUS_DONE : failed(store, status, code);
    size_t size = (size_t)natsMsg_GetDataLength(found);
    bool has_memory = size < HEAD || bytes_add(value, natsMsg_GetData(found), size); /* a key that was emptied by hand has none */
    natsMsg_Destroy(found);
    return has_memory ? STATUS_DONE : store_lacks_memory(store);
}

/* Another value is there: a try before, whose answer was lost, may have put this one there. */
static int judge_moved(const struct store *store, struct key key, const struct bytes *value, uint64_t *revision) {
    struct bytes found;
    int status = bucket_get(store, key, &found, revision);
    bool is_own = found.size == value->size && !memcmp(found.at, value->at, value->size);
    bytes_end(&found);
    return status != STATUS_DONE || is_own ? status : MOVED;
}

int bucket_put(const struct store *store, struct key key, struct key covered, const void *bytes, size_t size, uint64_t *revision) {
    const struct bucket *bucket = store->place;
    struct patience patience;
    char subject[SUBJECT];
    uint8_t head[HEAD];
    struct bytes value = {0};
    jsPubOptions options = {.MaxWait = TRY, .ExpectLastSubjectSeq = *revision, .ExpectNoMessage = *revision == 0};
    jsPubAck *taken = NULL;
    natsStatus status;
    jsErrCode code;
    number_put(head, bucket->claim, WORD);
    memcpy(head + MARK, bucket->mark.bytes, WRITER - MARK);
    number_put(head + WRITER, covered.writer, WORD);
    number_put(head + BASE, covered.piece, WORD);
    if (!bytes_add(&value, head, HEAD) || !bytes_add(&value, bytes, size)) return store_lacks_memory(store);
    patience_begin(&patience, store->path);
    do {
        code = 0;
        status = js_Publish(&taken, bucket->jet, subject_of(store, key, subject), value.at, (int)value.size, &options, &code);
    } while (is_away(status, code, &patience));
    int result = STATUS_DONE;
    if (status == NATS_OK) *revision = taken->Sequence;
    else if (code == JSStreamWrongLastSequenceErr) result = judge_moved(store, key, &value, revision);
    else result = bucket_fits(store, value.size) ? failed(store, status, code) : STATUS_IO;
    jsPubAck_Destroy(taken);
    bytes_end(&value);
    return result;
}

void bucket_purge(const struct store *store, uint64_t writer, uint64_t revision) {
    const struct bucket *bucket = store->place;
    char subject[SUBJECT];
    jsOptions options = {.Stream = {.Purge = {.Subject = subject, .Sequence = revision}}};
    size_t size = strlen(subject_of(store, FILES, subject));
    snprintf(subject + size, SUBJECT - size, ".%" PRIu64 ".*", writer);
    js_PurgeStream(bucket->jet, bucket->stream, &options, NULL);
}

/* Connects, and waits for the server. A connection that took too long is closed by the client's library. */
static int wait_connected(struct bucket *bucket) {
    struct patience patience;
    natsStatus status = NATS_OK;
    bool is_there = false, may_come = true;
    patience_begin(&patience, bucket->path);
    while (!is_there && may_come) {
        if (bucket->connection && natsConnection_IsClosed(bucket->connection)) {
            natsConnection_Destroy(bucket->connection);
            bucket->connection = NULL;
        }
        if (!bucket->connection) status = nats_connect(&bucket->connection, bucket->url);
        is_there = bucket->connection && natsConnection_Status(bucket->connection) == NATS_CONN_STATUS_CONNECTED;
        bool is_silent = bucket->connection || status == NATS_TIMEOUT || status == NATS_NO_SERVER;
        may_come = is_there || (is_silent && patience_waits(&patience));
    }
    if (is_there) patience_ends(&patience);
    else report("%s: %s", bucket->path, bucket->connection ? "it doesn't answer" : natsStatus_GetText(status));
    return is_there ? STATUS_DONE : STATUS_IO;
}

/* URL/BUCKET. */
int bucket_open(struct store *store, const char *where) {
    static struct bucket own, *bucket = &own; /* a program has one store */
    const char *slash = strrchr(where, '/');
    store->place = bucket;
    if (!slash || slash == where || slash[-1] == '/' || !slash[1] || strlen(where) > URL_TEXT / 2) {
        report("--store nats: needs URL/BUCKET");
        return STATUS_COMMAND;
    }
    snprintf(bucket->path, URL_TEXT, "nats:%s", nats_shown(where));
    snprintf(bucket->url, URL_TEXT, "%.*s", (int)(slash - where), where);
    snprintf(bucket->stream, URL_TEXT, "%s%s", STREAM, slash + 1);
    store->path = bucket->path;
    if (wait_connected(bucket) != STATUS_DONE) return STATUS_IO;
    natsStatus status = natsConnection_JetStream(&bucket->jet, bucket->connection, NULL);
    return status == NATS_OK ? id_draw(&bucket->mark) : failed(store, status, 0);
}

void bucket_close(struct store *store) { natsConnection_Close(((struct bucket *)store->place)->connection); }

#endif
