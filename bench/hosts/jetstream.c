/* The same over JetStream with files: jetstream make URL STREAM.. makes streams; jetstream stage URL FROM TO publishes each message of a
   stream to the next one, and acknowledges it once that has it; jetstream passes URL FROM LAST COUNT AHEAD publishes to the first stream
   and reads the last. */
#include "times.h"

#include <nats/nats.h>
#include <pthread.h>
#include <unistd.h>

enum { RING = 1 << 16, NAME = 128, PENDING = 8192, KEPT = 100000, PATIENCE = 60000 };

static natsConnection *nats;
static jsCtx *jetstream;
static pthread_mutex_t lock = PTHREAD_MUTEX_INITIALIZER;
static pthread_cond_t more = PTHREAD_COND_INITIALIZER;

static void must(natsStatus status) {
    if (status != NATS_OK) fails(natsStatus_GetText(status));
}

static void connect_to(const char *url, bool is_at_once) {
    natsOptions *options;
    jsOptions plain;
    must(natsOptions_Create(&options));
    must(natsOptions_SetURL(options, url));
    must(natsOptions_SetSendAsap(options, is_at_once));
    must(natsConnection_Connect(&nats, options));
    jsOptions_Init(&plain);
    must(natsConnection_JetStream(&jetstream, nats, &plain));
}

static void make(const char *name) {
    jsStreamConfig config;
    jsStreamConfig_Init(&config);
    config.Name = name;
    config.Subjects = &name;
    config.SubjectsLen = 1;
    config.Storage = js_FileStorage;
    config.MaxMsgs = KEPT;
    must(js_AddStream(NULL, jetstream, &config, NULL, NULL));
}

/* Takes what comes to a stream from now on. */
static void consume(const char *stream, natsMsgHandler handler) {
    natsSubscription *subscription;
    jsSubOptions options;
    jsSubOptions_Init(&options);
    options.ManualAck = true;
    options.Stream = stream;
    options.Config.AckPolicy = js_AckExplicit;
    options.Config.MaxAckPending = PENDING;
    options.Config.DeliverPolicy = js_DeliverNew;
    must(js_Subscribe(&subscription, jetstream, stream, handler, NULL, NULL, &options, NULL));
}

static struct {
    const char *to;
    char inbox[NAME / 2], replies[RING][NAME]; /* where to acknowledge what was published and isn't stored yet */
    unsigned long next;
} stage;

static void moves(natsConnection *from, natsSubscription *subscription, natsMsg *message, void *none) {
    (void)from, (void)subscription, (void)none;
    char reply[NAME];
    unsigned long place = stage.next++ % RING;
    pthread_mutex_lock(&lock);
    strncpy(stage.replies[place], natsMsg_GetReply(message), NAME - 1);
    pthread_mutex_unlock(&lock);
    snprintf(reply, sizeof reply, "%s.%lu", stage.inbox, place);
    must(natsConnection_PublishRequest(nats, stage.to, reply, natsMsg_GetData(message), natsMsg_GetDataLength(message)));
    natsMsg_Destroy(message);
}

static void is_stored(natsConnection *from, natsSubscription *subscription, natsMsg *message, void *none) {
    (void)from, (void)subscription, (void)none;
    unsigned long place = strtoul(strrchr(natsMsg_GetSubject(message), '.') + 1, NULL, 10);
    if (strstr(natsMsg_GetData(message), "error")) fails(natsMsg_GetData(message));
    pthread_mutex_lock(&lock);
    must(natsConnection_PublishString(nats, stage.replies[place], "+ACK"));
    pthread_mutex_unlock(&lock);
    natsMsg_Destroy(message);
}

static void run_stage(const char *from, const char *to) {
    natsSubscription *subscription;
    char all[NAME];
    stage.to = to;
    snprintf(stage.inbox, sizeof stage.inbox, "stored.%d", getpid());
    snprintf(all, sizeof all, "%s.*", stage.inbox);
    must(natsConnection_Subscribe(&subscription, nats, all, is_stored, NULL));
    consume(from, moves);
    for (;;) pause();
}

static struct times times;

static void shows(natsConnection *from, natsSubscription *subscription, natsMsg *message, void *none) {
    (void)from, (void)subscription, (void)none;
    pthread_mutex_lock(&lock);
    times_show(&times, natsMsg_GetData(message), (size_t)natsMsg_GetDataLength(message));
    pthread_cond_signal(&more);
    pthread_mutex_unlock(&lock);
    natsMsg_Ack(message, NULL);
    natsMsg_Destroy(message);
}

static void run_passes(const char *from, const char *last) {
    consume(last, shows);
    pthread_mutex_lock(&lock);
    while (!times_are_over(&times)) {
        uint8_t payload[SIZE];
        if (!times_may_send(&times)) {
            pthread_cond_wait(&more, &lock);
            continue;
        }
        times_send(&times, payload);
        pthread_mutex_unlock(&lock);
        must(natsConnection_Publish(nats, from, payload, SIZE));
        pthread_mutex_lock(&lock);
    }
    pthread_mutex_unlock(&lock);
    must(natsConnection_FlushTimeout(nats, PATIENCE));
    times_print(&times);
}

int main(int argc, char **argv) {
    if (argc < 4) return 2;
    bool makes = !strcmp(argv[1], "make"), passes = argc == 7;
    if (passes) times = times_begin(argv[5], argv[6]);
    connect_to(argv[2], getenv("AT_ONCE") != NULL);
    for (int i = 3; makes && i < argc; i++) make(argv[i]);
    if (passes) run_passes(argv[3], argv[4]);
    else if (!makes) run_stage(argv[3], argv[4]);
    return 0;
}
