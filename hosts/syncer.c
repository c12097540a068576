#include "syncer.h"

#include "watch.h"

#include <errno.h>
#include <signal.h>
#include <sys/eventfd.h>
#include <unistd.h>

/* Syncs the file, or puts what waited, nothing too, to its store, which tells whether it is this life's still; a fault. */
static int make_durable(const struct syncer *syncer, int file, const struct bytes *going) {
    if (!syncer->store) return fdatasync(file) == 0 ? 0 : errno;
    return syncer->store->storage->append(syncer->store, syncer->name, going->at, going->size);
}

/* Whether all is done, or another thread does it. */
static bool rests(const struct syncer *syncer) { return syncer->synced >= syncer->asked || syncer->is_busy; }

/* All that was asked for is one sync. The lock is held before and after it. */
static void sync_once(struct syncer *syncer) {
    uint64_t asked = syncer->asked, since = clock_now();
    int file = syncer->file;
    struct bytes going = syncer->waiting;
    syncer->waiting = (struct bytes){0};
    syncer->is_busy = true;
    pthread_mutex_unlock(&syncer->lock);
    int fault = make_durable(syncer, file, &going);
    bytes_end(&going);
    pthread_mutex_lock(&syncer->lock);
    syncer->is_busy = false;
    histogram_add(&syncer->took, clock_now() - since);
    if (fault) syncer->fault = fault;
    else if (syncer->synced < asked) syncer->synced = asked;
}

static void *sync_on(void *of) {
    struct syncer *syncer = of;
    pthread_mutex_lock(&syncer->lock);
    for (;;) {
        while (rests(syncer) && !syncer->is_over) pthread_cond_wait(&syncer->wanted, &syncer->lock);
        if (rests(syncer) || syncer->fault) break;
        sync_once(syncer);
        pthread_cond_signal(&syncer->rests);
        eventfd_write(syncer->event, 1);
    }
    pthread_mutex_unlock(&syncer->lock);
    return NULL;
}

bool syncer_begin(struct syncer *syncer, const struct store *store, const char *name) {
    sigset_t all, before; /* signals are for the main thread */
    *syncer = (struct syncer){.file = -1, .store = store, .name = name};
    pthread_mutex_init(&syncer->lock, NULL);
    pthread_cond_init(&syncer->wanted, NULL);
    pthread_cond_init(&syncer->rests, NULL);
    syncer->event = eventfd(0, EFD_NONBLOCK | EFD_CLOEXEC);
    sigfillset(&all);
    pthread_sigmask(SIG_SETMASK, &all, &before);
    syncer->has_thread = syncer->event >= 0 && pthread_create(&syncer->thread, NULL, sync_on, syncer) == 0;
    pthread_sigmask(SIG_SETMASK, &before, NULL);
    return syncer->has_thread;
}

bool syncer_add(struct syncer *syncer, const void *bytes, size_t size) {
    pthread_mutex_lock(&syncer->lock);
    bool is_added = bytes_add(&syncer->waiting, bytes, size);
    pthread_mutex_unlock(&syncer->lock);
    return is_added;
}

void syncer_drop(struct syncer *syncer) {
    pthread_mutex_lock(&syncer->lock);
    bytes_end(&syncer->waiting);
    syncer->synced = syncer->asked;
    while (syncer->is_busy) pthread_cond_wait(&syncer->rests, &syncer->lock);
    pthread_mutex_unlock(&syncer->lock);
}

void syncer_turns_to(struct syncer *syncer, int file) {
    pthread_mutex_lock(&syncer->lock);
    syncer->file = file;
    syncer->synced = syncer->asked;
    pthread_mutex_unlock(&syncer->lock);
}

uint64_t syncer_ask(struct syncer *syncer) {
    pthread_mutex_lock(&syncer->lock);
    uint64_t asked = ++syncer->asked;
    pthread_cond_signal(&syncer->wanted);
    pthread_mutex_unlock(&syncer->lock);
    return asked;
}

uint64_t syncer_sync(struct syncer *syncer) {
    pthread_mutex_lock(&syncer->lock);
    bool is_first = rests(syncer) && !syncer->is_busy && !syncer->store && !syncer->fault;
    bool is_told = syncer->told == syncer->synced;
    uint64_t asked = ++syncer->asked;
    if (is_first) sync_once(syncer);
    else pthread_cond_signal(&syncer->wanted);
    if (is_first && is_told) syncer->told = syncer->synced;
    pthread_mutex_unlock(&syncer->lock);
    return asked;
}

uint64_t syncer_synced(struct syncer *syncer, int *fault) {
    eventfd_t count;
    pthread_mutex_lock(&syncer->lock);
    uint64_t synced = syncer->synced;
    *fault = syncer->fault;
    if (synced != syncer->told || *fault) eventfd_read(syncer->event, &count);
    syncer->told = synced;
    pthread_mutex_unlock(&syncer->lock);
    return synced;
}

struct histogram syncer_took(struct syncer *syncer) {
    pthread_mutex_lock(&syncer->lock);
    struct histogram took = syncer->took;
    pthread_mutex_unlock(&syncer->lock);
    return took;
}

void syncer_end(struct syncer *syncer) {
    if (!syncer->has_thread) return;
    pthread_mutex_lock(&syncer->lock);
    syncer->is_over = true;
    pthread_cond_signal(&syncer->wanted);
    pthread_mutex_unlock(&syncer->lock);
    pthread_join(syncer->thread, NULL);
    syncer->has_thread = false;
}
