#include "tls.h"

#include "report.h"

#ifdef WITH_TLS

#include <errno.h>
#include <openssl/err.h>
#include <openssl/ssl.h>
#include <openssl/x509v3.h>
#include <poll.h>
#include <stdio.h>
#include <stdlib.h>
#include <string.h>

enum { NAME_SIZE = 2 * NAME_LIMIT + 2, PATH_SIZE = 4096, NAME_FLAGS = X509_CHECK_FLAG_NO_WILDCARDS | X509_CHECK_FLAG_NEVER_CHECK_SUBJECT };

struct tls {
    SSL *connection;
    bool is_done;   /* the handshake is */
    short awaits;   /* as poll has it */
    uint32_t names; /* whose the other side may have; once the handshake is done, those that it has */
};

/* What all connections have in common, and what the last one was refused for. */
static struct {
    SSL_CTX *context;
    const char *folder, *why;
    const struct cluster *cluster;
    int me;
    uint64_t refused;
} all;

static void name_of(int process, char name[NAME_SIZE]) {
    const char *first = process <= PROCESS_LIMIT ? all.cluster->processes[process].name : "program";
    snprintf(name, NAME_SIZE, "%s.%s", first, all.cluster->name);
}

static bool has_name(X509 *certificate, int process) {
    char name[NAME_SIZE];
    name_of(process, name);
    return X509_check_host(certificate, name, 0, NAME_FLAGS, NULL) == 1;
}

static uint32_t names_in(X509 *certificate) {
    uint32_t names = has_name(certificate, PROCESS_LIMIT + 1) ? TLS_PROGRAM : 0;
    for (int p = 0; p <= all.cluster->count; p++)
        if (p != all.me && has_name(certificate, p)) names |= UINT32_C(1) << p;
    return names;
}

/* No key waits for somebody who types a password. */
static int no_password(char *text, int size, int writes, void *of) {
    (void)text, (void)size, (void)writes, (void)of;
    return -1;
}

static bool is_refused(const char *file) {
    const char *why = ERR_reason_error_string(ERR_peek_last_error());
    report("%s/%s: %s", all.folder, file, why ? why : "it can't be read");
    return false;
}

static bool is_own(X509 *certificate) {
    char name[NAME_SIZE];
    name_of(all.me, name);
    bool is_over = X509_cmp_current_time(X509_get0_notAfter(certificate)) < 0;
    if (is_over) report("%s/tls.crt: it has expired", all.folder);
    else if (!has_name(certificate, all.me)) report("%s/tls.crt: its name isn't %s", all.folder, name);
    else return true;
    return false;
}

/* Puts the three files into a context; why not is reported. */
static bool reads(SSL_CTX *context) {
    char own[PATH_SIZE], key[PATH_SIZE], authority[PATH_SIZE];
    snprintf(own, sizeof own, "%s/tls.crt", all.folder);
    snprintf(key, sizeof key, "%s/tls.key", all.folder);
    snprintf(authority, sizeof authority, "%s/ca.crt", all.folder);
    ERR_clear_error();
    SSL_CTX_set_default_passwd_cb(context, no_password);
    if (SSL_CTX_use_certificate_chain_file(context, own) != 1) return is_refused("tls.crt");
    if (SSL_CTX_use_PrivateKey_file(context, key, SSL_FILETYPE_PEM) != 1) return is_refused("tls.key");
    if (SSL_CTX_load_verify_locations(context, authority, NULL) != 1) return is_refused("ca.crt");
    return is_own(SSL_CTX_get0_certificate(context));
}

bool tls_read_again(void) {
    SSL_CTX *context = SSL_CTX_new(TLS_method());
    bool is_read = context && SSL_CTX_set_min_proto_version(context, TLS1_3_VERSION) == 1 && reads(context);
    if (!is_read) {
        SSL_CTX_free(context);
        return false;
    }
    SSL_CTX_set_verify(context, SSL_VERIFY_PEER | SSL_VERIFY_FAIL_IF_NO_PEER_CERT, NULL);
    SSL_CTX_set_session_cache_mode(context, SSL_SESS_CACHE_OFF);
    SSL_CTX_set_num_tickets(context, 0);
    SSL_CTX_set_mode(context, SSL_MODE_ENABLE_PARTIAL_WRITE | SSL_MODE_ACCEPT_MOVING_WRITE_BUFFER);
    SSL_CTX_free(all.context);
    all.context = context;
    return true;
}

int tls_open(const char *folder, const struct cluster *cluster, int me) {
    all.folder = folder;
    all.cluster = cluster;
    all.me = me;
    return tls_read_again() ? STATUS_DONE : STATUS_IO;
}

static struct tls *begin(int file, uint32_t names) {
    struct tls *tls = malloc(sizeof *tls);
    SSL *connection = tls ? SSL_new(all.context) : NULL;
    if (connection && SSL_set_fd(connection, file) == 1) {
        *tls = (struct tls){.connection = connection, .awaits = POLLIN, .names = names};
        return tls;
    }
    SSL_free(connection);
    free(tls);
    return NULL;
}

struct tls *tls_accept(int file, uint32_t names) {
    struct tls *tls = begin(file, names);
    if (tls) SSL_set_accept_state(tls->connection);
    return tls;
}

struct tls *tls_connect(int file, int process) {
    char name[NAME_SIZE];
    struct tls *tls = begin(file, UINT32_C(1) << process);
    if (!tls) return NULL;
    name_of(process, name);
    SSL_set_connect_state(tls->connection);
    SSL_set_hostflags(tls->connection, NAME_FLAGS);
    if (SSL_set1_host(tls->connection, name) == 1) return tls;
    tls_end(tls);
    return NULL;
}

void tls_end(struct tls *tls) {
    if (!tls) return;
    if (tls->is_done) SSL_shutdown(tls->connection);
    SSL_free(tls->connection);
    free(tls);
}

/* A connection is refused: that is said once for each reason, and counted. */
static int refuse(const char *why) {
    if (why != all.why) report_event(LEVEL_WARNING, "stranger", "a connection by tls is refused: %s; more are counted", why);
    all.why = why;
    all.refused++;
    errno = EPROTO;
    return -1;
}

/* What a call of the library's that got no further means, as recv and send have it. An end that nobody announced is none of a stranger. */
static int falls_short(struct tls *tls, int answer) {
    int kind = SSL_get_error(tls->connection, answer);
    unsigned long fault = ERR_peek_last_error();
    if (kind == SSL_ERROR_ZERO_RETURN) return 0;
    errno = kind == SSL_ERROR_WANT_READ || kind == SSL_ERROR_WANT_WRITE ? EAGAIN : ECONNRESET;
    tls->awaits = kind == SSL_ERROR_WANT_WRITE ? POLLOUT : POLLIN;
    if (kind != SSL_ERROR_SSL || ERR_GET_REASON(fault) == SSL_R_UNEXPECTED_EOF_WHILE_READING) return -1;
    long verified = SSL_get_verify_result(tls->connection);
    const char *why = verified != X509_V_OK ? X509_verify_cert_error_string(verified) : ERR_reason_error_string(fault);
    return refuse(why ? why : "it speaks otherwise");
}

int tls_shake(struct tls *tls) {
    if (tls->is_done) return 1;
    ERR_clear_error();
    int answer = SSL_do_handshake(tls->connection);
    if (answer != 1) return falls_short(tls, answer) < 0 && errno == EAGAIN ? 0 : -1;
    X509 *certificate = SSL_get0_peer_certificate(tls->connection);
    tls->names &= certificate ? names_in(certificate) : 0;
    tls->is_done = true;
    return tls->names ? 1 : refuse("its name is of nobody who may come here");
}

/* Whether bytes can go: else errno says why not. */
static bool is_shaken(struct tls *tls) {
    int shaken = tls_shake(tls);
    if (shaken == 1 && tls->names) return true;
    if (shaken >= 0) errno = shaken == 0 ? EAGAIN : EPROTO;
    return false;
}

ssize_t tls_receive(struct tls *tls, void *bytes, size_t size) {
    size_t have = 0;
    if (!is_shaken(tls)) return -1;
    while (have < size) {
        ERR_clear_error();
        int most = size - have < INT32_MAX ? (int)(size - have) : INT32_MAX, count = SSL_read(tls->connection, (char *)bytes + have, most);
        if (count <= 0 && have == 0) return falls_short(tls, count);
        if (count <= 0) break;
        have += (size_t)count;
    }
    return (ssize_t)have;
}

ssize_t tls_send(struct tls *tls, const void *bytes, size_t size) {
    if (!is_shaken(tls)) return -1;
    ERR_clear_error();
    int count = SSL_write(tls->connection, bytes, (int)size);
    if (count > 0) return count;
    return falls_short(tls, count) < 0 ? -1 : (errno = ECONNRESET, -1);
}

short tls_awaits(const struct tls *tls) { return tls->awaits; }

uint32_t tls_names(const struct tls *tls) { return tls->names; }

uint64_t tls_refused(void) { return all.refused; }

#else

int tls_open(const char *folder, const struct cluster *cluster, int me) {
    (void)folder, (void)cluster, (void)me;
    report("tls: this program was built where OpenSSL isn't");
    return STATUS_IO;
}

bool tls_read_again(void) { return false; }

struct tls *tls_accept(int file, uint32_t names) { return (void)file, (void)names, NULL; }

struct tls *tls_connect(int file, int process) { return (void)file, (void)process, NULL; }

void tls_end(struct tls *tls) { (void)tls; }

ssize_t tls_receive(struct tls *tls, void *bytes, size_t size) { return (void)tls, (void)bytes, (void)size, -1; }

ssize_t tls_send(struct tls *tls, const void *bytes, size_t size) { return (void)tls, (void)bytes, (void)size, -1; }

int tls_shake(struct tls *tls) { return (void)tls, -1; }

short tls_awaits(const struct tls *tls) { return (void)tls, 0; }

uint32_t tls_names(const struct tls *tls) { return (void)tls, 0; }

uint64_t tls_refused(void) { return 0; }

#endif
