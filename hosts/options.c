#include "options.h"

#include "cluster.h"
#include "limits.h"
#include "report.h"

#include <getopt.h>
#include <stdio.h>
#include <stdlib.h>
#include <string.h>
#include <unistd.h>

enum { THOUSAND = 1000, EVERY = 256, USUAL_TICK = 5, TICK_LIMIT = 10000 };
enum { STOPPING = 10 }; /* seconds that a program has to end after a signal */

/* hosts/build names it. */
#ifndef SBLOG_VERSION
#define SBLOG_VERSION "of no version"
#endif

static const char USAGE[] =
    "usage: sblog-node --cluster FILE --me N --store STORE [WORDS]\n"
    "       sblog-node --inspect STORE [--cluster FILE --me N]\n"
    "\n"
    "Runs process N of a cluster, or its gateway where N is 0.\n"
    "\n"
    "  --cluster FILE         who there is, with which image, and where\n"
    "  --me N                 the process's number in the file, 1 to 15, or 0\n"
    "  --store STORE          its store: a folder, which is made where it isn't there; nats:URL/BUCKET, or postgres:CONNINFO\n"
    "  --after NAME=STORE     a new gateway goes on where that of the cluster NAME ended, which has this store\n"
    "  --durable              what a process sends waits for a checkpoint that covers it, as it does anyway\n"
    "  --volatile             it doesn't wait: messages may be lost if two such processes are down at once\n"
    "  --checkpoint-every K   of a volatile process: a checkpoint after K messages (1 to 65536; 256)\n"
    "  --tick MS              what isn't answered goes again after MS milliseconds or more (1 to 10000; 5)\n"
    "  --listen unix:PATH     the gateway takes lines of programs that connect there, or at tls:HOST:PORT\n"
    "  --metrics unix:PATH    figures for Prometheus, by HTTP: /metrics; /healthz, /readyz; or tcp:HOST:PORT\n"
    "  --status               a line of figures a second, on standard error\n"
    "  --tls DIR              its certificate and key, tls.crt and tls.key, and the authority's, ca.crt\n"
    "  --user NAME            becomes this user once all is open\n"
    "  --sandbox              makes no system call from then on but those that it needs\n"
    "  --log json, --log pairs  lines of standard error as JSON, or as key=value\n"
    "  --check                starts nothing: says whether these words, cluster file, image, store and addresses would do\n"
    "  --inspect STORE        says what a store holds, and ends\n"
    "  --export OUT           writes a suspended process's state to the new file OUT, says what of it is under way, and ends\n"
    "  --version              says which version this is, and ends\n"
    "\n"
    "SIGUSR1 prints that line once. SIGHUP reads the files of --tls again. SIGTERM and SIGINT end a gateway, and suspend a process:\n"
    "its next start goes on. A second one ends it as SIGKILL does, and so does a disk that takes over 10 seconds.\n"
    "Statuses: 0; 1 --export or --after, while messages are under way; 2 the command line; 3 a refused image; 4 a refused cluster file;\n"
    "5 want of memory; 6 input and output; 7 a store that isn't this process's or its cluster's, is in use, isn't suspended where\n"
    "that is needed, or was claimed by another life.\n";

enum { CLUSTER = 1, ME, STORE, CHECKPOINT_EVERY, DURABLE, VOLATILE, EVERY_TICK, LISTEN, METRICS, STATUS, LOG, TLS, USER, SANDBOX, CHECK,
       INSPECT, EXPORT, AFTER, HELP, VERSION };

static const struct option OPTIONS[] = {
    {"cluster", required_argument, NULL, CLUSTER}, {"me", required_argument, NULL, ME},
    {"store", required_argument, NULL, STORE},     {"checkpoint-every", required_argument, NULL, CHECKPOINT_EVERY},
    {"durable", no_argument, NULL, DURABLE},       {"volatile", no_argument, NULL, VOLATILE},
    {"tick", required_argument, NULL, EVERY_TICK}, {"listen", required_argument, NULL, LISTEN},
    {"metrics", required_argument, NULL, METRICS}, {"status", no_argument, NULL, STATUS},
    {"help", no_argument, NULL, HELP},             {"version", no_argument, NULL, VERSION},
    {"check", no_argument, NULL, CHECK},           {"inspect", required_argument, NULL, INSPECT},
    {"log", required_argument, NULL, LOG},         {"user", required_argument, NULL, USER},
    {"sandbox", no_argument, NULL, SANDBOX},       {"tls", required_argument, NULL, TLS},
    {"export", required_argument, NULL, EXPORT},   {"after", required_argument, NULL, AFTER},
    {NULL, 0, NULL, 0},
};

/* A number in its range. */
static bool read_number(const char *text, uint64_t least, uint64_t most, uint64_t *number) {
    char *end;
    if (*text < '0' || *text > '9') return false;
    *number = strtoull(text, &end, 10);
    return !*end && *number >= least && *number <= most;
}

/* An address by this carrier, or by unix:. */
static bool read_address(const char *text, enum carrier carrier, struct address *address) {
    return !address_read(text, address) && (address->carrier == CARRIER_UNIX || address->carrier == carrier);
}

static bool read_form(const char *text, enum log_form *form) {
    *form = !strcmp(text, "json") ? LOG_JSON : LOG_PAIRS;
    return *form == LOG_JSON || !strcmp(text, "pairs");
}

/* NAME=STORE */
static bool is_place(const char *text) {
    size_t size = strcspn(text, "=");
    return size > 0 && size <= NAME_LIMIT && text[size] && text[size + 1];
}

static bool read_option(int option, const char *text, struct options *options) {
    uint64_t number = 0;
    bool is_taken = true;
    switch (option) {
    case '?':
    case ':': return false;
    case CLUSTER: options->cluster = text; break;
    case STORE: options->store = text; break;
    case DURABLE: options->says_durable = true; break;
    case VOLATILE: options->durable = false; break;
    case STATUS: options->status = true; break;
    case LOG: return read_form(text, &(enum log_form){LOG_PEOPLE});
    case USER: options->user = text; break;
    case SANDBOX: options->sandbox = true; break;
    case CHECK: options->looks = true; break;
    case INSPECT: options->inspected = text; break;
    case EXPORT: options->exported = text; return *text;
    case AFTER: options->after = text; return is_place(text);
    case TLS: options->tls = text; break;
    case LISTEN: return read_address(text, CARRIER_TLS, &options->listen);
    case METRICS: return read_address(text, CARRIER_TCP, &options->metrics);
    case ME:
        is_taken = read_number(text, 0, PROCESS_LIMIT, &number);
        options->me = (int)number;
        break;
    case CHECKPOINT_EVERY:
        is_taken = read_number(text, 1, RECEIPTS, &number);
        options->checkpoint_every = (uint32_t)number;
        break;
    case EVERY_TICK:
        is_taken = read_number(text, 1, TICK_LIMIT, &number);
        options->tick = number * THOUSAND;
        break;
    }
    return is_taken;
}

/* Whether these words go together. */
static int judge(const struct options *options) {
    if (options->inspected) return STATUS_DONE;
    if (!options->cluster || options->me < 0 || !options->store) report("--cluster, --me and --store are needed; see --help");
    else if (options->listen.where && options->me != 0) report("--listen is of the gateway alone");
    else if (options->listen.carrier == CARRIER_TLS && !options->tls) report("--tls is needed by --listen tls:");
    else if (options->after && options->me != 0) report("--after is of the gateway alone");
    else if (options->me == 0 && options->exported) report("--export is of processes alone: a gateway has no state");
    else if (options->looks && options->exported) report("--check and --export exclude each other");
    else if (options->me == 0 && (options->says_durable || !options->durable))
        report("--durable and --volatile are of processes alone: the gateway always is durable");
    else if (options->says_durable && !options->durable) report("--durable and --volatile exclude each other");
    else return STATUS_DONE;
    return STATUS_COMMAND;
}

/* Which form lines are to have: of those about other words, too. */
static void find_form(int argc, char **argv) {
    enum log_form form = LOG_PEOPLE;
    opterr = 0;
    for (int option; (option = getopt_long(argc, argv, ":", OPTIONS, NULL)) != -1;)
        if (option == LOG && read_form(optarg, &form)) report_in(form);
    optind = 0;
}

int options_read(int argc, char **argv, struct options *options) {
    int option, at;
    find_form(argc, argv);
    *options = (struct options){.me = -1, .checkpoint_every = EVERY, .tick = USUAL_TICK * THOUSAND, .durable = true};
    while ((option = getopt_long(argc, argv, ":", OPTIONS, &at)) != -1) {
        if (option == HELP) {
            fputs(USAGE, stdout);
            exit(STATUS_DONE);
        }
        if (option == VERSION) {
            puts("sblog-node " SBLOG_VERSION);
            exit(STATUS_DONE);
        }
        if (read_option(option, optarg, options)) continue;
        if (option == '?') report("unrecognized option %s", argv[optind - 1]);
        else if (option == ':') report("%s needs a word after it", argv[optind - 1]);
        else report("--%s doesn't take %s", OPTIONS[at].name, optarg);
        return STATUS_COMMAND;
    }
    if (optind == argc) return judge(options);
    report("%s is no option", argv[optind]);
    return STATUS_COMMAND;
}

volatile sig_atomic_t signal_stop, signal_status, signal_reload;

/* From now on the next such signal ends the program as SIGKILL would, and so does a disk that doesn't answer in time. */
static void stop(int signal) {
    const struct sigaction by_default = {.sa_handler = SIG_DFL};
    (void)signal;
    sigaction(SIGTERM, &by_default, NULL);
    sigaction(SIGINT, &by_default, NULL);
    sigaction(SIGALRM, &by_default, NULL);
    alarm(STOPPING);
    signal_stop = 1;
}

static void status(int signal) {
    (void)signal;
    signal_status = 1;
}

static void reload(int signal) {
    (void)signal;
    signal_reload = 1;
}

void signals_take(bool reloads) {
    struct sigaction action = {.sa_handler = stop};
    sigaction(SIGTERM, &action, NULL);
    sigaction(SIGINT, &action, NULL);
    action.sa_handler = status;
    sigaction(SIGUSR1, &action, NULL);
    action.sa_handler = reload;
    if (reloads) sigaction(SIGHUP, &action, NULL);
    action.sa_handler = SIG_IGN;
    sigaction(SIGPIPE, &action, NULL);
}
