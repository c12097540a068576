#include "cluster.h"

#include "report.h"

#include <ctype.h>
#include <stdbool.h>
#include <stdio.h>
#include <stdlib.h>
#include <string.h>
#include <strings.h>

enum { WORD_LIMIT = 7, FAULT_LIMIT = 20 };

static const char STATE[] = "state=";

/* What is being read, for sentences about it. */
struct reading {
    const char *path;
    int line;
    bool has_name, has_gateway, has_numbers;
};

static int refused(const struct reading *at, const char *why, const char *word) {
    report("%s, line %d: %s%s%s", at->path, at->line, why, *word ? ": " : "", word);
    return STATUS_CLUSTER;
}

/* Letters, digits, - and _, so that a name is a word of a line and of a NATS subject. */
static bool is_name(const char *word) {
    size_t size = strlen(word);
    if (size == 0 || size > NAME_LIMIT) return false;
    for (const char *at = word; *at; at++)
        if (!isalnum((unsigned char)*at) && *at != '-' && *at != '_') return false;
    return true;
}

static int read_address(const struct reading *at, const char *word, struct address *address) {
    const char *why = address_read(word, address);
    return why ? refused(at, why, word) : STATUS_DONE;
}

/* Images and states are named from where the cluster file is. */
static char *beside(const char *path, const char *name) {
    const char *slash = strrchr(path, '/');
    size_t folder = *name == '/' || !slash ? 0 : (size_t)(slash - path) + 1;
    char *joined = malloc(folder + strlen(name) + 1);
    if (!joined) return NULL;
    memcpy(joined, path, folder);
    strcpy(joined + folder, name);
    return joined;
}

/* A number from 1 on; 0 of another word. */
static int number_in(const char *word) {
    size_t size = strlen(word);
    return *word != '0' && size <= 2 && strspn(word, "0123456789") == size ? atoi(word) : 0;
}

/* The number that a line says; if it says none, that of the line among those of processes. */
static int read_number(struct reading *at, const char *word, const struct cluster *cluster, int *number) {
    *number = word ? number_in(word) : cluster->count + 1;
    if (cluster->count == 0) at->has_numbers = word;
    if (at->has_numbers != (word != NULL)) return refused(at, "all processes have a number, or none has", word ? word : "");
    if (*number < 1 || *number > PROCESS_LIMIT) return refused(at, "the number of a process is 1 to 15", word);
    if (*cluster->processes[*number].name) return refused(at, "there are two processes of this number", word);
    return STATUS_DONE;
}

/* The words of a line of a process, but for the last one if that names its state. */
static int read_state(const struct reading *at, char *const words[], int *count, char **state) {
    const char *word = words[*count - 1];
    *state = NULL;
    if (*count < 5 || strncmp(word, STATE, strlen(STATE)) != 0) return STATUS_DONE;
    if (!word[strlen(STATE)]) return refused(at, "the file is missing", word);
    --*count;
    *state = beside(at->path, word + strlen(STATE));
    return *state ? STATUS_DONE : STATUS_MEMORY;
}

static int read_process(struct reading *at, char *const words[], int count, struct cluster *cluster) {
    char *state;
    int number, status = read_state(at, words, &count, &state);
    if (status != STATUS_DONE) return status;
    if (count != 4 && count != 5)
        return refused(at, "such a line is: process NAME IMAGE ADDRESS, or process N NAME IMAGE ADDRESS, and then maybe state=FILE", "");
    const char *name = words[count - 3];
    if (!is_name(name)) return refused(at, "a name has 1 to 32 letters, digits, - and _", name);
    if (!strcmp(name, "gateway")) return refused(at, "no process is called so", name);
    if (cluster_find(cluster, name)) return refused(at, "there are two processes of this name", name);
    if (cluster->count == PROCESS_LIMIT) return refused(at, "a cluster has at most 15 processes", name);
    status = read_number(at, count == 5 ? words[1] : NULL, cluster, &number);
    if (status != STATUS_DONE) return status;
    struct process *process = &cluster->processes[number];
    cluster->count++;
    process->line = at->line;
    process->state = state;
    strcpy(process->name, name);
    process->image = beside(at->path, words[count - 2]);
    return process->image ? read_address(at, words[count - 1], &process->address) : STATUS_MEMORY;
}

static int read_words(struct reading *at, char *const words[], int count, struct cluster *cluster) {
    if (!strcmp(words[0], "process")) return read_process(at, words, count, cluster);
    if (!strcmp(words[0], "cluster")) {
        if (count != 2 || !is_name(words[1])) return refused(at, "such a line is: cluster NAME", "");
        if (at->has_name) return refused(at, "the cluster has a name already", words[1]);
        at->has_name = true;
        strcpy(cluster->name, words[1]);
        return STATUS_DONE;
    }
    if (!strcmp(words[0], "gateway")) {
        if (count != 2) return refused(at, "such a line is: gateway ADDRESS", "");
        if (at->has_gateway) return refused(at, "there are two gateways", words[1]);
        at->has_gateway = true;
        return read_address(at, words[1], &cluster->processes[0].address);
    }
    return refused(at, "a line begins with cluster, gateway or process, not with", words[0]);
}

static int read_line(struct reading *at, char *line, struct cluster *cluster) {
    char *words[WORD_LIMIT + 1], *rest = NULL;
    int count = 0;
    for (char *word = strtok_r(line, " \t\r\n", &rest); word; word = strtok_r(NULL, " \t\r\n", &rest)) {
        if (count == WORD_LIMIT) break;
        words[count++] = word;
    }
    if (count == 0 || *words[0] == '#') return STATUS_DONE;
    return read_words(at, words, count, cluster);
}

/* Addresses of unix and tcp are of one process each; those of nats may be the same server. */
static int judge(const struct reading *at, const struct cluster *cluster) {
    const char *missing = !at->has_name ? "cluster NAME" : !at->has_gateway ? "gateway ADDRESS" : "process NAME IMAGE ADDRESS";
    if (!at->has_name || !at->has_gateway || cluster->count == 0) {
        report("%s: there is no line: %s", at->path, missing);
        return STATUS_CLUSTER;
    }
    for (int p = 0; p <= cluster->count; p++) {
        if (!*cluster->processes[p].name) {
            report("%s: there are %d processes, and none of the number %d", at->path, cluster->count, p);
            return STATUS_CLUSTER;
        }
        for (int q = 0; q < p; q++) {
            const struct process *one = &cluster->processes[p], *other = &cluster->processes[q];
            const struct address *a = &one->address, *b = &other->address;
            if (a->carrier == CARRIER_TLS && !strcasecmp(one->name, other->name)) {
                report("%s: certificates tell no small letter from a large one: %s", at->path, one->name);
                return STATUS_CLUSTER;
            }
            if (a->carrier == CARRIER_NATS || a->carrier != b->carrier || strcmp(a->where, b->where) != 0) continue;
            report("%s: two have the same address: %s", at->path, a->where);
            return STATUS_CLUSTER;
        }
    }
    return STATUS_DONE;
}

int cluster_read(const char *path, struct cluster *cluster) {
    struct reading at = {.path = path, .line = 1};
    char *line = NULL;
    size_t room = 0;
    FILE *file = fopen(path, "r");
    if (!file) {
        report_fault("%s", path);
        return STATUS_IO;
    }
    memset(cluster, 0, sizeof *cluster);
    strcpy(cluster->processes[0].name, "gateway");
    int status = STATUS_DONE;
    for (int faults = 0; faults < FAULT_LIMIT && getline(&line, &room, file) >= 0; at.line++) {
        int next = read_line(&at, line, cluster);
        faults += next != STATUS_DONE;
        status_first(&status, next);
    }
    if (status == STATUS_DONE && !feof(file)) {
        report_fault("%s", path);
        status = STATUS_IO;
    }
    free(line);
    fclose(file);
    return status == STATUS_DONE ? judge(&at, cluster) : status;
}

int cluster_find(const struct cluster *cluster, const char *name) {
    for (int p = 1; p <= PROCESS_LIMIT; p++)
        if (*name && !strcmp(cluster->processes[p].name, name)) return p;
    return 0;
}

bool cluster_has(const struct cluster *cluster, enum carrier carrier) {
    for (int p = 0; p <= cluster->count; p++)
        if (cluster->processes[p].address.carrier == carrier) return true;
    return false;
}
