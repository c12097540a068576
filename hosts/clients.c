#include "clients.h"

#include "report.h"
#include "tcp_address.h"
#include "tls.h"

#include <sys/socket.h>
#include <unistd.h>

int clients_open(struct clients *clients, const struct address *address) {
    clients->address = address;
    for (int i = 0; i < CLIENTS_LIMIT; i++) client_open(&clients->all[i], -1, -1, NULL);
    if (!address->where) {
        client_open(&clients->all[0], STDIN_FILENO, STDOUT_FILENO, NULL);
        clients->all[0].takes_outputs = true;
    }
    return address_listen(address, &clients->listener);
}

void clients_welcome(struct clients *clients, const struct watch *watch) {
    if (clients->listener < 0 || !watch_tells(watch, clients->listener)) return;
    for (int i = 0; i < CLIENTS_LIMIT; i++) {
        struct client *client = &clients->all[i];
        if (client->out >= 0) continue;
        int file = accept4(clients->listener, NULL, NULL, SOCK_NONBLOCK | SOCK_CLOEXEC);
        if (file < 0) return;
        bool is_sealed = clients->address->carrier == CARRIER_TLS;
        struct tls *tls = is_sealed ? tls_accept(file, TLS_PROGRAM) : NULL;
        if (is_sealed) tcp_keep_alive(file);
        client_open(client, file, file, tls);
        if (is_sealed && !tls) client_close(client);
    }
}

struct client *clients_consumer(struct clients *clients) {
    for (int i = 0; i < CLIENTS_LIMIT; i++)
        if (clients->all[i].takes_outputs) return &clients->all[i];
    return NULL;
}

int clients_serve(struct clients *clients) {
    for (int i = 0; i < CLIENTS_LIMIT; i++) {
        struct client *client = &clients->all[i];
        client_write(client);
        if (clients->address->where) {
            if (client_is_over(client) || client_is_done(client)) client_close(client);
        } else if (client_is_over(client)) {
            report("standard output is closed");
            return STATUS_IO;
        }
    }
    return STATUS_DONE;
}

void clients_watch(const struct clients *clients, bool reads, bool prints, struct watch *watch) {
    watch_file(watch, clients->listener, POLLIN);
    for (int i = 0; i < CLIENTS_LIMIT; i++)
        client_watch(&clients->all[i], reads, prints && clients->all[i].takes_outputs, watch);
}

bool clients_have_requests(const struct clients *clients) {
    for (int i = 0; i < CLIENTS_LIMIT; i++)
        if (client_has_request(&clients->all[i])) return true;
    return false;
}

void clients_close(struct clients *clients) { address_leave(clients->address, clients->listener); }
