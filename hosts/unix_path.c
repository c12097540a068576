#include "unix_path.h"

#include "report.h"

#include <errno.h>
#include <libgen.h>
#include <string.h>
#include <sys/socket.h>
#include <sys/stat.h>
#include <unistd.h>

struct sockaddr_un unix_path(const char *path) {
    struct sockaddr_un address = {.sun_family = AF_UNIX};
    strncpy(address.sun_path, path, sizeof address.sun_path - 1);
    return address;
}

/* Whether nothing is at the path but what a killed life left. */
static bool is_free(int type, const struct sockaddr_un *address) {
    struct stat about;
    if (lstat(address->sun_path, &about) != 0) return true;
    if (!S_ISSOCK(about.st_mode)) {
        report("%s is there, and is no socket", address->sun_path);
        return false;
    }
    int file = socket(AF_UNIX, type | SOCK_NONBLOCK | SOCK_CLOEXEC, 0);
    bool is_left = connect(file, (const struct sockaddr *)address, sizeof *address) != 0 && errno == ECONNREFUSED;
    close(file);
    if (!is_left) report("%s is in use by another program", address->sun_path);
    return is_left;
}

bool unix_path_look(int type, const char *path) {
    struct sockaddr_un address = unix_path(path);
    char folder[sizeof address.sun_path];
    if (!is_free(type, &address)) return false;
    strcpy(folder, address.sun_path);
    if (access(dirname(folder), W_OK | X_OK) == 0) return true;
    report_fault("unix:%s", path);
    return false;
}

int unix_path_take(int type, const char *path) {
    struct sockaddr_un address = unix_path(path);
    if (!is_free(type, &address)) return -1;
    unlink(path);
    int file = socket(AF_UNIX, type | SOCK_NONBLOCK | SOCK_CLOEXEC, 0);
    if (file >= 0 && bind(file, (const struct sockaddr *)&address, sizeof address) == 0) return file;
    report_fault("unix:%s", path);
    if (file >= 0) close(file);
    return -1;
}
