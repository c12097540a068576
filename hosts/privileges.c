#include "privileges.h"

#include "report.h"

#include <dirent.h>
#include <errno.h>
#include <fcntl.h>
#include <grp.h>
#include <pwd.h>
#include <string.h>
#include <sys/prctl.h>
#include <unistd.h>

static int failed(const char *user) {
    report_fault("--user %s", user);
    return STATUS_IO;
}

/* The user of this name, whom this program can become: root any, others themselves. */
static const struct passwd *find(const char *name) {
    errno = 0;
    const struct passwd *user = getpwnam(name);
    if (!user) report("--user %s: there is no such user", name);
    else if (geteuid() == 0 || geteuid() == user->pw_uid) return user;
    else report("--user %s: only root can become another user", name);
    return NULL;
}

/* The store's files are the user's, who replaces them. */
static bool gives_store(const struct store *store, const struct passwd *user) {
    if (store_is_remote(store)) return true;
    DIR *files = fdopendir(openat(store->folder, ".", O_RDONLY | O_DIRECTORY | O_CLOEXEC));
    bool is_given = files && fchown(store->folder, user->pw_uid, user->pw_gid) == 0;
    for (const struct dirent *file; is_given && (file = readdir(files));) {
        if (!strcmp(file->d_name, ".") || !strcmp(file->d_name, "..")) continue;
        is_given = fchownat(store->folder, file->d_name, user->pw_uid, user->pw_gid, AT_SYMLINK_NOFOLLOW) == 0;
    }
    if (files) closedir(files);
    return is_given;
}

static bool gives_socket(const struct address *address, const struct passwd *user) {
    bool is_path = address->where && address->carrier == CARRIER_UNIX;
    return !is_path || lchown(address->where, user->pw_uid, user->pw_gid) == 0;
}

static int become(const struct options *options, const struct cluster *cluster, const struct store *store) {
    const struct passwd *user = find(options->user);
    if (!user) return STATUS_COMMAND;
    if (geteuid() != 0) return STATUS_DONE;
    bool is_given = gives_store(store, user) && gives_socket(&cluster->processes[options->me].address, user) &&
                    gives_socket(&options->metrics, user) && gives_socket(&options->listen, user);
    bool is_other = is_given && initgroups(user->pw_name, user->pw_gid) == 0 &&
                    setresgid(user->pw_gid, user->pw_gid, user->pw_gid) == 0 && setresuid(user->pw_uid, user->pw_uid, user->pw_uid) == 0;
    return is_other ? STATUS_DONE : failed(options->user);
}

int privileges_look(const struct options *options) {
    if (options->user && !find(options->user)) return STATUS_COMMAND;
    if (!options->sandbox || sandbox_is_there()) return STATUS_DONE;
    report("--sandbox: this program was built where libseccomp isn't");
    return STATUS_COMMAND;
}

int privileges_drop(const struct options *options, const struct cluster *cluster, const struct store *store) {
    int status = privileges_look(options);
    if (status == STATUS_DONE && options->user) status = become(options, cluster, store);
    if (status != STATUS_DONE) return status;
    if (options->user || options->sandbox) prctl(PR_SET_NO_NEW_PRIVS, 1, 0, 0, 0);
    if (!options->sandbox || sandbox_enter()) return STATUS_DONE;
    report_fault("--sandbox");
    return STATUS_IO;
}
