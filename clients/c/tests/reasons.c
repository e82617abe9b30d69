/* Why a file can't be made or opened, as the system says it. The word is a folder for files. */
#define _GNU_SOURCE
#include "check.h"

#include <errno.h>
#include <signal.h>
#include <sys/resource.h>
#include <sys/stat.h>
#include <sys/wait.h>
#include <unistd.h>

/* Whether each call that opens a file says this of it. */
static int isnt_opened(const char *path, int system_error)
{
    jpstore *store;
    jpstore_cause causes[3] = {{0}};
    int faults = jpstore_open(path, NULL, &store, &causes[0]) == JPSTORE_FILE && store == NULL;
    faults += jpstore_check(path, NULL, &causes[1]) == JPSTORE_FILE;
    faults += jpstore_upgrade(path, 0, NULL, &causes[2]) == JPSTORE_FILE;
    for (int at = 0; at < 3; at++)
        if (causes[at].system_error != system_error || causes[at].refusal != 0)
            return 0;
    return faults == 3;
}

/* Whether each call that makes a file answers this, with this reason. */
static int isnt_made(const char *path, const char *store, int fault, int system_error)
{
    jpstore_cause formatted, copied;
    return jpstore_format(path, 4096, NULL, NULL, &formatted) == fault && formatted.system_error == system_error
           && jpstore_copy(store, path, 4096, NULL, &copied) == fault && copied.system_error == system_error;
}

/* In a child, which gives up the rights of root if it has them. */
static int denied(const char *file)
{
    if (geteuid() == 0 && seteuid(65534) != 0)
        return 1;
    return !isnt_opened(file, EACCES);
}

static void rights(const char *file)
{
    int status = -1;
    CHECK(chmod(file, 0) == 0);
    fflush(stdout);
    const pid_t child = fork();
    if (child == 0)
        _exit(denied(file));
    waitpid(child, &status, 0);
    CHECK(status == 0);
    CHECK(chmod(file, 0600) == 0);
}

static void limits(const char *path, const char *store)
{
    struct rlimit before, least;
    signal(SIGXFSZ, SIG_IGN);
    getrlimit(RLIMIT_FSIZE, &before);
    least = (struct rlimit){.rlim_cur = 65536, .rlim_max = before.rlim_max};
    setrlimit(RLIMIT_FSIZE, &least);
    CHECK(isnt_made(path, store, JPSTORE_NO_SPACE, EFBIG));
    CHECK(access(path, F_OK) != 0);
    setrlimit(RLIMIT_FSIZE, &before);
    getrlimit(RLIMIT_NOFILE, &before);
    least = (struct rlimit){.rlim_cur = 3, .rlim_max = before.rlim_max};
    setrlimit(RLIMIT_NOFILE, &least);
    CHECK(isnt_opened(store, EMFILE));
    CHECK(jpstore_format(path, 64, NULL, NULL, NULL) == JPSTORE_FILE);
    setrlimit(RLIMIT_NOFILE, &before);
    CHECK(access(path, F_OK) != 0 && jpstore_check(store, NULL, NULL) == JPSTORE_OK);
}

int main(int count, char **words)
{
    char file[4096], path[4096];
    const char *folder = count > 1 ? words[1] : ".";
    snprintf(file, sizeof file, "%s/reasons.store", folder);
    new_file(file, 64);
    snprintf(path, sizeof path, "%s/none", folder);
    CHECK(isnt_opened(path, ENOENT));
    limits(path, file);
    snprintf(path, sizeof path, "%s/none/at-all", folder);
    CHECK(isnt_opened(path, ENOENT));
    CHECK(isnt_made(path, file, JPSTORE_FILE, ENOENT));
    snprintf(path, sizeof path, "%s/reasons.store/below", folder);
    CHECK(isnt_opened(path, ENOTDIR));
    CHECK(isnt_opened(folder, EISDIR));
    CHECK(isnt_made(folder, file, JPSTORE_FILE, EEXIST));
    new_file(strcat(file, "2"), 64);
    file[strlen(file) - 1] = 0;
    snprintf(path, sizeof path, "%s/reasons.store2", folder);
    CHECK(isnt_made(path, file, JPSTORE_FILE, EEXIST));
    rights(file);
    return checks_end();
}
