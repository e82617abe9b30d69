/* The program's calls for its files. They are the system's, but that the session keeps which file is locked and why a call
 * failed, and that what a signal interrupts goes on. */
#define _GNU_SOURCE
#include "session.h"

#include <errno.h>
#include <fcntl.h>
#include <sys/file.h>
#include <sys/stat.h>
#include <unistd.h>

int jpstore_program_open(const char *path, int flags, mode_t mode);
int jpstore_program_fcntl(int file, int command, long with);
int jpstore_program_flock(int file, int operation);
int jpstore_program_statx(int folder, const char *path, int flags, unsigned mask, struct statx *into);
int jpstore_program_ftruncate(int file, off_t length);
int jpstore_program_fsync(int file);
int jpstore_program_fdatasync(int file);
ssize_t jpstore_program_pread(int file, void *into, size_t length, off_t at);
ssize_t jpstore_program_pwrite(int file, const void *from, size_t length, off_t at);
int jpstore_program_close(int file);

/* Keeps why a call failed. What the program closes or removes after that isn't the cause. */
static int noted(int answer)
{
    if (answer == -1)
        session_running()->system_error = errno;
    return answer;
}

int jpstore_program_open(const char *path, int flags, mode_t mode)
{
    return noted(open(path, flags, mode));
}

int jpstore_program_fcntl(int file, int command, long with)
{
    return noted(fcntl(file, command, with));
}

/* Keeps which file the store is in. */
int jpstore_program_flock(int file, int operation)
{
    const int answer = noted(flock(file, operation));
    if (answer == 0)
        session_running()->file = file;
    return answer;
}

int jpstore_program_statx(int folder, const char *path, int flags, unsigned mask, struct statx *into)
{
    return noted(statx(folder, path, flags, mask, into));
}

int jpstore_program_ftruncate(int file, off_t length)
{
    return noted(ftruncate(file, length));
}

int jpstore_program_fsync(int file)
{
    return noted(fsync(file));
}

int jpstore_program_fdatasync(int file)
{
    return noted(fdatasync(file));
}

/* What a call has moved goes on from there; so does one that a signal has interrupted. */
static bool goes_on(ssize_t moved, size_t *done)
{
    if (moved > 0)
        *done += (size_t)moved;
    return moved > 0 || (moved == -1 && errno == EINTR);
}

/* Reads all of it, or as much as the file has. */
ssize_t jpstore_program_pread(int file, void *into, size_t length, off_t at)
{
    size_t done = 0;
    while (done < length) {
        const ssize_t moved = pread(file, (char *)into + done, length - done, at + (off_t)done);
        if (!goes_on(moved, &done))
            return moved == 0 ? (ssize_t)done : noted(-1);
    }
    return (ssize_t)done;
}

/* Writes all of it, or fails. */
ssize_t jpstore_program_pwrite(int file, const void *from, size_t length, off_t at)
{
    size_t done = 0;
    while (done < length) {
        const ssize_t moved = pwrite(file, (const char *)from + done, length - done, at + (off_t)done);
        if (!goes_on(moved, &done))
            return moved == 0 ? (ssize_t)done : noted(-1);
    }
    return (ssize_t)done;
}

/* A lock is let go by name: a child that was just made has a copy of the file, which would keep it locked. */
int jpstore_program_close(int file)
{
    jpstore *session = session_running();
    if (session->file == file) {
        session->file = -1;
        flock(file, LOCK_UN);
    }
    return close(file);
}
