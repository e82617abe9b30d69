/* A thread that is cancelled in the midst of a call, and a signal's handler that jumps out of one. The linker puts this
 * fdatasync in the place of the C library's, by --wrap. The word is a folder for files. */
#define _GNU_SOURCE
#include "check.h"

#include <pthread.h>
#include <semaphore.h>
#include <setjmp.h>
#include <signal.h>
#include <unistd.h>

static jpstore *store;
static pthread_mutex_t mutex = PTHREAD_MUTEX_INITIALIZER;
static sem_t within, asked;
static sigjmp_buf out;

/* What happens within the next sync. */
static enum { NOTHING, A_CANCELLATION, A_SIGNAL } happens;

int __real_fdatasync(int file);
int __wrap_fdatasync(int file);

int __wrap_fdatasync(int file)
{
    const int now = happens;
    happens = NOTHING;
    if (now == A_CANCELLATION) {
        sem_post(&within);
        sem_wait(&asked);
    } else if (now == A_SIGNAL) {
        raise(SIGUSR1);
    }
    return __real_fdatasync(file);
}

static void unlock(void *held)
{
    pthread_mutex_unlock(held);
}

static int fed;

static void *change(void *nothing)
{
    pthread_mutex_lock(&mutex);
    pthread_cleanup_push(unlock, &mutex);
    fed = answers(store, PATCH, "{\"ok\":true,\"seq\":2}\n");
    pthread_testcancel();
    pthread_cleanup_pop(1);
    return nothing;
}

/* The call is done, and then the thread ends. */
static void cancelled(const char *file)
{
    pthread_t thread;
    void *end = NULL;
    new_file(file, 64);
    CHECK(jpstore_open(file, NULL, &store, NULL) == JPSTORE_OK);
    CHECK(answers(store, CREATE, "{\"ok\":true,\"seq\":1}\n"));
    happens = A_CANCELLATION;
    CHECK(pthread_create(&thread, NULL, change, NULL) == 0);
    sem_wait(&within);
    pthread_cancel(thread);
    sem_post(&asked);
    pthread_join(thread, &end);
    CHECK(end == PTHREAD_CANCELED && fed && pthread_mutex_trylock(&mutex) == 0);
    pthread_mutex_unlock(&mutex);
    CHECK(answers(store, GET, "{\"ok\":true,\"value\":7}\n"));
    jpstore_free(store);
    CHECK(jpstore_check(file, NULL, NULL) == JPSTORE_OK);
}

static void jump(int number)
{
    (void)number;
    siglongjmp(out, 1);
}

/* The store can be freed alone; its file is free then, and the thread may be cancelled as before. */
static void jumped(const char *file, int flags)
{
    static char stack[1 << 16];
    const stack_t other = {.ss_sp = stack, .ss_size = sizeof stack};
    const char *replies;
    size_t length;
    int cancels = -1;
    new_file(file, 64);
    CHECK(jpstore_open(file, NULL, &store, NULL) == JPSTORE_OK);
    CHECK(answers(store, CREATE, "{\"ok\":true,\"seq\":1}\n"));
    sigaltstack(&other, NULL);
    sigaction(SIGUSR1, &(struct sigaction){.sa_handler = jump, .sa_flags = flags}, NULL);
    happens = A_SIGNAL;
    if (sigsetjmp(out, 1) == 0) {
        jpstore_feed(store, PATCH, strlen(PATCH), &replies, &length);
        CHECK(!"the handler jumps");
    }
    CHECK(jpstore_feed(store, GET, strlen(GET), &replies, &length) == JPSTORE_BUSY && length == 0);
    CHECK(jpstore_finish(store, &replies, &length) == JPSTORE_BUSY);
    jpstore_free(store);
    CHECK(pthread_setcancelstate(PTHREAD_CANCEL_ENABLE, &cancels) == 0 && cancels == PTHREAD_CANCEL_ENABLE);
    CHECK(jpstore_open(file, NULL, &store, NULL) == JPSTORE_OK);
    CHECK(jpstore_feed(store, GET, strlen(GET), &replies, &length) == JPSTORE_OK && length == 22);
    CHECK(length == 22 && (replies[19] == '0' || replies[19] == '7'));
    jpstore_free(store);
}

int main(int count, char **words)
{
    char file[4096];
    snprintf(file, sizeof file, "%s/stops.store", count > 1 ? words[1] : ".");
    sem_init(&within, 0, 0);
    sem_init(&asked, 0, 0);
    cancelled(file);
    jumped(file, 0);
    jumped(file, SA_ONSTACK);
    return checks_end();
}
