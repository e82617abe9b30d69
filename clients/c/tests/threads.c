/* Two threads with one store and a mutex, two without one, and 50 stores side by side. The word is a folder for files. */
#define _GNU_SOURCE
#include "check.h"

#include <pthread.h>
#include <unistd.h>

enum { ROUNDS = 3000, STORES = 50 };

static jpstore *store;
static pthread_mutex_t mutex = PTHREAD_MUTEX_INITIALIZER;
static _Atomic int wrong;

static int found(const char *line, const char *wanted)
{
    const char *replies;
    size_t length;
    pthread_mutex_lock(&mutex);
    const int fault = jpstore_feed(store, line, strlen(line), &replies, &length);
    const int as_wanted = fault == JPSTORE_OK && length >= strlen(wanted) && memcmp(replies, wanted, strlen(wanted)) == 0;
    pthread_mutex_unlock(&mutex);
    return as_wanted;
}

static void *write_and_read(void *name)
{
    char line[200], wanted[64];
    for (int round = 0; round < ROUNDS; round++) {
        snprintf(line, sizeof line, "{\"cmd\":\"patch\",\"name\":\"%s\",\"ops\":[{\"op\":\"replace\",\"path\":\"/n\",\"value\":%d}]}\n",
                 (const char *)name, round);
        wrong += !found(line, "{\"ok\":true,\"seq\":");
        snprintf(line, sizeof line, "{\"cmd\":\"get\",\"name\":\"%s\",\"path\":\"/n\"}\n", (const char *)name);
        snprintf(wanted, sizeof wanted, "{\"ok\":true,\"value\":%d}\n", round);
        wrong += !found(line, wanted);
    }
    return NULL;
}

static void two_threads(void)
{
    pthread_t threads[2];
    char names[2][2] = {"a", "b"};
    CHECK(jpstore_open_memory(4096, &store, NULL) == JPSTORE_OK);
    CHECK(found("{\"cmd\":\"create\",\"doc\":{\"n\":0},\"name\":\"a\",\"schema\":true}\n", "{\"ok\":true,\"seq\":1}\n"));
    CHECK(found("{\"cmd\":\"create\",\"doc\":{\"n\":0},\"name\":\"b\",\"schema\":true}\n", "{\"ok\":true,\"seq\":2}\n"));
    for (int at = 0; at < 2; at++)
        pthread_create(&threads[at], NULL, write_and_read, names[at]);
    for (int at = 0; at < 2; at++)
        pthread_join(threads[at], NULL);
    CHECK(wrong == 0);
    jpstore_free(store);
}

static _Atomic int done, busy;

static void *feed_at_once(void *nothing)
{
    const char *replies;
    size_t length;
    for (int round = 0; round < ROUNDS; round++) {
        const int fault = jpstore_feed(store, LIST, strlen(LIST), &replies, &length);
        done += fault == JPSTORE_OK;
        busy += fault == JPSTORE_BUSY && length == 0;
    }
    return nothing;
}

/* The same with calls that read their reply, whose numbers are right or 0. */
static void *ask_at_once(void *nothing)
{
    uint64_t rev;
    jpstore_state state;
    for (int round = 0; round < ROUNDS; round += 2) {
        const int fault = jpstore_rev(store, "d", &rev, NULL);
        done += fault == JPSTORE_OK && rev == 1;
        busy += fault == JPSTORE_BUSY && rev == 0;
        const int other = jpstore_status(store, &state, NULL);
        done += other == JPSTORE_OK && state.documents == 1 && state.sectors == 64;
        busy += other == JPSTORE_BUSY && state.documents == 0 && state.sectors == 0;
    }
    return nothing;
}

/* Without a mutex a call is done or refused, and never mixed with another. */
static void no_mutex(void *(*call_at_once)(void *))
{
    pthread_t threads[2];
    done = busy = 0;
    CHECK(jpstore_open_memory(64, &store, NULL) == JPSTORE_OK);
    CHECK(answers(store, CREATE, "{\"ok\":true,\"seq\":1}\n"));
    for (int at = 0; at < 2; at++)
        pthread_create(&threads[at], NULL, call_at_once, NULL);
    for (int at = 0; at < 2; at++)
        pthread_join(threads[at], NULL);
    CHECK(done + busy == 2 * ROUNDS && done > 0);
    CHECK(answers(store, LIST, "{\"names\":[\"d\"],\"ok\":true}\n"));
    jpstore_free(store);
}

static void *whole_life(void *file)
{
    jpstore *own;
    const jpstore_options options = {.batch = 2, .pump = 2};
    new_file(file, 64);
    CHECK(jpstore_open(file, &options, &own, NULL) == JPSTORE_OK);
    CHECK(answers(own, CREATE GET, "{\"ok\":true,\"seq\":1}\n{\"ok\":true,\"value\":0}\n"));
    jpstore_free(own);
    CHECK(jpstore_check(file, NULL, NULL) == JPSTORE_OK);
    return NULL;
}

/* A thread with the least stack; the sanitizers' own frames don't fit there. */
static void small_stack(const char *folder)
{
#ifndef __SANITIZE_ADDRESS__
    pthread_t thread;
    pthread_attr_t least;
    char file[4096];
    snprintf(file, sizeof file, "%s/small.store", folder);
    pthread_attr_init(&least);
    CHECK(pthread_attr_setstacksize(&least, (size_t)sysconf(_SC_THREAD_STACK_MIN)) == 0);
    CHECK(pthread_create(&thread, &least, whole_life, file) == 0);
    pthread_join(thread, NULL);
    pthread_attr_destroy(&least);
#else
    (void)folder;
    (void)whole_life;
#endif
}

static void many_stores(const char *folder)
{
    static jpstore *stores[STORES];
    char file[4096], line[200], wanted[64];
    for (int at = 0; at < STORES; at++) {
        snprintf(file, sizeof file, "%s/many%d.store", folder, at);
        new_file(file, 16);
        CHECK(jpstore_open(file, NULL, &stores[at], NULL) == JPSTORE_OK);
        snprintf(line, sizeof line, "{\"cmd\":\"create\",\"doc\":%d,\"name\":\"d\",\"schema\":true}\n", at);
        CHECK(answers(stores[at], line, "{\"ok\":true,\"seq\":1}\n"));
    }
    for (int at = STORES - 1; at >= 0; at--) {
        snprintf(wanted, sizeof wanted, "{\"ok\":true,\"value\":%d}\n", at);
        CHECK(answers(stores[at], "{\"cmd\":\"get\",\"name\":\"d\",\"path\":\"\"}\n", wanted));
        jpstore_free(stores[at]);
    }
}

int main(int count, char **words)
{
    two_threads();
    no_mutex(feed_at_once);
    no_mutex(ask_at_once);
    small_stack(count > 1 ? words[1] : ".");
    many_stores(count > 1 ? words[1] : ".");
    return checks_end();
}
