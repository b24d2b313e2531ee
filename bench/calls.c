/* calls SECONDS: calls a second of libkeyutils.so.1 and libkeyretain.so.0 on the daemon that KEYRETAIN_SOCKET names,
 * and what a call takes of this process's processor time. A line for each figure: its name, calls a second,
 * microseconds a call, microseconds of processor time a call. Calls that a library doesn't have are left out. */
#include <pthread.h>
#include <stdint.h>
#include <stdio.h>
#include <stdlib.h>
#include <sys/resource.h>
#include <time.h>
#include <unistd.h>

#include "library/keyretain.h"
#include "keyutils/keyutils.h"

enum { THREADS = 8, AHEAD = 64, PAYLOAD = 32, USER_KEYRING = -4, READ = 11 };

/* An older library has neither. */
__attribute__((weak)) int kr_send(struct kr *connection, unsigned operation, uint32_t context,
                                  const struct kr_field *fields, uint64_t *tag);
__attribute__((weak)) int64_t kr_receive(struct kr *connection, uint64_t *tag, void *buffer, size_t room);

static double seconds;
static key_serial_t key;
static struct kr *connection;
static uint32_t context;

static void fail(const char *why) {
    perror(why);
    exit(1);
}

static double now(void) {
    struct timespec time;
    clock_gettime(CLOCK_MONOTONIC, &time);
    return (double)time.tv_sec + (double)time.tv_nsec / 1e9;
}

static double of_processor(void) {
    struct rusage used;
    getrusage(RUSAGE_SELF, &used);
    return (double)(used.ru_utime.tv_sec + used.ru_stime.tv_sec) +
           (double)(used.ru_utime.tv_usec + used.ru_stime.tv_usec) / 1e6;
}

/* Each makes some calls, and answers how many. */

static unsigned read_by_keyutils(void) {
    char buffer[PAYLOAD];
    if (keyctl_read(key, buffer, sizeof buffer) != PAYLOAD) fail("keyctl_read");
    return 1;
}

static unsigned read_by_connection(void) {
    char buffer[PAYLOAD];
    if (kr_read(connection, context, key, buffer, sizeof buffer) != PAYLOAD) fail("kr_read");
    return 1;
}

static unsigned read_ahead(void) {
    const struct kr_field fields[] = { { .number = (uint32_t)key } };
    char buffer[PAYLOAD];
    for (int i = 0; i < AHEAD; i++)
        if (kr_send(connection, READ, context, fields, NULL) < 0) fail("kr_send");
    for (int i = 0; i < AHEAD; i++)
        if (kr_receive(connection, NULL, buffer, sizeof buffer) != PAYLOAD) fail("kr_receive");
    return AHEAD;
}

static unsigned (*calls)(void);

/* Answers how many calls were made in the time. */
static void *call_for_a_while(void *count) {
    uint64_t made = 0;
    for (double end = now() + seconds; now() < end;)
        for (int i = 0; i < 16; i++) made += calls();
    *(uint64_t *)count = made;
    return NULL;
}

static void measure(const char *name, unsigned (*which)(void), unsigned count) {
    pthread_t threads[THREADS];
    uint64_t made[THREADS], all = 0;
    calls = which;
    double begun = now(), used = of_processor();
    for (unsigned i = 0; i < count; i++) pthread_create(&threads[i], NULL, call_for_a_while, &made[i]);
    for (unsigned i = 0; i < count; i++) {
        pthread_join(threads[i], NULL);
        all += made[i];
    }
    double spent = now() - begun;
    printf("%s|%.0f|%.2f|%.2f\n", name, (double)all / spent, spent / (double)all * 1e6,
           (of_processor() - used) / (double)all * 1e6);
}

int main(int count, char **words) {
    char payload[PAYLOAD] = "a payload of thirty-two bytes..";
    if (count != 2) return 2;
    seconds = atof(words[1]);
    key = add_key("user", "measured", payload, PAYLOAD, USER_KEYRING);
    connection = kr_open(NULL);
    int64_t made = connection ? kr_hello(connection, geteuid(), getegid(), 0, NULL) : -1;
    if (key < 0 || made < 0) fail("the daemon");
    context = (uint32_t)made;
    measure("keyctl_read", read_by_keyutils, 1);
    measure("keyctl_read, 8 threads of one identity", read_by_keyutils, THREADS);
    measure("kr_read", read_by_connection, 1);
    if (kr_send && kr_receive) measure("kr_send and kr_receive, 64 ahead", read_ahead, 1);
    return 0;
}
