/* check.h: a line for each check that fails, and how many passed and failed, for the tests in C; and the headers that
 * most of them want. */
#ifndef KEYRETAIN_CHECK_H
#define KEYRETAIN_CHECK_H

#include <dlfcn.h>
#include <errno.h>
#include <fcntl.h>
#include <pthread.h>
#include <signal.h>
#include <stdbool.h>
#include <stdio.h>
#include <stdlib.h>
#include <string.h>
#include <sys/socket.h>
#include <sys/stat.h>
#include <sys/time.h>
#include <sys/wait.h>
#include <time.h>
#include <unistd.h>

/* The function that one here of its name stands before. */
#define OURS(name) ((__typeof__(&(name)))dlsym(RTLD_NEXT, #name))

static int failed_checks, passed_checks;

/* A check. One that fails again isn't told again: so many names are remembered. */
static inline bool check(const char *what, bool holds) {
    static unsigned told[64];
    int error = errno;
    if (holds) {
        __atomic_add_fetch(&passed_checks, 1, __ATOMIC_SEQ_CST);
        return true;
    }
    int last = __atomic_add_fetch(&failed_checks, 1, __ATOMIC_SEQ_CST) - 1;
    unsigned sum = 1;
    for (const char *at = what; *at; at++) sum = sum * 31 + (unsigned char)*at;
    for (int i = 0; i < 64; i++)
        if (__atomic_load_n(&told[i], __ATOMIC_RELAXED) == sum) return false;
    __atomic_store_n(&told[last % 64], sum, __ATOMIC_RELAXED);
    printf("fails: %s (errno %d, %s)\n", what, error, strerror(error));
    fflush(stdout);
    return false;
}

/* Whether a call was refused with this error. */
static inline bool refused(long answer, int error) { return answer == -1 && errno == error; }

/* What a thread returns, which has run then. */
static inline void *in_thread(void *(*run)(void *), void *data) {
    pthread_t thread;
    void *returned = NULL;
    if (pthread_create(&thread, NULL, run, data) == 0) pthread_join(thread, &returned);
    return returned;
}

/* How many descriptors are sockets. */
static inline int count_sockets(void) {
    int sockets = 0;
    struct stat status;
    for (int i = 0; i < 1024; i++) sockets += fstat(i, &status) == 0 && S_ISSOCK(status.st_mode);
    return sockets;
}

static inline void do_nothing(int unused) { (void)unused; }

/* SIGALRM, whose handler returns, comes after so many microseconds, and again each `every`; no more for 0. */
static inline void interrupt_after(int microseconds, int every) {
    struct sigaction action = { .sa_handler = do_nothing };
    struct itimerval times = { .it_value.tv_usec = microseconds, .it_interval.tv_usec = every };
    sigaction(SIGALRM, &action, NULL);
    setitimer(ITIMER_REAL, &times, NULL);
}

static inline void hold_back(int number) {
    sigset_t held;
    sigemptyset(&held);
    sigaddset(&held, number);
    sigprocmask(SIG_BLOCK, &held, NULL);
}

static inline int conclude(const char *name) {
    printf("%s: %d passed, %d failed\n", name, passed_checks, failed_checks);
    fflush(stdout);
    return failed_checks != 0;
}

#endif
