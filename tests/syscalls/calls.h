/* calls.h: the three system calls themselves, for the programs of tests/syscalls. */
#ifndef KEYRETAIN_CALLS_H
#define KEYRETAIN_CALLS_H

#include <linux/keyctl.h>
#include <linux/sched.h>
#include <stdint.h>
#include <sys/syscall.h>

#include "check.h"

static inline long add_key(const void *type, const void *description, const void *payload, size_t length, int ring) {
    return syscall(SYS_add_key, type, description, payload, length, (long)ring);
}

static inline long request_key(const void *type, const void *description, const void *information, int ring) {
    return syscall(SYS_request_key, type, description, information, (long)ring);
}

static inline long keyctl(int command, unsigned long one, unsigned long two, unsigned long three, unsigned long four) {
    return syscall(SYS_keyctl, (long)command, one, two, three, four);
}

/* The keyring that an id means for this thread, made where `create` isn't 0. */
static inline long ring_of(int id, int create) {
    return keyctl(KEYCTL_GET_KEYRING_ID, (unsigned long)(long)id, (unsigned long)create, 0, 0);
}

static inline long join(const char *name) { return keyctl(KEYCTL_JOIN_SESSION_KEYRING, (unsigned long)name, 0, 0, 0); }

static inline long read_key(long key, void *buffer, size_t room) {
    return keyctl(KEYCTL_READ, (unsigned long)key, (unsigned long)buffer, room, 0);
}

/* The key of type user and of that name that a keyring reaches. */
static inline long find(int id, const char *name) {
    return keyctl(KEYCTL_SEARCH, (unsigned long)(long)id, (unsigned long)"user", (unsigned long)name, 0);
}

/* The status of a child, -1 for one that did not end by itself. */
static inline int status_of(pid_t child) {
    int status;
    return waitpid(child, &status, 0) == child && WIFEXITED(status) ? WEXITSTATUS(status) : -1;
}

static inline bool child_says(bool (*says)(long), long known) {
    pid_t child = fork();
    if (child == 0) _exit(says(known) ? 0 : 1);
    return status_of(child) == 0;
}

static inline bool has_session(long session) { return ring_of(KEY_SPEC_SESSION_KEYRING, 0) == session; }

/* A child with this number. */
static inline pid_t fork_as(pid_t number) {
    struct clone_args arguments = { .exit_signal = SIGCHLD, .set_tid = (uintptr_t)&number, .set_tid_size = 1 };
    pid_t child = (pid_t)syscall(SYS_clone3, &arguments, sizeof arguments);
    if (child != 0 && child != number) exit(2);
    return child;
}

static inline void end_child(pid_t child) {
    kill(child, SIGKILL);
    if (waitpid(child, NULL, 0) != child) exit(2);
}

#endif
