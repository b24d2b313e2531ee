/* syscalls COUNT ASK [LIBRARY]: makes a call so many times, and prints how many nanoseconds each took, a line each: by
 * the system call itself, or by the functions of a libkeyutils. For bench/syscalls. */
#define _GNU_SOURCE
#include <dlfcn.h>
#include <linux/keyctl.h>
#include <stdint.h>
#include <stdio.h>
#include <stdlib.h>
#include <string.h>
#include <sys/syscall.h>
#include <time.h>
#include <unistd.h>

static const char payload[] = "0123456789abcdef";

static long (*keyctl_of_library)(int command, ...);
static int32_t (*add_key_of_library)(const char *, const char *, const void *, size_t, int32_t);

static long keyctl(int command, unsigned long one, unsigned long two, unsigned long three) {
    return keyctl_of_library ? keyctl_of_library(command, one, two, three, 0ul)
                             : syscall(SYS_keyctl, (long)command, one, two, three, 0ul);
}

static long add_key(void) {
    if (add_key_of_library) return add_key_of_library("user", "calls", payload, 16, KEY_SPEC_PROCESS_KEYRING);
    return syscall(SYS_add_key, "user", "calls", payload, 16ul, (long)KEY_SPEC_PROCESS_KEYRING);
}

static long call(const char *ask, long key) {
    char buffer[256];
    if (strcmp(ask, "get_id") == 0)
        return keyctl(KEYCTL_GET_KEYRING_ID, (unsigned long)(long)KEY_SPEC_PROCESS_KEYRING, 0, 0);
    if (strcmp(ask, "read") == 0) return keyctl(KEYCTL_READ, (unsigned long)key, (unsigned long)buffer, sizeof buffer);
    if (strcmp(ask, "describe") == 0)
        return keyctl(KEYCTL_DESCRIBE, (unsigned long)key, (unsigned long)buffer, sizeof buffer);
    return add_key();
}

static int use_library(const char *path) {
    void *library = dlopen(path, RTLD_NOW);
    if (!library) return -1;
    *(void **)&keyctl_of_library = dlsym(library, "keyctl");
    *(void **)&add_key_of_library = dlsym(library, "add_key");
    return keyctl_of_library && add_key_of_library ? 0 : -1;
}

static long nanoseconds(void) {
    struct timespec now;
    clock_gettime(CLOCK_MONOTONIC, &now);
    return now.tv_sec * 1000000000 + now.tv_nsec;
}

int main(int words, char **word) {
    if (words < 3) return 2;
    int count = atoi(word[1]);
    long *took = calloc((size_t)count, sizeof *took);
    if (!took || (words > 3 && use_library(word[3]) < 0)) return 2;
    long key = add_key();
    if (key < 0) return perror("calls"), 1;
    for (int i = 0; i < count; i++) {
        long begun = nanoseconds();
        if (call(word[2], key) < 0) return perror("calls"), 1;
        took[i] = nanoseconds() - begun;
    }
    for (int i = 0; i < count; i++) printf("%ld\n", took[i]);
    return 0;
}
