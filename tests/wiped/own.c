/* own.c WORD [all]: a program over libkeyretain, with -DUTILS over libkeyutils, or with -DCALLS over the system calls,
 * that wipes its own copy of a payload. That comes from standard input, its length first, and is that of a key with
 * this description, which is revoked. Once it has said `done` nothing of it should be anywhere, until standard input
 * ends.
 *
 * It has to be linked with -z now: else the dynamic linker keeps the vector registers, where a copy has just gone
 * through, on the stack of whoever calls a function for the first time. */
#define _GNU_SOURCE
#include <stdbool.h>
#include <stdio.h>
#include <stdlib.h>
#include <string.h>
#include <sys/mman.h>
#include <unistd.h>
#if defined CALLS
#include <linux/keyctl.h>
#include <sys/syscall.h>
#define add_key(...) syscall(SYS_add_key, __VA_ARGS__)
#define keyctl_read(...) syscall(SYS_keyctl, KEYCTL_READ, __VA_ARGS__)
#define keyctl_update(...) syscall(SYS_keyctl, KEYCTL_UPDATE, __VA_ARGS__)
#define keyctl_revoke(...) syscall(SYS_keyctl, KEYCTL_REVOKE, __VA_ARGS__)
#define keyctl_read_alloc(key, bytes) ((void)(key), *(bytes) = malloc(1), 0)
typedef int key_serial_t;
#elif defined UTILS
#include "keyutils/keyutils.h"
#else
#include "library/keyretain.h"
#endif

enum { ROOM = 65536, DIGITS = 8, LONGEST_UPDATE = 4096 /* of keyctl_update(3) */ };

static unsigned char *own;

static long add(const char *description, size_t length, long *key);
static long take(long key, size_t room);
static long update(long key, size_t length);
static void take_all(long key);
static long end(long key);

#if defined UTILS || defined CALLS
static long add(const char *description, size_t length, long *key) {
    *key = add_key("user", description, own, length, KEY_SPEC_SESSION_KEYRING);
    return *key;
}
static long take(long key, size_t room) { return keyctl_read((key_serial_t)key, (char *)own, room); }
static long update(long key, size_t length) {
    return length > LONGEST_UPDATE ? 0 : keyctl_update((key_serial_t)key, own, length);
}
static long end(long key) { return keyctl_revoke((key_serial_t)key); }
static void take_all(long key) {
    void *bytes = NULL;
    int length = keyctl_read_alloc((key_serial_t)key, &bytes);
    if (length < 0) return;
    explicit_bzero(bytes, (size_t)length);
    free(bytes);
}
#else
static struct kr *kr;
static uint32_t context;
static long add(const char *description, size_t length, long *key) {
    kr = kr_open(NULL);
    int64_t made = kr ? kr_hello(kr, 1000, 1000, 0, NULL) : -1;
    context = (uint32_t)made;
    *key = made < 0 ? -1 : kr_add(kr, context, "user", description, own, length, -4);
    return *key;
}
static long take(long key, size_t room) { return (long)kr_read(kr, context, (int32_t)key, own, room); }
static long update(long key, size_t length) { return kr_update(kr, context, (int32_t)key, own, length); }
static void take_all(long key) { (void)key; }
static long end(long key) { return kr_revoke(kr, context, (int32_t)key); }
#endif

int main(int count, char **words) {
    size_t length = 0;
    ssize_t got;
    char line[DIGITS + 1] = ""; /* what stood behind the digits could be one more, and the length so too much */
    long key;
    own = mmap(NULL, ROOM, PROT_READ | PROT_WRITE, MAP_PRIVATE | MAP_ANONYMOUS, -1, 0);
    if (count < 2 || own == MAP_FAILED || read(0, line, DIGITS) != DIGITS) return 2;
    for (size_t wanted = strtoul(line, NULL, 16); length < wanted; length += (size_t)got)
        if ((got = read(0, own + length, wanted - length)) <= 0) return 2;
    bool is_well = add(words[1], length, &key) >= 0;
    explicit_bzero(own, ROOM);
    is_well = is_well && take(key, ROOM) == (long)length && update(key, length) == 0;
    explicit_bzero(own, ROOM);
    is_well = is_well && take(key, 4) == (long)length; /* there is no room for it */
    if (count > 2) take_all(key);
    explicit_bzero(own, ROOM);
    is_well = is_well && end(key) == 0;
    puts(is_well ? "done" : "failed");
    fflush(stdout);
    return read(0, line, 1) != 0;
}
