/* calls.c WORD ..: makes key calls by the system calls themselves, and prints a line for each:
 *   add DESC DATA RING    adds a user key: `ok`, or the error
 *   fill RING             adds keys of 32,000 bytes until one is refused, 100,000 at most: the error
 *   print DESC            requests it: its payload
 *   serial RING           the keyring's serial
 *   describe RING         its type, uid, gid, mask and description
 *   join NAME             joins a session: `ok`
 *   unlink DESC RING      requests a key, and unlinks it
 *   put FILE, await FILE  makes a file that has its process id; waits until it is there, for a minute at most
 *   chgrp GID, mode MASK  changes the group or the permissions of the key that was added last: `ok`
 *   read                  its payload
 *   to-parent             gives the session to the parent: `ok`
 *   become UID            takes this uid and gid, and no groups
 *   belong UID GID        the same with this group
 *   keep UID              takes this uid and gid, and keeps its groups
 *   exec CMD ..           executes the rest */
#define _GNU_SOURCE
#include <errno.h>
#include <fcntl.h>
#include <grp.h>
#include <linux/keyctl.h>
#include <stdio.h>
#include <stdlib.h>
#include <string.h>
#include <sys/syscall.h>
#include <unistd.h>

#define IS(word) (strcmp(*at, word) == 0)

enum { STEP_MICROSECONDS = 20000, STEPS = 3000 };

static long call(long command, long first, long second, long third) {
    return syscall(SYS_keyctl, command, first, second, third, 0);
}

static long id_of(const char *word) {
    static const char *const names[] = { "@t", "@p", "@s", "@u", "@us" };
    for (int i = 0; i < 5; i++)
        if (strcmp(word, names[i]) == 0) return -1 - i;
    return atol(word);
}

static void say(long result) { puts(result >= 0 ? "ok" : strerrorname_np(errno)); }

static void say_text(long length, const char *text) {
    if (length < 0) say(length);
    else printf("%.*s\n", (int)length, text);
}

static void print(const char *description) {
    char text[4096];
    long key = syscall(SYS_request_key, "user", description, NULL, 0);
    say_text(key < 0 ? key : call(KEYCTL_READ, key, (long)text, sizeof text), text);
}

static void fill(const char *ring) {
    static char bytes[32000], name[16];
    long key = 0;
    for (int i = 0; i < 100000 && key >= 0; i++) {
        snprintf(name, sizeof name, "f%d", i);
        key = syscall(SYS_add_key, "user", name, bytes, sizeof bytes, id_of(ring));
    }
    say(key);
}

static void say_serial(const char *ring) {
    long serial = call(KEYCTL_GET_KEYRING_ID, id_of(ring), 1, 0);
    if (serial < 0) say(serial);
    else printf("%ld\n", serial);
}

static void describe(const char *ring) {
    char text[4096];
    long length = call(KEYCTL_DESCRIBE, id_of(ring), (long)text, sizeof text);
    say_text(length > 0 ? length - 1 : length, text);
}

static void unlink_key(const char *description, const char *ring) {
    long key = syscall(SYS_request_key, "user", description, NULL, 0);
    say(key < 0 ? key : call(KEYCTL_UNLINK, key, id_of(ring), 0));
}

static void put(const char *file) {
    int made = open(file, O_CREAT | O_WRONLY, 0600);
    dprintf(made, "%d\n", (int)getpid());
    close(made);
}

static void await(const char *file) {
    for (int i = 0; i < STEPS && access(file, F_OK) < 0; i++) usleep(STEP_MICROSECONDS);
}

static long added; /* by `add` */

static void read_added(void) {
    char text[4096];
    say_text(call(KEYCTL_READ, added, (long)text, sizeof text), text);
}

static void become(unsigned id, int count, gid_t group) {
    if (count >= 0) setgroups((size_t)count, &group);
    if (setgid(id) < 0 || setuid(id) < 0) perror("setuid");
}

int main(int count, char **words) {
    setvbuf(stdout, NULL, _IOLBF, 0);
    for (char **at = words + 1, **end = words + count; at < end; at++) {
        if (IS("add") && end - at > 3) {
            added = syscall(SYS_add_key, "user", at[1], at[2], strlen(at[2]), id_of(at[3]));
            say(added);
            at += 3;
        } else if (IS("print")) print(*++at);
        else if (IS("fill")) fill(*++at);
        else if (IS("serial")) say_serial(*++at);
        else if (IS("describe")) describe(*++at);
        else if (IS("join")) say(call(KEYCTL_JOIN_SESSION_KEYRING, (long)*++at, 0, 0));
        else if (IS("unlink") && end - at > 2) unlink_key(at[1], at[2]), at += 2;
        else if (IS("put")) put(*++at);
        else if (IS("await")) await(*++at);
        else if (IS("chgrp")) say(call(KEYCTL_CHOWN, added, -1, atoi(*++at)));
        else if (IS("mode")) say(call(KEYCTL_SETPERM, added, strtol(*++at, NULL, 16), 0));
        else if (IS("read")) read_added();
        else if (IS("to-parent")) say(call(KEYCTL_SESSION_TO_PARENT, 0, 0, 0));
        else if (IS("keep")) become((unsigned)atoi(*++at), -1, 0);
        else if (IS("become")) become((unsigned)atoi(*++at), 0, 0);
        else if (IS("belong") && end - at > 2) become((unsigned)atoi(at[1]), 1, (gid_t)atoi(at[2])), at += 2;
        else if (IS("exec")) return execvp(at[1], at + 1);
        else return 2;
    }
    return 0;
}
