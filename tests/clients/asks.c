/* asks PATH VERSION MODE: calls of libkeyretain against the server of frames.py, with what they answer. all: each
 * function once. late: calls that are interrupted or out of patience, whose replies come late. first: the same of the
 * first call. restarted: signals that end no call. one: a call that is answered, and one more. fork: a call in a child.
 * fork-old: the same where the kernel wipes nothing in a child. */
#define _GNU_SOURCE
#include <inttypes.h>

#include <sys/mman.h>

#include "check.h"
#include "library/keyretain.h"

static struct kr *connection;
static bool is_old; /* as before Linux 4.14 */

int madvise(void *at, size_t length, int advice) {
    if (!is_old || advice != MADV_WIPEONFORK) return OURS(madvise)(at, length, advice);
    errno = EINVAL;
    return -1;
}

static void say(const char *what, int64_t answer) {
    if (answer < 0)
        printf("%s: %s%s\n", what, strerrorname_np(errno), kr_is_broken(connection) ? ", broken" : "");
    else
        printf("%s: %" PRId64 "\n", what, answer);
    fflush(stdout);
}

static void say_bytes(const char *what, int64_t length, const char *buffer) {
    say(what, length);
    if (length >= 0) printf("%s: %s\n", what, buffer);
}

/* Each ask once, behind what the server must get of it: its name, its context, and its fields as Python spells them. */

static void ask_contexts(void) {
    const uint32_t groups[] = { 7, 8, 9 };
    say("HELLO 0 [1000, 1001, [7, 8, 9]]", kr_hello(connection, 1000, 1001, 3, groups));
    say("THREAD 2 []", kr_thread(connection, 2));
    say("FORK 3 []", kr_fork(connection, 3));
    say("EXEC 4 []", kr_exec(connection, 4));
    say("EXIT 5 []", kr_exit(connection, 5));
    say("LEAVE 0 []", kr_leave(connection));
}

static void ask_keys(void) {
    char buffer[64] = "untouched";
    say("GET_ID 6 [-1, 1]", kr_get_id(connection, 6, -1, 5));
    say("JOIN 7 [b'name']", kr_join(connection, 7, "name"));
    say("JOIN 7 [b'']", kr_join(connection, 7, NULL));
    say("UPDATE 8 [11, b'new']", kr_update(connection, 8, 11, "new", 3));
    say("REVOKE 9 [12]", kr_revoke(connection, 9, 12));
    say("CHOWN 10 [13, 14, 4294967295]", kr_chown(connection, 10, 13, 14, UINT32_MAX));
    say("SETPERM 11 [15, 1057030144]", kr_setperm(connection, 11, 15, 0x3f010000));
    say_bytes("DESCRIBE 12 [16]", kr_describe(connection, 12, 16, buffer, 2), buffer);
    say_bytes("DESCRIBE 12 [16]", kr_describe(connection, 12, 16, buffer, sizeof buffer), buffer);
    memset(buffer, 0, sizeof buffer);
    say_bytes("READ 13 [17]", kr_read(connection, 13, 17, buffer, sizeof buffer), buffer);
    say("READ 13 [17]", kr_read(connection, 13, 17, NULL, 0));
    say("SET_TIMEOUT 14 [18, 60]", kr_set_timeout(connection, 14, 18, 60));
    say("INVALIDATE 15 [19]", kr_invalidate(connection, 15, 19));
    say("ADD 16 [b'user', b'alpha', b's3', -4]", kr_add(connection, 16, "user", "alpha", "s3", 2, -4));
    say("ADD 16 [b'keyring', b'ring', b'', -4]", kr_add(connection, 16, "keyring", "ring", NULL, 0, -4));
    say("REQUEST 17 [b'user', b'alpha', 0]", kr_request(connection, 17, "user", "alpha", 0));
}

static void ask_rings(void) {
    say("CLEAR 18 [20]", kr_clear(connection, 18, 20));
    say("LINK 19 [21, 22]", kr_link(connection, 19, 21, 22));
    say("UNLINK 20 [23, 24]", kr_unlink(connection, 20, 23, 24));
    say("SEARCH 21 [-3, b'logon', b'a:b', 25]", kr_search(connection, 21, -3, "logon", "a:b", 25));
    say("RESTRICT_KEYRING 22 [26, b'']", kr_restrict_keyring(connection, 22, 26, NULL));
    say("MOVE 23 [27, 28, -2, 1]", kr_move(connection, 23, 27, 28, -2, 1));
}

static void ask_queues(void) {
    const struct kr_entry entry = { 1, 2, 3, { 4, 5, 6, 7, 8, 9, 10, 11 } };
    char buffer[64] = "";
    say("OPEN_QUEUE 0 [8]", kr_open_queue(connection, 8));
    say("WATCH 24 [29, 30, -1]", kr_watch(connection, 24, 29, 30, -1));
    say("SET_FILTER 0 [31, [(1, 2, 3, 4, 5, 6, 7, 8, 9, 10, 11)]]", kr_set_filter(connection, 31, 1, &entry));
    say_bytes("READ_QUEUE 0 [32, 64]", kr_read_queue(connection, 32, buffer, sizeof buffer), buffer);
    say("CLOSE_QUEUE 0 [33]", kr_close_queue(connection, 33));
}

static void ask_what_fits_no_frame(void) {
    static char longest[65537];
    memset(longest, 'a', sizeof longest - 1);
    say("a name of 65536 bytes", kr_join(connection, 1, longest));
    say("a payload of 65536 bytes", kr_update(connection, 1, 5, longest, 65536));
}

static void ask_all(void) {
    ask_contexts();
    ask_keys();
    ask_rings();
    ask_queues();
    ask_what_fits_no_frame();
}

/* The server keeps the replies to the asks that revoke, and sends them before that to the next one. */
static void ask_late(void) {
    say("hello", kr_hello(connection, 1, 1, 0, NULL));
    kr_set_interruptible(connection, 1);
    interrupt_after(50000, 0);
    say("interrupted", kr_revoke(connection, 1, 5));
    say("the next", kr_get_id(connection, 1, -4, 0));
    kr_set_interruptible(connection, 0);
    kr_set_patience(connection, 50);
    say("out of patience", kr_revoke(connection, 1, 6));
    say("out of patience again", kr_revoke(connection, 1, 7));
    kr_set_patience(connection, 5000);
    say("the next", kr_get_id(connection, 1, -4, 0));
}

/* An interrupted call that is the first. */
static void ask_first(void) {
    kr_set_interruptible(connection, 1);
    interrupt_after(50000, 0);
    say("interrupted", kr_hello(connection, 1, 1, 0, NULL));
    say("the next", kr_hello(connection, 1, 1, 0, NULL));
    say("another", kr_get_id(connection, 1, -4, 0));
}

/* A signal whose handler returns doesn't end a call unless that was asked for. */
static void ask_restarted(void) {
    say("hello", kr_hello(connection, 1, 1, 0, NULL));
    interrupt_after(20000, 20000);
    say("signals", kr_clear(connection, 1, 5));
}

static void ask_one(void) {
    say("one", kr_get_id(connection, 1, -4, 0));
    say("one more", kr_get_id(connection, 1, -4, 0));
}

static void ask_in_child(void) {
    say("hello", kr_hello(connection, 1, 1, 0, NULL));
    pid_t child = fork();
    if (child == 0) {
        say("in the child", kr_get_id(connection, 1, -4, 0));
        kr_close(connection);
        exit(0);
    }
    waitpid(child, NULL, 0);
    say("in the parent", kr_get_id(connection, 1, -4, 0));
}

int main(int count, char **words) {
    static const struct {
        const char *name;
        void (*run)(void);
    } modes[] = { { "all", ask_all }, { "late", ask_late }, { "first", ask_first }, { "restarted", ask_restarted },
                  { "one", ask_one }, { "fork", ask_in_child }, { "fork-old", ask_in_child } };
    is_old = count == 3 && strcmp(words[2], "fork-old") == 0;
    if (count != 3 || !(connection = kr_open(words[1]))) return 2;
    for (size_t i = 0; i < sizeof modes / sizeof *modes; i++)
        if (strcmp(words[2], modes[i].name) == 0) modes[i].run();
    kr_close(connection);
    return 0;
}
