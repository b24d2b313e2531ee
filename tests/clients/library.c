/* library: asks of libkeyretain to a daemon. */
#include "check.h"
#include "library/keyretain.h"

enum { USER_KEYRING = -4, LONGEST_PAYLOAD = 32767, LONGEST_RING = 4096, NOTE = 16 };

static struct kr *connection;
static uint32_t context;

/* Whether these bytes are what a call answered. */
static bool is_text(const char *wanted, int64_t length, const char *got) {
    return length == (int64_t)strlen(wanted) && memcmp(wanted, got, (size_t)length) == 0;
}

/* Keys and keyrings, and what is refused, by a uid of its own. */
static void try_keys(uint32_t uid) {
    char buffer[64], described[64];
    int64_t ring = kr_get_id(connection, context, USER_KEYRING, 0);
    int64_t key = kr_add(connection, context, "user", "alpha", "s3", 2, USER_KEYRING);
    check("a key is added", ring > 0 && key > ring);
    check("it is read", is_text("s3", kr_read(connection, context, (int32_t)key, buffer, sizeof buffer), buffer));
    snprintf(described, sizeof described, "user;%u;1000;3f010000;alpha", (unsigned)uid);
    check("it is described",
          is_text(described, kr_describe(connection, context, (int32_t)key, buffer, sizeof buffer), buffer));
    memset(buffer, 'x', sizeof buffer);
    check("a null byte where room is left", kr_read(connection, context, (int32_t)key, buffer, 3) == 2 &&
          kr_describe(connection, context, (int32_t)key, buffer + 8, strlen(described) + 1) > 0 &&
          memcmp(buffer, "s3\0xxxxx", 8) == 0 && strcmp(buffer + 8, described) == 0);
    memset(buffer, 'x', sizeof buffer);
    check("and none where it isn't", kr_read(connection, context, (int32_t)key, buffer, 2) == 2 &&
          memcmp(buffer, "s3xx", 4) == 0);
    check("it is found", kr_search(connection, context, USER_KEYRING, "user", "alpha", 0) == key);
    check("it is updated", kr_update(connection, context, (int32_t)key, "new", 3) == 0);
    check("it is read anew", is_text("new", kr_read(connection, context, (int32_t)key, buffer, sizeof buffer), buffer));
    check("no id", refused(kr_read(connection, context, 0, buffer, sizeof buffer), EINVAL));
    check("no such key", refused(kr_get_id(connection, context, 2147483647, 0), ENOKEY));
    check("no such context", refused(kr_thread(connection, 0), ESRCH));
    check("it is revoked", kr_revoke(connection, context, (int32_t)key) == 0);
    check("it is not read any more",
          refused(kr_read(connection, context, (int32_t)key, buffer, sizeof buffer), EKEYREVOKED));
    check("the keyring is cleared", kr_clear(connection, context, (int32_t)ring) == 0);
}

/* The longest payload goes there and back. */
static void try_longest(void) {
    static char payload[LONGEST_PAYLOAD], buffer[LONGEST_PAYLOAD + 1];
    for (size_t i = 0; i < sizeof payload; i++) payload[i] = (char)(i * 7);
    int64_t key = kr_add(connection, context, "user", "long", payload, sizeof payload, USER_KEYRING);
    check("the longest payload is read",
          kr_read(connection, context, (int32_t)key, buffer, sizeof buffer) == (int64_t)sizeof payload &&
          memcmp(payload, buffer, sizeof payload) == 0);
    check("a longer one is refused",
          refused(kr_update(connection, context, (int32_t)key, buffer, sizeof buffer), EINVAL));
}

static void try_queues(void) {
    char buffer[64];
    int64_t queue = kr_open_queue(connection, LONGEST_RING);
    int64_t key = kr_add(connection, context, "user", "watched", "s3", 2, USER_KEYRING);
    check("the longest queue", queue > 0);
    check("a longer queue", refused(kr_open_queue(connection, LONGEST_RING + 1), EINVAL));
    check("a watch", kr_watch(connection, context, (int32_t)key, (uint32_t)queue, 9) == 0);
    check("a note", kr_update(connection, context, (int32_t)key, "new", 3) == 0 &&
          kr_read_queue(connection, (uint32_t)queue, buffer, sizeof buffer) == NOTE);
    check("no more notes", refused(kr_read_queue(connection, (uint32_t)queue, buffer, sizeof buffer), EAGAIN));
    check("the queue is closed", kr_close_queue(connection, (uint32_t)queue) == 0);
    check("it is closed already", refused(kr_close_queue(connection, (uint32_t)queue), EBADF));
}

int main(void) {
    const uint32_t uid = 5000;
    check("no such flag", !kr_open_with(NULL, 2, 1000) && errno == EINVAL);
    connection = kr_open(NULL);
    if (!check("a connection", connection != NULL)) return conclude("library");
    int64_t made = kr_hello(connection, uid, 1000, 0, NULL);
    context = (uint32_t)made;
    check("a context", made > 0);
    try_keys(uid);
    try_longest();
    try_queues();
    check("the client leaves", kr_leave(connection) == 0);
    check("its context has ended", refused(kr_exec(connection, context), ESRCH));
    check("the connection is whole", !kr_is_broken(connection));
    kr_close(connection);
    return conclude("library");
}
