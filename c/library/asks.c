/* asks.c: the asks, a row and a function each. What each does: keyretain-protocol(7). */
#include "connection.h"

const struct kr_ask_form kr_ask_forms[] = {
    { KR_GET_ID, "GET_ID", KR_SERIAL, { KR_ID, KR_U8 } },
    { KR_JOIN, "JOIN", KR_SERIAL, { KR_TEXT } },
    { KR_UPDATE, "UPDATE", KR_NOTHING, { KR_ID, KR_BLOB } },
    { KR_REVOKE, "REVOKE", KR_NOTHING, { KR_ID } },
    { KR_CHOWN, "CHOWN", KR_NOTHING, { KR_ID, KR_U32, KR_U32 } },
    { KR_SETPERM, "SETPERM", KR_NOTHING, { KR_ID, KR_U32 } },
    { KR_DESCRIBE, "DESCRIBE", KR_BYTES, { KR_ID } },
    { KR_CLEAR, "CLEAR", KR_NOTHING, { KR_ID } },
    { KR_LINK, "LINK", KR_NOTHING, { KR_ID, KR_ID } },
    { KR_UNLINK, "UNLINK", KR_NOTHING, { KR_ID, KR_ID } },
    { KR_SEARCH, "SEARCH", KR_SERIAL, { KR_ID, KR_TEXT, KR_TEXT, KR_ID } },
    { KR_READ, "READ", KR_BYTES, { KR_ID } },
    { KR_SET_TIMEOUT, "SET_TIMEOUT", KR_NOTHING, { KR_ID, KR_U32 } },
    { KR_INVALIDATE, "INVALIDATE", KR_NOTHING, { KR_ID } },
    { KR_RESTRICT_KEYRING, "RESTRICT_KEYRING", KR_NOTHING, { KR_ID, KR_TEXT } },
    { KR_MOVE, "MOVE", KR_NOTHING, { KR_ID, KR_ID, KR_ID, KR_U32 } },
    { KR_WATCH, "WATCH", KR_NOTHING, { KR_ID, KR_U32, KR_I32 } },
    { KR_HELLO, "HELLO", KR_NUMBER, { KR_U32, KR_U32, KR_GROUPS } },
    { KR_THREAD, "THREAD", KR_NUMBER, { KR_END } },
    { KR_FORK, "FORK", KR_NUMBER, { KR_END } },
    { KR_EXEC, "EXEC", KR_NOTHING, { KR_END } },
    { KR_EXIT, "EXIT", KR_NOTHING, { KR_END } },
    { KR_LEAVE, "LEAVE", KR_NOTHING, { KR_END } },
    { KR_ADD, "ADD", KR_SERIAL, { KR_TEXT, KR_TEXT, KR_BLOB, KR_ID } },
    { KR_REQUEST, "REQUEST", KR_SERIAL, { KR_TEXT, KR_TEXT, KR_ID } },
    { KR_OPEN_QUEUE, "OPEN_QUEUE", KR_NUMBER, { KR_U32 } },
    { KR_SET_FILTER, "SET_FILTER", KR_NOTHING, { KR_U32, KR_ENTRIES } },
    { KR_READ_QUEUE, "READ_QUEUE", KR_BYTES, { KR_U32, KR_U32 } },
    { KR_CLOSE_QUEUE, "CLOSE_QUEUE", KR_NOTHING, { KR_U32 } },
};
const size_t kr_ask_form_count = sizeof kr_ask_forms / sizeof *kr_ask_forms;

const struct kr_ask_form *kr_ask_form(unsigned operation) {
    for (size_t i = 0; i < kr_ask_form_count; i++)
        if (kr_ask_forms[i].operation == operation) return &kr_ask_forms[i];
    return NULL;
}

static struct kr_field number(uint32_t number) { return (struct kr_field){ .number = number }; }
static struct kr_field id(int32_t id) { return number((uint32_t)id); }

static struct kr_field items(const void *items, size_t count) {
    return (struct kr_field){ .items = items, .count = count };
}

static struct kr_field text(const char *text) { return items(text, text ? strlen(text) : 0); }

/* An ask with these fields, and what it answers. */
#define FIELDS(...) (const struct kr_field[]){ __VA_ARGS__ }
#define BYTES(operation, context, ...) kr_ask(connection, operation, context, FIELDS(__VA_ARGS__), buffer, room)
#define NUMBER(operation, context, ...) kr_ask(connection, operation, context, FIELDS(__VA_ARGS__), NULL, 0)
#define SERIAL(operation, ...) (int32_t)NUMBER(operation, context, __VA_ARGS__)
#define NOTHING(operation, context, ...) (int)NUMBER(operation, context, __VA_ARGS__)

/* Ends an answer as a text where room is left for that. */
static int64_t ended(int64_t length, char *buffer, size_t room) {
    if (buffer && length >= 0 && (uint64_t)length < room) buffer[length] = '\0';
    return length;
}

/* ---- Contexts ---- */

int64_t kr_hello(struct kr *connection, uint32_t uid, uint32_t gid, uint32_t count, const uint32_t *groups) {
    return NUMBER(KR_HELLO, 0, number(uid), number(gid), items(groups, count));
}

int64_t kr_thread(struct kr *connection, uint32_t context) { return NUMBER(KR_THREAD, context, { 0 }); }
int64_t kr_fork(struct kr *connection, uint32_t context) { return NUMBER(KR_FORK, context, { 0 }); }
int kr_exec(struct kr *connection, uint32_t context) { return NOTHING(KR_EXEC, context, { 0 }); }
int kr_exit(struct kr *connection, uint32_t context) { return NOTHING(KR_EXIT, context, { 0 }); }
int kr_leave(struct kr *connection) { return NOTHING(KR_LEAVE, 0, { 0 }); }

/* ---- Keys and keyrings ---- */

int32_t kr_get_id(struct kr *connection, uint32_t context, int32_t key, int create) {
    return SERIAL(KR_GET_ID, id(key), number(create != 0));
}

int32_t kr_join(struct kr *connection, uint32_t context, const char *name) { return SERIAL(KR_JOIN, text(name)); }

int kr_update(struct kr *connection, uint32_t context, int32_t key, const void *payload, size_t length) {
    return NOTHING(KR_UPDATE, context, id(key), items(payload, length));
}

int kr_revoke(struct kr *connection, uint32_t context, int32_t key) { return NOTHING(KR_REVOKE, context, id(key)); }

int kr_chown(struct kr *connection, uint32_t context, int32_t key, uint32_t uid, uint32_t gid) {
    return NOTHING(KR_CHOWN, context, id(key), number(uid), number(gid));
}

int kr_setperm(struct kr *connection, uint32_t context, int32_t key, uint32_t mask) {
    return NOTHING(KR_SETPERM, context, id(key), number(mask));
}

int64_t kr_describe(struct kr *connection, uint32_t context, int32_t key, void *buffer, size_t room) {
    return ended(BYTES(KR_DESCRIBE, context, id(key)), buffer, room);
}

int kr_clear(struct kr *connection, uint32_t context, int32_t ring) { return NOTHING(KR_CLEAR, context, id(ring)); }

int kr_link(struct kr *connection, uint32_t context, int32_t key, int32_t ring) {
    return NOTHING(KR_LINK, context, id(key), id(ring));
}

int kr_unlink(struct kr *connection, uint32_t context, int32_t key, int32_t ring) {
    return NOTHING(KR_UNLINK, context, id(key), id(ring));
}

int32_t kr_search(struct kr *connection, uint32_t context, int32_t head, const char *type, const char *description,
                  int32_t destination) {
    return SERIAL(KR_SEARCH, id(head), text(type), text(description), id(destination));
}

int64_t kr_read(struct kr *connection, uint32_t context, int32_t key, void *buffer, size_t room) {
    return ended(BYTES(KR_READ, context, id(key)), buffer, room);
}

int kr_set_timeout(struct kr *connection, uint32_t context, int32_t key, uint32_t seconds) {
    return NOTHING(KR_SET_TIMEOUT, context, id(key), number(seconds));
}

int kr_invalidate(struct kr *connection, uint32_t context, int32_t key) {
    return NOTHING(KR_INVALIDATE, context, id(key));
}

int kr_restrict_keyring(struct kr *connection, uint32_t context, int32_t ring, const char *type) {
    return NOTHING(KR_RESTRICT_KEYRING, context, id(ring), text(type));
}

int kr_move(struct kr *connection, uint32_t context, int32_t key, int32_t from, int32_t to, uint32_t flags) {
    return NOTHING(KR_MOVE, context, id(key), id(from), id(to), number(flags));
}

int32_t kr_add(struct kr *connection, uint32_t context, const char *type, const char *description,
               const void *payload, size_t length, int32_t ring) {
    return SERIAL(KR_ADD, text(type), text(description), items(payload, length), id(ring));
}

int32_t kr_request(struct kr *connection, uint32_t context, const char *type, const char *description,
                   int32_t destination) {
    return SERIAL(KR_REQUEST, text(type), text(description), id(destination));
}

/* ---- Queues ---- */

int64_t kr_open_queue(struct kr *connection, uint32_t capacity) { return NUMBER(KR_OPEN_QUEUE, 0, number(capacity)); }

int kr_watch(struct kr *connection, uint32_t context, int32_t key, uint32_t queue, int32_t watch) {
    return NOTHING(KR_WATCH, context, id(key), number(queue), id(watch));
}

int kr_set_filter(struct kr *connection, uint32_t queue, uint32_t count, const struct kr_entry *entries) {
    return NOTHING(KR_SET_FILTER, 0, number(queue), items(entries, count));
}

int64_t kr_read_queue(struct kr *connection, uint32_t queue, void *buffer, size_t room) {
    uint32_t asked = room < UINT32_MAX ? (uint32_t)room : UINT32_MAX;
    return BYTES(KR_READ_QUEUE, 0, number(queue), number(asked));
}

/* The end of the connection ends a pause; and where it is interruptible, a signal does. */
int64_t kr_wait_notes(struct kr *connection, uint32_t queue, int milliseconds, void *buffer, size_t room) {
    enum { SHORTEST = 50, LONGEST = 1000, PART = 10 };
    const int64_t begun = kr_now(), end = milliseconds < 0 ? KR_NEVER : begun + milliseconds;
    for (;;) {
        int64_t length = kr_read_queue(connection, queue, buffer, room), now = kr_now();
        if (length >= 0 || errno != EAGAIN || now >= end) return length;
        int64_t pause = (now - begun) / PART;
        pause = pause < SHORTEST ? SHORTEST : pause > LONGEST ? LONGEST : pause;
        struct pollfd wait = { .fd = kr_descriptor(connection), .events = POLLIN };
        int woken = poll(&wait, 1, (int)(pause < end - now ? pause : end - now));
        if (woken < 0 && (errno != EINTR || connection->interruptible)) return -1;
    }
}

int kr_close_queue(struct kr *connection, uint32_t queue) { return NOTHING(KR_CLOSE_QUEUE, 0, number(queue)); }
