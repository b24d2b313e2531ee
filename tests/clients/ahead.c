/* ahead: asks that libkeyretain sends ahead to a daemon, and records of a queue that it decodes. */
#include "check.h"
#include "library/keyretain.h"

enum { USER_KEYRING = -4, PROCESS_KEYRING = -2, LONG_PAYLOAD = 32767, ASKS = 60, WATCH = 200 };
enum { OPEN_TO_USER = 0x3f3f0000 };

static struct kr *connection;
static uint32_t context;
static uint64_t tag;

static struct kr_field number(int32_t value) { return (struct kr_field){ .number = (uint32_t)value }; }

static struct kr_field bytes(const void *items, size_t count) {
    return (struct kr_field){ .items = items, .count = count };
}

/* Sends a READ, and takes replies as long as the daemon or the bound lets nothing go out. How many came. */
static int send_read(int32_t key, void *buffer, size_t room) {
    const struct kr_field fields[] = { number(key) };
    int came = 0;
    while (kr_send(connection, KR_READ, context, fields, &tag) < 0) {
        if (errno != EAGAIN || kr_receive(connection, NULL, buffer, room) != LONG_PAYLOAD) return -1;
        came++;
    }
    return came;
}

/* Replies of 32 KB each fill what lies between, so that the daemon takes nothing until some are received. */
static void try_many(void) {
    static uint8_t payload[LONG_PAYLOAD], buffer[LONG_PAYLOAD];
    int came = 0, last = 0;
    memset(payload, 'p', sizeof payload);
    int32_t key = kr_add(connection, context, "user", "long", payload, sizeof payload, PROCESS_KEYRING);
    for (int i = 0; i < ASKS && last >= 0; i++) {
        last = send_read(key, buffer, sizeof buffer);
        came += last;
    }
    check("asks are sent ahead without end", key > 0 && last >= 0);
    while (last >= 0 && kr_receive(connection, &tag, buffer, sizeof buffer) == LONG_PAYLOAD) came++;
    check("each has its reply", came == ASKS && errno == ENOMSG && tag == 0);
    check("and what it read", memcmp(payload, buffer, sizeof buffer) == 0);
}

/* Answers are those of the asks' own functions, in the order of the asks, with their tags. */
static void try_answers(void) {
    const struct kr_field add[] = { bytes("user", 4), bytes("alpha", 5), bytes("s3", 2), number(USER_KEYRING) };
    const struct kr_field none[] = { number(2147483647) }, own[] = { number(USER_KEYRING) };
    const struct kr_field timeout[] = { number(USER_KEYRING), number(0) };
    uint64_t tags[4], got[4];
    char buffer[8] = "";
    check("four asks", kr_send(connection, KR_ADD, context, add, &tags[0]) == 0 &&
          kr_send(connection, KR_READ, context, none, &tags[1]) == 0 &&
          kr_send(connection, KR_SET_TIMEOUT, context, timeout, &tags[2]) == 0 &&
          kr_send(connection, KR_DESCRIBE, context, own, &tags[3]) == 0);
    check("another call has to wait", refused(kr_exec(connection, context), EBUSY));
    check("a serial", kr_receive(connection, &got[0], NULL, 0) > 2);
    check("a refusal", refused((long)kr_receive(connection, &got[1], NULL, 0), ENOKEY));
    check("nothing", kr_receive(connection, &got[2], NULL, 0) == 0);
    check("a text that is longer than the room",
          kr_receive(connection, &got[3], buffer, sizeof buffer) > 8 && *buffer == '\0');
    check("the tags", memcmp(tags, got, sizeof got) == 0);
    check("no more", refused((long)kr_receive(connection, &tag, NULL, 0), ENOMSG) && tag == 0);
    check("other calls go on", kr_exec(connection, context) == 0);
}

static void try_refusals(void) {
    const struct kr_field own[] = { number(USER_KEYRING) };
    struct kr *fresh = kr_open(NULL);
    check("before the first reply", kr_send(fresh, KR_DESCRIBE, 1, own, NULL) == 0);
    check("it is refused", refused((long)kr_receive(fresh, NULL, NULL, 0), ESRCH));
    kr_close(fresh);
    check("no such ask", refused(kr_send(connection, 9999, context, own, NULL), EINVAL));
    int sent = 0;
    while (kr_send(connection, KR_DESCRIBE, context, own, NULL) == 0) sent++;
    check("as many as may be awaited", sent == KR_AHEAD_MAX && errno == EAGAIN);
    while (kr_receive(connection, NULL, NULL, 0) > 0) sent--;
    check("all are received", sent == 0 && errno == ENOMSG);
}

/* A reply that comes too late for one call is still awaited by the next. */
static void try_patience(void) {
    const struct kr_field own[] = { number(USER_KEYRING) };
    check("an ask", kr_send(connection, KR_DESCRIBE, context, own, NULL) == 0);
    kr_set_patience(connection, 0);
    int64_t length = kr_receive(connection, &tag, NULL, 0);
    check("at once, or not at all", length > 0 || (refused((long)length, ETIMEDOUT) && tag == 0));
    kr_set_patience(connection, 20000);
    check("later", length > 0 || kr_receive(connection, &tag, NULL, 0) > 0);
}

/* ---- Records ---- */

static bool is_note(const struct kr_note *note, const char *name, int32_t key, int32_t other) {
    return strcmp(note->name, name) == 0 && note->key == key && note->other == other;
}

static void try_notes(void) {
    uint8_t records[128];
    const void *at = records;
    struct kr_note note;
    int64_t queue = kr_open_queue(connection, 8);
    int32_t ring = kr_add(connection, context, "keyring", "watched", NULL, 0, PROCESS_KEYRING);
    check("a watch", kr_watch(connection, context, ring, (uint32_t)queue, WATCH) == 0);
    int32_t key = kr_add(connection, context, "user", "in it", "s3", 2, ring);
    kr_clear(connection, context, ring);
    kr_unlink(connection, context, ring, PROCESS_KEYRING);
    size_t length = (size_t)kr_read_queue(connection, (uint32_t)queue, records, sizeof records);
    check("a link",
          kr_next_note(&at, &length, &note) == 1 && is_note(&note, "linked", ring, key) && note.watch == WATCH);
    check("a clear", kr_next_note(&at, &length, &note) == 1 && is_note(&note, "cleared", ring, 0));
    check("the end of the watch", kr_next_note(&at, &length, &note) == 1 && is_note(&note, "removed", ring, 0));
    check("no more", kr_next_note(&at, &length, &note) == 0);
}

/* Nothing comes; a signal does; another client's change does, in spite of signals. */
static void try_waiting(void) {
    uint8_t records[128];
    uint32_t queue = (uint32_t)kr_open_queue(connection, 8);
    int32_t key = kr_add(connection, context, "user", "waited for", "s3", 2, USER_KEYRING);
    kr_setperm(connection, context, key, OPEN_TO_USER);
    check("another watch", kr_watch(connection, context, key, queue, WATCH) == 0);
    check("none", refused((long)kr_wait_notes(connection, queue, 0, records, sizeof records), EAGAIN));
    check("none in time", refused((long)kr_wait_notes(connection, queue, 120, records, sizeof records), EAGAIN));
    kr_set_interruptible(connection, 1);
    interrupt_after(100000, 0);
    check("a signal", refused((long)kr_wait_notes(connection, queue, -1, records, sizeof records), EINTR));
    kr_set_interruptible(connection, 0);
    interrupt_after(20000, 20000);
    pid_t child = fork();
    if (child == 0) {
        struct kr *other = kr_open(NULL);
        int64_t own = other ? kr_hello(other, 7000, 1000, 0, NULL) : -1;
        usleep(200000);
        _exit(own < 0 || kr_update(other, (uint32_t)own, key, "s4", 2) < 0);
    }
    check("what another has changed", kr_wait_notes(connection, queue, -1, records, sizeof records) == 16);
    interrupt_after(0, 0);
    int status;
    check("who has", waitpid(child, &status, 0) == child && status == 0);
}

/* A record that says it lost others; one that is cut; one whose length is none. */
static void try_records(void) {
    const uint8_t lost[] = { 0, 0, 0, 1, 8, 0, 0, 0 }, none[] = { 1, 0, 0, 1, 0, 9, 0, 0 };
    const void *at = lost;
    size_t length = sizeof lost;
    struct kr_note note;
    check("lost", kr_next_note(&at, &length, &note) == 1 && is_note(&note, "lost", 0, 0) && length == 0);
    for (at = lost, length = 1; length < sizeof lost; length++)
        check("cut", refused(kr_next_note(&at, &length, &note), EPROTO) && at == lost);
    at = none, length = sizeof none;
    check("without a length", refused(kr_next_note(&at, &length, &note), EPROTO));
}

int main(void) {
    connection = kr_open(NULL);
    int64_t made = connection ? kr_hello(connection, 7000, 1000, 0, NULL) : -1;
    if (!check("a context", made > 0)) return 1;
    context = (uint32_t)made;
    try_many();
    try_answers();
    try_refusals();
    try_patience();
    try_notes();
    try_waiting();
    try_records();
    kr_close(connection);
    return conclude("ahead");
}
