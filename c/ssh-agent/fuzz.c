/* fuzz.c: messages to the agent, over a daemon in memory. An input is messages with their lengths, as they come over
 * the socket. What the agent answers must be one whole message, and its connection has ended by then. */
#include <errno.h>
#include <linux/keyctl.h>
#include <stdio.h>
#include <stdlib.h>
#include <string.h>

#include "ssh-agent/agent.h"
#include "library/session.h"

enum { ENTRIES = 8, NAME_ROOM = 80, RING = 3, FIRST = 4, PAYLOAD_MOST = 32767, CONTEXT = 7 };
enum { SUCCESS = 6, FAILURE = 5, REQUEST_IDENTITIES = 11, IDENTITIES_ANSWER, SIGN_RESPONSE = 14 };

static struct entry {
    char name[NAME_ROOM];
    unsigned char *payload;
    size_t length;
} entries[ENTRIES], made;

static bool is_open, has_ring;

/* ---- The daemon: serials of entries are their places, from FIRST on. What is made is linked next ---- */

struct kr *kr_open_with(const char *path, unsigned flags, int milliseconds) {
    if (path || flags || milliseconds <= 0 || is_open) abort();
    is_open = true;
    return (struct kr *)entries;
}

void kr_close(struct kr *connection) {
    if (connection != (struct kr *)entries || !is_open) abort();
    is_open = false;
}

int kr_descriptor(const struct kr *connection) { return connection ? 0 : -1; }

void kr_own_identity(struct kr_identity *identity) { memset(identity, 0, sizeof *identity); }

int64_t kr_hello_as(struct kr *connection, const struct kr_identity *identity) {
    return connection && identity ? CONTEXT : -1;
}

static void check(struct kr *connection, uint32_t context) {
    if (connection != (struct kr *)entries || !is_open || context != CONTEXT) abort();
}

int kr_enter_session(struct kr *connection, uint32_t context, const char *session) {
    check(connection, context);
    return session != NULL;
}

void kr_peer(const struct kr *connection, uint32_t *uid, uint32_t *gid, int32_t *pid) {
    if (connection != (const struct kr *)entries || uid || gid) abort();
    *pid = 1;
}

/* No session is named here. */
bool kr_parse_session(struct kr_session *session, const char *text) { return (void)session, (void)text, false; }
int32_t kr_join(struct kr *connection, uint32_t context, const char *name) {
    return (void)connection, (void)context, (void)name, -1;
}

static struct entry *entry_of(int32_t serial) {
    if (serial < FIRST || serial >= FIRST + ENTRIES) abort();
    return &entries[serial - FIRST];
}

static void let_go(struct entry *entry) {
    free(entry->payload);
    *entry = (struct entry){ .payload = NULL };
}

int32_t kr_search(struct kr *connection, uint32_t context, int32_t ring, const char *type, const char *name,
                  int32_t destination) {
    check(connection, context);
    if (destination || strcmp(type, "user") != 0 || ring != RING) abort();
    for (int i = 0; i < ENTRIES; i++)
        if (entries[i].payload && strcmp(entries[i].name, name) == 0) return FIRST + i;
    errno = ENOKEY;
    return -1;
}

int32_t kr_find_own(struct kr *connection, uint32_t context, int32_t ring, const char *type, const char *name) {
    check(connection, context);
    if (ring == RING || strcmp(type, "keyring") != 0 || strcmp(name, "ssh-agent") != 0) abort();
    errno = ENOKEY;
    return has_ring ? RING : -1;
}

int32_t kr_add(struct kr *connection, uint32_t context, const char *type, const char *name, const void *payload,
               size_t length, int32_t ring) {
    check(connection, context);
    if (strcmp(type, "keyring") == 0) return RING;
    if (ring != KEY_SPEC_PROCESS_KEYRING || strlen(name) >= NAME_ROOM) abort();
    if (length > PAYLOAD_MOST) return -1;
    let_go(&made);
    strcpy(made.name, name);
    made.payload = malloc(length);
    made.length = length;
    memcpy(made.payload, payload, length);
    return FIRST + ENTRIES;
}

int kr_move(struct kr *connection, uint32_t context, int32_t id, int32_t from, int32_t to, uint32_t flags) {
    check(connection, context);
    if (id != RING || from != KEY_SPEC_PROCESS_KEYRING || to >= 0 || flags != KEYCTL_MOVE_EXCL || has_ring) abort();
    has_ring = true;
    return 0;
}

int kr_set_timeout(struct kr *connection, uint32_t context, int32_t id, uint32_t seconds) {
    check(connection, context);
    return id == FIRST + ENTRIES && seconds != UINT32_MAX ? 0 : -1;
}

int kr_link(struct kr *connection, uint32_t context, int32_t id, int32_t ring) {
    check(connection, context);
    if (id != FIRST + ENTRIES || ring != RING || !made.payload) abort();
    struct entry *place = NULL;
    for (int i = 0; i < ENTRIES; i++)
        if (!entries[i].payload && !place) place = &entries[i];
    for (int i = 0; i < ENTRIES; i++)
        if (entries[i].payload && strcmp(entries[i].name, made.name) == 0) place = &entries[i];
    if (!place) return -1;
    let_go(place);
    *place = made;
    made.payload = NULL;
    return 0;
}

int64_t kr_read(struct kr *connection, uint32_t context, int32_t id, void *buffer, size_t room) {
    check(connection, context);
    if (id < 0 && has_ring) *(int32_t *)buffer = RING;
    if (id < 0) return has_ring ? (int64_t)sizeof(int32_t) : 0;
    if (id == RING) {
        for (int i = 0; i < ENTRIES; i++) ((int32_t *)buffer)[i] = FIRST + i;
        return ENTRIES * (int64_t)sizeof(int32_t);
    }
    struct entry *entry = entry_of(id);
    if (!entry->payload) errno = id & 1 ? EKEYEXPIRED : ENOKEY;
    if (!entry->payload) return -1;
    if (buffer && entry->length <= room) memcpy(buffer, entry->payload, entry->length);
    return (int64_t)entry->length;
}

int kr_unlink(struct kr *connection, uint32_t context, int32_t id, int32_t ring) {
    check(connection, context);
    if (ring != RING || entry_of(id)->payload) abort();
    return 0;
}

int kr_invalidate(struct kr *connection, uint32_t context, int32_t id) {
    check(connection, context);
    let_go(entry_of(id));
    return 0;
}

int kr_clear(struct kr *connection, uint32_t context, int32_t ring) {
    check(connection, context);
    for (int i = 0; i < ENTRIES && ring == RING; i++) let_go(&entries[i]);
    return 0;
}

/* Who is asked says yes, no or nothing, by the question's length; and no key and no connection is there meanwhile. */
FILE *__wrap_popen(const char *command, const char *mode);
int __wrap_pclose(FILE *program);
FILE *__wrap_popen(const char *command, const char *mode) {
    static char answers[][8] = { "yes\n", "no\n", "" };
    size_t length = strlen(getenv("KEYRETAIN_QUESTION"));
    if (is_open || !strstr(command, "SSH_ASKPASS") || *mode != 'r') abort();
    return fmemopen(answers[length % 3], sizeof answers[0], "r");
}

int __wrap_pclose(FILE *program) { return fclose(program); }

/* A passphrase's hash takes too long for thousands of messages: this one is its first bytes. */
int __wrap_PKCS5_PBKDF2_HMAC(const char *word, int length, const unsigned char *salt, int salt_length, int rounds,
                             const void *digest, int room, unsigned char *out);
int __wrap_PKCS5_PBKDF2_HMAC(const char *word, int length, const unsigned char *salt, int salt_length, int rounds,
                             const void *digest, int room, unsigned char *out) {
    (void)rounds, (void)digest;
    for (int i = 0; i < room; i++) out[i] = (unsigned char)(salt[i % salt_length] ^ (i < length ? word[i] : 0));
    return 1;
}

/* ---- Messages ---- */

static void check_reply(struct bytes reply) {
    struct bytes body = take_string(&reply);
    uint32_t kind = take_number(&body, BYTE);
    if (!reply.at || reply.length || !body.at) abort();
    if (kind == IDENTITIES_ANSWER)
        for (uint32_t count = 2 * take_number(&body, NUMBER); count > 0; count--) take_string(&body);
    else if (kind == SIGN_RESPONSE) take_string(&body);
    else if (kind != FAILURE && kind != SUCCESS) abort();
    if (!body.at || body.length) abort();
}

int LLVMFuzzerTestOneInput(const uint8_t *data, size_t size) {
    static unsigned char replied[NUMBER + MESSAGE_MOST];
    static bool is_shared;
    struct bytes input = { data, size };
    is_shared = is_shared || share_ring();
    while (input.at && input.length) {
        struct bytes message = take_string(&input);
        if (!message.length) continue; /* the agent has none that is empty */
        unsigned char *exact = malloc(message.length);
        struct writer reply = { .at = replied, .room = sizeof replied };
        memcpy(exact, message.at, message.length);
        answer((struct bytes){ exact, message.length }, 0, &reply);
        check_reply((struct bytes){ reply.at, reply.length });
        if (is_open != (*exact == REQUEST_IDENTITIES && replied[NUMBER] == IDENTITIES_ANSWER)) abort();
        if (reply.is_bad) abort();
        free(exact);
    }
    for (int i = 0; i < ENTRIES; i++) let_go(&entries[i]);
    let_go(&made);
    has_ring = false;
    close_ring();
    return 0;
}
