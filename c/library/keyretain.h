/* keyretain.h: the asks of keyretaind(8), one function each. keyretain-protocol(7) says what each does and in what
 * order it is refused. libkeyretain(3) is the manual page of this file: who may listen, errors, waiting, threads and
 * processes.
 *
 * A `struct kr` is one connection and so one client of the daemon: contexts and queues belong to it and end with it. It
 * is used by one thread at a time, for one identity of one process: who has it may say HELLO as anybody. A call answers
 * 0, a number or a length, or -1 with errno.
 *
 * Times are seconds, but for milliseconds that are named so. Masks are those of keyctl_setperm(3). Serials are above 2;
 * the ids -1 to -5 are the keyrings of keyrings(7), KEY_SPEC_THREAD_KEYRING and so on. Lengths and rooms are bytes.
 * Texts end with a null byte, and NULL is the empty one. */
#ifndef KEYRETAIN_H
#define KEYRETAIN_H

#include <stddef.h>
#include <stdint.h>

#ifdef __cplusplus
extern "C" {
#endif

struct kr;

/* As in linux/keyctl.h and keyutils.h. */
#define KEY_SPEC_THREAD_KEYRING -1
#define KEY_SPEC_PROCESS_KEYRING -2
#define KEY_SPEC_SESSION_KEYRING -3
#define KEY_SPEC_USER_KEYRING -4
#define KEY_SPEC_USER_SESSION_KEYRING -5

/* ---- A connection ---- */

/* Connects to the daemon at `path`, or for NULL where kr_default_path says. NULL with errno. */
struct kr *kr_open(const char *path);

/* The same with flags, and with the patience that kr_set_patience sets later. EINVAL for a flag that is none. */
enum { KR_ANY_SERVER = 1 /* whoever listens at a path that is named is trusted */ };
struct kr *kr_open_with(const char *path, unsigned flags, int milliseconds);

void kr_close(struct kr *connection);

/* Where a daemon is looked for, as keyretain-session(1) says; for a program that runs set-uid (AT_SECURE) the system's
 * path. Answers its length without its null byte, or -1 with ENAMETOOLONG where `room` is too small. */
int kr_default_path(char *path, size_t room);

/* What a program's user may do where kr_open, or the first ask, was refused with this errno: a sentence for people, or
 * NULL where none is known. */
const char *kr_advice(const char *path, int error);

/* Who listened when the connection was made; the pid is 0 where it has none in this pid namespace. NULL for what isn't
 * wanted. */
void kr_peer(const struct kr *connection, uint32_t *uid, uint32_t *gid, int32_t *pid);

/* How many milliseconds one call may take, by the monotonic clock; at first 30000. 0: no call waits. -1: for ever. */
int kr_set_patience(struct kr *connection, int milliseconds);

/* Whether a signal that is handled ends a call with EINTR (1); else, as at first, the call goes on (0). */
void kr_set_interruptible(struct kr *connection, int interruptible);

int kr_is_broken(const struct kr *connection);

/* The socket: to wait for its end, not to read from. -1 once another descriptor has its number. */
int kr_descriptor(const struct kr *connection);

/* ---- Contexts: the first three answer the number that other asks take as `context` ---- */

int64_t kr_hello(struct kr *connection, uint32_t uid, uint32_t gid, uint32_t count, const uint32_t *groups);
int64_t kr_thread(struct kr *connection, uint32_t context);
int64_t kr_fork(struct kr *connection, uint32_t context);
int kr_exec(struct kr *connection, uint32_t context);
int kr_exit(struct kr *connection, uint32_t context);
int kr_leave(struct kr *connection);

/* Has a context of the effective user join the session that the program is in: SERIAL:NAME, for NULL what
 * KEYRETAIN_SESSION says, unless the program runs set-uid. Answers 1; 0 where no session is named, and the context is
 * as it was; -1 with EKEYREVOKED where it was revoked or is gone, or is another user's or open to others. Then the
 * context has a new session keyring, which nobody shares. */
int kr_enter_session(struct kr *connection, uint32_t context, const char *session);

/* ---- Keys and keyrings ---- */

/* Answers the serial; a missing thread or process keyring is made where `create` isn't 0. */
int32_t kr_get_id(struct kr *connection, uint32_t context, int32_t id, int create);

/* Joins the session keyring of this name, or a new one; answers its serial. */
int32_t kr_join(struct kr *connection, uint32_t context, const char *name);

int kr_update(struct kr *connection, uint32_t context, int32_t id, const void *payload, size_t length);
int kr_revoke(struct kr *connection, uint32_t context, int32_t id);

/* UINT32_MAX leaves the owner or the group as it is. */
int kr_chown(struct kr *connection, uint32_t context, int32_t id, uint32_t uid, uint32_t gid);

int kr_setperm(struct kr *connection, uint32_t context, int32_t id, uint32_t mask);

/* Answers the length of `type;uid;gid;mask;description`, which is in `buffer` where `room` holds all of it; else
 * nothing is put there. Where room is left a null byte follows, which isn't counted. */
int64_t kr_describe(struct kr *connection, uint32_t context, int32_t id, void *buffer, size_t room);

int kr_clear(struct kr *connection, uint32_t context, int32_t ring);
int kr_link(struct kr *connection, uint32_t context, int32_t id, int32_t ring);
int kr_unlink(struct kr *connection, uint32_t context, int32_t id, int32_t ring);

/* Answers the serial that is found, which is linked to `destination` where that isn't 0. */
int32_t kr_search(struct kr *connection, uint32_t context, int32_t head, const char *type, const char *description,
                  int32_t destination);

/* Answers the payload's length, as kr_describe does. A keyring reads as serials of 4 bytes each, little-endian. */
int64_t kr_read(struct kr *connection, uint32_t context, int32_t id, void *buffer, size_t room);

/* 0 seconds take the timeout away. */
int kr_set_timeout(struct kr *connection, uint32_t context, int32_t id, uint32_t seconds);

int kr_invalidate(struct kr *connection, uint32_t context, int32_t id);

/* `type` is NULL or empty to close a keyring against new links. With flag 1 a key of the same name is not displaced. */
int kr_restrict_keyring(struct kr *connection, uint32_t context, int32_t ring, const char *type);
int kr_move(struct kr *connection, uint32_t context, int32_t id, int32_t from, int32_t to, uint32_t flags);

/* Answers the serial of the key that was made or updated. */
int32_t kr_add(struct kr *connection, uint32_t context, const char *type, const char *description,
               const void *payload, size_t length, int32_t ring);

int32_t kr_request(struct kr *connection, uint32_t context, const char *type, const char *description,
                   int32_t destination);

/* ---- Queues of notes, which is what watch_queue(7) is in the kernel ---- */

/* An entry of a filter: keyretain-protocol(7). Subtype s is bit s % 32 of subtypes[s / 32]. */
struct kr_entry {
    uint32_t type, info_filter, info_mask, subtypes[8];
};

/* Answers the number of a queue that holds `capacity` records. */
int64_t kr_open_queue(struct kr *connection, uint32_t capacity);

/* Sets a watch whose records bear `watch`, 0 to 255; -1 takes it away. */
int kr_watch(struct kr *connection, uint32_t context, int32_t id, uint32_t queue, int32_t watch);

int kr_set_filter(struct kr *connection, uint32_t queue, uint32_t count, const struct kr_entry *entries);

/* Takes out whole records from the front, as many as `room` holds, and answers their length; it never waits:
 * EAGAIN. */
int64_t kr_read_queue(struct kr *connection, uint32_t queue, void *buffer, size_t room);

/* The same, which asks again and again until there are some, for so many milliseconds at most, -1 for ever: EAGAIN
 * where none came. It pauses for 50 milliseconds first, and for a second at last. */
int64_t kr_wait_notes(struct kr *connection, uint32_t queue, int milliseconds, void *buffer, size_t room);

int kr_close_queue(struct kr *connection, uint32_t queue);

/* A record, decoded. `name` is "instantiated", "updated", "linked", "unlinked", "cleared", "revoked", "invalidated" or
 * "setattr" for a note of type 1; "removed" where the watch of `key` has ended; "lost" where records were dropped; and
 * "unknown". `other` is the other key of a link or unlink, else 0. */
struct kr_note {
    const char *name;
    uint32_t type, subtype, watch;
    int32_t key, other;
};

/* Decodes the first of `*length` bytes of records, as kr_read_queue puts them, and moves both behind it: 1; 0 where no
 * byte is left; -1 with EPROTO where the bytes are no record, and then both stay. */
int kr_next_note(const void **records, size_t *length, struct kr_note *note);

/* ---- Asks that are sent ahead: many are under way, and their replies are received in order ---- */

/* The numbers up to 32 are those of keyctl(2). */
enum kr_operation {
    KR_GET_ID = 0, KR_JOIN = 1, KR_UPDATE = 2, KR_REVOKE = 3, KR_CHOWN = 4, KR_SETPERM = 5, KR_DESCRIBE = 6,
    KR_CLEAR = 7, KR_LINK = 8, KR_UNLINK = 9, KR_SEARCH = 10, KR_READ = 11, KR_SET_TIMEOUT = 15, KR_INVALIDATE = 21,
    KR_RESTRICT_KEYRING = 29, KR_MOVE = 30, KR_WATCH = 32, KR_HELLO = 256, KR_THREAD = 257, KR_FORK = 258,
    KR_EXEC = 259, KR_EXIT = 260, KR_LEAVE = 261, KR_ADD = 262, KR_REQUEST = 263, KR_OPEN_QUEUE = 264,
    KR_SET_FILTER = 265, KR_READ_QUEUE = 266, KR_CLOSE_QUEUE = 267
};

/* One field of an ask's body, in the order of keyretain-protocol(7): a number; or bytes, groups or entries with how
 * many there are. */
struct kr_field {
    uint32_t number;
    const void *items;
    size_t count;
};

/* How many asks may await kr_receive. */
enum { KR_AHEAD_MAX = 256 };

/* Sends an ask with as many fields as it has, and waits for nothing: 0, with its tag. -1 and EAGAIN where a reply is
 * to be received first: KR_AHEAD_MAX are awaited, or the daemon takes no more. EINVAL for a number of no ask. */
int kr_send(struct kr *connection, unsigned operation, uint32_t context, const struct kr_field *fields, uint64_t *tag);

/* Waits for the next reply, and answers as the ask's own function does, with the ask's tag. Bytes are in `buffer`
 * where `room` holds all of them. Where no reply came the tag is 0, and the error ETIMEDOUT, EINTR, ECONNRESET or
 * EPROTO; or ENOMSG, where none is awaited. */
int64_t kr_receive(struct kr *connection, uint64_t *tag, void *buffer, size_t room);

#ifdef __cplusplus
}
#endif
#endif
