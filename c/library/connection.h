/* connection.h: what the files of the library share beside keyretain.h. */
#ifndef KEYRETAIN_CONNECTION_H
#define KEYRETAIN_CONNECTION_H

#include "common/frames.h"
#include "common/places.h"

#include <pthread.h>
#include <sys/un.h>

/* ---- A connection ---- */

/* From here to the end of the block this thread isn't cancelled; errno is that of the block's end. */
#define UNCANCELLED int cancelling __attribute__((cleanup(end_uncancelled), unused)) = begin_uncancelled()
static inline int begin_uncancelled(void) {
    int cancelling;
    pthread_setcancelstate(PTHREAD_CANCEL_DISABLE, &cancelling);
    return cancelling;
}
static inline void end_uncancelled(const int *cancelling) {
    ERRNO_STAYS;
    pthread_setcancelstate(*cancelling, NULL);
}

/* The moment of kr_now that never comes. */
#define KR_NEVER INT64_MAX

/* As many as a client may have. */
enum { KR_CONTEXTS = 64 };

/* What was sent and received: in no core file, and in no child of fork(2), which has zeros in its place. So `is_here`
 * is true in the process that made the connection alone. */
struct kr_memory {
    bool is_here;
    uint8_t out[KR_ASK_ROOM], in[KR_REPLY_ROOM];
};

/* The daemon answers each ask once, in order. So after a call that was interrupted its reply is still to come. Asks
 * are numbered from 1 on, and the number is the tag, with KR_MAKES where the answer is a context. `asked` is that of
 * the last ask of which a byte was sent, `answered` that of the last reply. Replies up to `given_up` belong to calls
 * that have ended; those behind it to asks that were sent ahead, or to the one call that waits. */
struct kr {
    struct kr_file socket;
    pid_t owner; /* 0 where is_here tells */
    enum kr_place place;
    bool trusts_anybody;
    uid_t user; /* whose secrets it is told: who listens is trusted by this user */
    struct peer peer;
    bool broken, interruptible;
    bool was_seen; /* for the next ask, which doesn't look again whether it is ours */
    bool has_name; /* of kr_take_name */
    int patience;     /* milliseconds, or -1 */
    int64_t deadline; /* of the call that is being made */
    int64_t until;    /* calls that are made from now on end by this moment, whatever their patience */
    int waits[2];     /* milliseconds that the socket itself waits in send and recv; 0 is for ever */
    uint64_t asked, answered, given_up;
    uint64_t further_reads; /* of the daemon, which reads an ask 4,096 bytes at a time, beside one for each */
    uint32_t late[KR_CONTEXTS]; /* contexts that replies to asks which were given up have told, and that nobody wants */
    unsigned late_count;
    const struct kr_ask_form *ahead[KR_AHEAD_MAX]; /* of the asks sent ahead, by their number */
    size_t out_start, out_end; /* the bytes of `out` that have not been sent */
    size_t in_length;          /* the bytes of `in` that have come: whole replies and a part of one */
    size_t taken;              /* how many of them are the last answer's frame */
    struct sockaddr_un address;
    struct kr_memory *memory;
};

/* ---- socket.c ---- */

/* A connection for this user whose socket isn't connected yet: no call waits in here. NULL with errno. */
struct kr *kr_prepare(const struct kr_where *where, unsigned flags, uid_t user);

/* Connects it by its deadline, and sees who listens; -1 with errno. */
int kr_connect(struct kr *connection);

/* Whether the descriptor is still the socket that was opened here, by this process. */
bool kr_is_ours(const struct kr *connection);

/* Gives the socket one of the few names of unix(7) that connections to one path can have, if one is free: for as long
 * as it is open anywhere. Another program may have them all. */
bool kr_take_name(struct kr *connection);

/* What may be sent or received by the deadline, and -1 with errno. kr_receive_bytes waits for some. */
int kr_flush(struct kr *connection);
int kr_receive_bytes(struct kr *connection);
int kr_break_off(struct kr *connection, int error);

/* The deadline of a call that begins, and how many milliseconds it has left; -1 for ever. */
void kr_begin_call(struct kr *connection);
int kr_milliseconds_left(const struct kr *connection);

/* ---- connection.c ---- */

/* Makes one ask and waits for its reply: a number, or the length of bytes, which are in `buffer` where `room` holds all
 * of them. -1 with errno where it is refused or the connection fails. */
int64_t kr_ask(struct kr *connection, enum kr_operation operation, uint32_t context, const struct kr_field *fields,
               void *buffer, size_t room);

/* Makes an ask without fields, waits for nothing, and lets the reply be dropped. False where it couldn't be sent. */
bool kr_tell(struct kr *connection, enum kr_operation operation, uint32_t context);

#endif
