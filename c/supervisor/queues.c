/* queues.c: the supervisor's own connection, with its queues and watches. */
#include "notes.h"

#include "serve.h"

/* As in contexts.c. */
#ifndef KEYRETAIN_READS
#define KEYRETAIN_READS 15000000
#endif

enum { CALL_MILLISECONDS = 10000, SHORTEST_PAUSE = 100, LONGEST_PAUSE = 1000, PART = 10 };
enum { WATCHES = 1024, NOTE = 16 /* bytes of the longest record */, ROUNDS = 512 * NOTE / HELD + 2 };

static struct {
    struct kr *connection;
    unsigned beginnings;     /* of contexts.c, when it was made */
    unsigned long long most; /* reads, when it is worn */
    unsigned queues, watches;
    int64_t last_note, last_poll;
    bool has_failed;
} all;

/* ---- The connection ---- */

static bool is_whole(void) { return all.connection && !all.has_failed && !kr_is_broken(all.connection); }

static void disconnect(void) {
    kr_close(all.connection);
    all.connection = NULL;
    all.has_failed = false;
}

/* Its queues have gone with it. One that was too late with an answer isn't asked again. */
static void lose_all(void) {
    disconnect();
    for (struct pipe *pipe = pipes_first(), *next; pipe; pipe = next) {
        next = pipe->next;
        if (pipe->queue) pipe_end(pipe);
    }
}

/* Whether what there is can be asked, which ends by the deadline. */
static bool is_there(void) {
    bool is_same = is_whole() && all.beginnings == contexts_beginnings();
    if (!is_same) lose_all();
    if (is_same) all.connection->until = kr_now() + CALL_MILLISECONDS;
    return is_same;
}

bool queues_begin_call(void) {
    if (is_there()) return true;
    all.connection = contexts_open_apart();
    all.beginnings = contexts_beginnings();
    all.most = KEYRETAIN_READS;
    return is_there();
}

/* ---- Watches ---- */

static void forget_watch(struct pipe *pipe, struct watch *watch) {
    TAKE_OUT(pipe->watches, watch);
    all.watches -= !watch->has_ended;
    free(watch);
}

static void end_watch(struct watch *watch) {
    all.watches -= !watch->has_ended;
    watch->has_ended = true;
}

static int set_as(struct kr *connection, uint32_t queue, const struct watch *watch,
                  const struct kr_identity *identity) {
    int64_t context = kr_hello_as(connection, identity);
    if (context < 0) return -1;
    int result = kr_watch(connection, (uint32_t)context, watch->key, queue, watch->id);
    ERRNO_STAYS;
    kr_exit(connection, (uint32_t)context);
    return result;
}

/* Who may view a key as one that possesses it possesses nothing here. */
static int set(struct kr *connection, uint32_t queue, const struct watch *watch) {
    const struct kr_identity owner = { .uid = watch->owner, .gid = watch->group };
    int result = set_as(connection, queue, watch, &watch->identity);
    if (result == 0 || errno != EACCES) return result;
    result = set_as(connection, queue, watch, &owner);
    return result < 0 && errno == EPERM ? fail_as(EACCES) : result; /* a guard lets it ask as nobody else */
}

static int64_t open_queue(struct kr *connection, const struct pipe *pipe) {
    int64_t number = kr_open_queue(connection, pipe->capacity);
    if (number < 0 || pipe->count == 0) return number;
    return kr_set_filter(connection, (uint32_t)number, pipe->count, pipe->filter) < 0 ? -1 : number;
}

/* As of a connection's contexts: nobody gets one more who has as many as are left. */
static bool may_watch_more(uint32_t uid) {
    unsigned own = 0;
    for (const struct pipe *pipe = pipes_first(); pipe; pipe = pipe->next)
        for (const struct watch *watch = pipe->watches; watch; watch = watch->next) own += watch->identity.uid == uid;
    return all.watches < WATCHES && own < WATCHES - all.watches;
}

static long add_watch(struct pipe *pipe, const struct watch *wanted) {
    struct watch *watch = may_watch_more(wanted->identity.uid) ? malloc(sizeof *watch) : NULL;
    if (!watch) return fail_as(EAGAIN);
    if (set(all.connection, pipe->queue, wanted) < 0) return forgotten(watch), -1;
    *watch = *wanted;
    watch->next = pipe->watches;
    pipe->watches = watch;
    all.watches++;
    all.last_note = kr_now();
    return 0;
}

long queue_watch(struct pipe *pipe, const struct watch *wanted) {
    int64_t number = pipe->queue ? pipe->queue : open_queue(all.connection, pipe);
    if (number < 0) return -1;
    all.queues += !pipe->queue;
    pipe->queue = (uint32_t)number;
    if (wanted->id >= 0) return add_watch(pipe, wanted);
    if (set(all.connection, pipe->queue, wanted) < 0) return -1;
    struct watch *watch = FIND(pipe->watches, at, at->key == wanted->key && !at->has_ended);
    if (watch) end_watch(watch);
    pipe->is_due = true;
    queues_move();
    return 0;
}

long queue_set_filter(struct pipe *pipe) {
    if (!pipe->queue || !is_whole()) return 0;
    all.connection->until = kr_now() + CALL_MILLISECONDS;
    return kr_set_filter(all.connection, pipe->queue, pipe->count, pipe->filter);
}

void queue_close(struct pipe *pipe) {
    while (pipe->watches) forget_watch(pipe, pipe->watches);
    if (!pipe->queue) return;
    if (is_whole()) {
        all.connection->until = kr_now() + CALL_MILLISECONDS;
        kr_close_queue(all.connection, pipe->queue);
    }
    if (--all.queues == 0) disconnect();
}

/* ---- Records ---- */

/* A record of type and subtype 0 says that a watch is no more. Each has its length in its second number. */
static void see_removals(struct pipe *pipe, const uint8_t *records, size_t length) {
    for (size_t at = 0, each; at + NOTE <= length; at += each) {
        each = kr_get_u32(records + at + 4) & 0x7f;
        if (each == 0) return;
        int32_t key = (int32_t)kr_get_u32(records + at + 8);
        if (each != NOTE || kr_get_u32(records + at) != 0) continue;
        struct watch *watch = FIND(pipe->watches, was, was->key == key && was->has_ended);
        if (!watch) watch = FIND(pipe->watches, was, was->key == key);
        if (watch) forget_watch(pipe, watch);
    }
}

/* Takes what was read, or couldn't be. Whether more may wait. */
static bool take_records(struct pipe *pipe, int64_t length) {
    bool is_some = length > 0 && length <= HELD;
    pipe->start = 0;
    pipe->end = is_some ? (size_t)length : 0;
    pipe->is_lost = length < 0 && errno == EBADF;
    all.has_failed |= length > HELD || (length < 0 && errno == ETIMEDOUT);
    if (!is_some) return false;
    all.last_note = kr_now();
    see_removals(pipe, pipe->held, pipe->end);
    return pipe_put(pipe) && length > HELD - NOTE;
}

static void ask_ahead(struct pipe *pipe) {
    const struct kr_field fields[] = { { .number = pipe->queue }, { .number = HELD } };
    pipe->is_asked = pipe->is_due && pipe->queue && pipe_put(pipe) &&
                     kr_send(all.connection, KR_READ_QUEUE, 0, fields, NULL) == 0;
    pipe->is_due = false;
}

static bool receive(struct pipe *pipe) {
    if (!pipe->is_asked || !is_whole()) return false;
    return pipe->is_due = take_records(pipe, kr_receive(all.connection, NULL, pipe->held, HELD));
}

/* All queues are asked before one is waited for. What comes meanwhile may be more than a queue holds: the rest is for
 * the next poll. */
void queues_move(void) {
    bool more = is_there();
    for (int round = 0; more && round < ROUNDS; round++) {
        more = false;
        for (struct pipe *pipe = pipes_first(); pipe; pipe = pipe->next) ask_ahead(pipe);
        for (struct pipe *pipe = pipes_first(); pipe; pipe = pipe->next) more |= receive(pipe);
    }
    if (all.connection && !is_whole()) lose_all();
    for (struct pipe *pipe = pipes_first(), *next; pipe; pipe = next) {
        next = pipe->next;
        if (pipe->is_lost) pipe_end(pipe);
    }
}

/* Notes tell of keys that a call names, and of the key that it has found or updated. */
static bool may_concern(const struct watch *watch, const struct key_row *row, const unsigned long *given, long result) {
    if (watch->is_ring && watch->owner == tracees_entered()->identity.uid)
        for (int32_t id = KEY_SPEC_THREAD_KEYRING; id >= KEY_SPEC_USER_SESSION_KEYRING; id--)
            if (key_row_names(row, given, id)) return true;
    return key_row_names(row, given, watch->key) || (row->answers_serial && result == watch->key);
}

void queues_after_call(const struct key_row *row, const unsigned long given[KEY_ARGUMENTS], long result) {
    if (all.watches == 0 || result < 0 || key_row_only_reads(row, given)) return;
    bool is_any = false;
    for (struct pipe *pipe = pipes_first(); pipe; pipe = pipe->next)
        is_any |= pipe->is_due = FIND(pipe->watches, at, may_concern(at, row, given, result)) != NULL;
    if (is_any) queues_move();
}

/* ---- Another connection ---- */

/* Takes what the old queue has, as far as there is room: whether that is all. */
static bool read_out(struct pipe *pipe) {
    for (int round = 0; round < ROUNDS && pipe_put(pipe); round++)
        if (!take_records(pipe, kr_read_queue(all.connection, pipe->queue, pipe->held, HELD)))
            return pipe->start == pipe->end;
    return false;
}

/* One stands at the end already where there is no room for it. */
static void hold_loss(struct pipe *pipe) {
    static const uint8_t loss[LOSS] = { 0, 0, 0, 1, LOSS };
    if (pipe->start > 0) drop_front(pipe->held, &pipe->end, pipe->start);
    pipe->start = 0;
    if (pipe->end + LOSS > sizeof pipe->held) return;
    memcpy(pipe->held + pipe->end, loss, LOSS);
    pipe->end += LOSS;
}

/* The old queue is read out once the new one watches. */
static void move_queue(struct kr *connection, struct pipe *pipe) {
    int64_t number = open_queue(connection, pipe);
    bool is_all = number >= 0;
    for (struct watch *watch = pipe->watches; watch && number >= 0; watch = watch->next) {
        if (watch->has_ended || set(connection, (uint32_t)number, watch) == 0) continue;
        is_all &= errno == ENOKEY; /* which the old queue tells */
        end_watch(watch);
    }
    is_all &= read_out(pipe);
    if (!is_all) hold_loss(pipe);
    pipe->is_lost = number < 0;
    if (number >= 0) pipe->queue = (uint32_t)number;
}

static void renew(void) {
    if (all.connection->asked + all.connection->further_reads < all.most) return;
    struct kr *connection = contexts_open_apart();
    all.most = connection ? KEYRETAIN_READS : all.most + KEYRETAIN_READS / 100;
    if (!connection) return;
    connection->until = kr_now() + CALL_MILLISECONDS;
    for (struct pipe *pipe = pipes_first(); pipe; pipe = pipe->next)
        if (pipe->queue) move_queue(connection, pipe);
    disconnect();
    all.connection = connection;
}

/* ---- Polls ---- */

int queues_milliseconds(void) {
    if (all.watches == 0) return -1;
    int64_t pause = (all.last_poll - all.last_note) / PART, now = kr_now();
    if (pause < SHORTEST_PAUSE) pause = SHORTEST_PAUSE;
    if (pause > LONGEST_PAUSE) pause = LONGEST_PAUSE;
    int64_t left = all.last_poll + pause - now;
    return left > 0 ? (int)left : 0;
}

void queues_poll(void) {
    if (queues_milliseconds() != 0) return;
    if (is_there()) renew();
    for (struct pipe *pipe = pipes_first(); pipe; pipe = pipe->next) pipe->is_due = true;
    queues_move();
    all.last_poll = kr_now();
}
