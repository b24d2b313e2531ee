/* connection.c: how an ask goes out on a connection, and how its reply is found. */
#include "connection.h"

/* ---- An ask ---- */

enum { READ_BYTES = 4096 };

/* In the tags of asks that make a context: so a reply that nobody awaits any more says that there is one. */
#define KR_MAKES (UINT64_C(1) << 63)

static bool makes_context(const struct kr_ask_form *form) {
    return form->operation == KR_HELLO || form->operation == KR_THREAD || form->operation == KR_FORK;
}

/* Sends one ask behind what an earlier call left. */
static int send_ask(struct kr *connection, const struct kr_ask_form *form, uint32_t context,
                    const struct kr_field *fields) {
    uint8_t *out = connection->memory->out;
    if (kr_flush(connection) < 0) return -1;
    bool are_all_answered = connection->answered == connection->asked;
    if (are_all_answered && connection->in_length > 0) return kr_break_off(connection, EPROTO); /* a reply to no ask */
    uint64_t tag = (connection->asked + 1) | (makes_context(form) ? KR_MAKES : 0);
    size_t length = kr_encode_ask(out, tag, form, context, fields);
    if (length == 0) {
        explicit_bzero(out, sizeof connection->memory->out); /* some of it was put there */
        return fail_as(EINVAL);
    }
    connection->out_end = length;
    int sent = kr_flush(connection);
    if (sent < 0 && connection->out_start == 0) { /* no byte went out: it was never made */
        explicit_bzero(out, length);
        connection->out_end = 0;
        return -1;
    }
    connection->asked++;
    connection->further_reads += length / READ_BYTES;
    return sent;
}

/* ---- Its reply ---- */

/* Overwrites the last answer, which may have been a payload. */
static void wipe(struct kr *connection) {
    ERRNO_STAYS;
    if (connection->taken > 0) drop_front(connection->memory->in, &connection->in_length, connection->taken);
    connection->taken = 0;
}

/* Of a reply that nobody awaits any more a part may have come. Its head stays, and the number of a context. */
static void wipe_part(struct kr *connection) {
    enum { KEPT = 16 + 4 };
    if (connection->answered < connection->given_up && connection->in_length > KEPT)
        explicit_bzero(connection->memory->in + KEPT, connection->in_length - KEPT);
}

/* Finds the next reply among what has come: 1, or 0 where more bytes are wanted. */
static int next_reply(struct kr *connection, struct kr_reply *reply) {
    enum kr_decoded decoded = kr_decode_reply(connection->memory->in, connection->in_length, reply);
    if (decoded == KR_PARTIAL) return 0;
    uint64_t number = decoded == KR_WHOLE ? reply->tag & ~KR_MAKES : 0;
    if (number <= connection->answered || number > connection->asked) return kr_break_off(connection, EPROTO);
    connection->answered = number;
    return 1;
}

/* Takes the next reply to an ask that nobody has given up: 1, or 0 where more bytes are wanted. A context that came too
 * late is ended before the next call. */
static int take_reply(struct kr *connection, struct kr_reply *reply) {
    int found;
    while ((found = next_reply(connection, reply)) == 1) {
        if (connection->answered > connection->given_up) {
            connection->taken = reply->frame_length;
            break;
        }
        bool is_late = reply->tag & KR_MAKES && reply->status == 0 && reply->length == 4;
        if (is_late && connection->late_count < KR_CONTEXTS)
            connection->late[connection->late_count++] = kr_get_u32(reply->body);
        drop_front(connection->memory->in, &connection->in_length, reply->frame_length);
    }
    return found;
}

/* Waits for the reply to the last ask, and drops those to the asks before it. */
static int receive_reply(struct kr *connection, struct kr_reply *reply) {
    int found;
    while ((found = take_reply(connection, reply)) == 0)
        if (kr_receive_bytes(connection) < 0) return -1;
    if (found < 0) return -1;
    return connection->in_length == reply->frame_length ? 0 : kr_break_off(connection, EPROTO);
}

/* ---- A call ---- */

/* The last ask that is done with, one way or another. */
static uint64_t last_done(const struct kr *connection) {
    return connection->answered > connection->given_up ? connection->answered : connection->given_up;
}

/* How many asks that were sent ahead still await kr_receive. */
static uint64_t awaited(const struct kr *connection) { return connection->asked - last_done(connection); }

static int check_whole(struct kr *connection) {
    bool is_seen = connection->was_seen;
    connection->was_seen = false;
    return connection->broken || !(is_seen || kr_is_ours(connection)) ? kr_break_off(connection, ECONNRESET) : 0;
}

static int call(struct kr *connection, const struct kr_ask_form *form, uint32_t context,
                const struct kr_field *fields, struct kr_reply *reply) {
    if (check_whole(connection) < 0) return -1;
    if (awaited(connection) > 0) return fail_as(EBUSY);
    while (connection->late_count > 0 && kr_tell(connection, KR_EXIT, connection->late[connection->late_count - 1]))
        connection->late_count--;
    kr_begin_call(connection);
    connection->given_up = connection->asked;
    int result = send_ask(connection, form, context, fields) < 0 ? -1 : receive_reply(connection, reply);
    connection->given_up = connection->asked;
    wipe_part(connection);
    return result;
}

/* What a reply to an ask of this form answers, as kr_ask does. */
static int64_t give_answer(struct kr *connection, const struct kr_ask_form *form, const struct kr_reply *reply,
                           void *buffer, size_t room) {
    int error;
    if (!kr_reply_fits(reply, form, &error) || makes_context(form) != (reply->tag & KR_MAKES) >> 63)
        return kr_break_off(connection, EPROTO);
    if (error != 0) return fail_as(error);
    if (form->answer == KR_NUMBER || form->answer == KR_SERIAL) return (int64_t)kr_get_u32(reply->body);
    if (reply->length > 0 && buffer && reply->length <= room) memcpy(buffer, reply->body, reply->length);
    return (int64_t)reply->length;
}

/* A context that there is no room for is asked for again where some that came late are in its place. */
int64_t kr_ask(struct kr *connection, enum kr_operation operation, uint32_t context, const struct kr_field *fields,
               void *buffer, size_t room) {
    UNCANCELLED;
    const struct kr_ask_form *form = kr_ask_form(operation);
    struct kr_reply reply;
    for (bool is_again = false;; is_again = true) {
        int called = call(connection, form, context, fields, &reply);
        int64_t answer = called < 0 ? -1 : give_answer(connection, form, &reply, buffer, room);
        bool is_full = answer < 0 && errno == EINVAL && makes_context(form) && connection->late_count > 0;
        wipe(connection);
        if (!is_full || is_again) return answer;
    }
}

/* ---- Asks that are sent ahead ---- */

static int send_ahead(struct kr *connection, const struct kr_ask_form *form, uint32_t context,
                      const struct kr_field *fields) {
    if (check_whole(connection) < 0) return -1;
    if (!form) return fail_as(EINVAL);
    if (awaited(connection) >= KR_AHEAD_MAX) return fail_as(EAGAIN);
    connection->deadline = 0;
    uint64_t before = connection->asked;
    int sent = send_ask(connection, form, context, fields);
    if (connection->asked == before) return sent < 0 && errno == ETIMEDOUT ? fail_as(EAGAIN) : -1;
    connection->ahead[connection->asked % KR_AHEAD_MAX] = form;
    return connection->broken ? -1 : 0; /* what hasn't gone out goes out later */
}

bool kr_tell(struct kr *connection, enum kr_operation operation, uint32_t context) {
    UNCANCELLED;
    uint64_t before = connection->asked;
    send_ahead(connection, kr_ask_form(operation), context, NULL);
    connection->given_up = connection->asked;
    return connection->asked > before;
}

int kr_send(struct kr *connection, unsigned operation, uint32_t context, const struct kr_field *fields,
            uint64_t *tag) {
    UNCANCELLED;
    int sent = send_ahead(connection, kr_ask_form(operation), context, fields);
    if (sent == 0 && tag) *tag = connection->asked;
    return sent;
}

/* Waits for bytes, and sends meanwhile what is still to go out: a daemon that waits for its replies to be taken reads
 * nothing. */
static int send_and_receive(struct kr *connection) {
    const int64_t deadline = connection->deadline;
    while (connection->out_start < connection->out_end) {
        struct pollfd wait = { .fd = connection->socket.descriptor, .events = POLLIN | POLLOUT };
        int ready = poll(&wait, 1, kr_milliseconds_left(connection));
        if (ready == 0) return fail_as(ETIMEDOUT);
        if (ready < 0 && (errno != EINTR || connection->interruptible)) return -1;
        if (ready > 0 && wait.revents & ~POLLOUT) break;
        connection->deadline = 0;
        int sent = ready > 0 ? kr_flush(connection) : 0; /* what goes out without waiting */
        connection->deadline = deadline;
        if (sent < 0 && connection->broken) return -1;
    }
    return kr_receive_bytes(connection);
}

/* Replies to asks that were sent ahead come without a gap. */
static int receive_ahead(struct kr *connection, struct kr_reply *reply) {
    uint64_t last = last_done(connection);
    int found;
    if (check_whole(connection) < 0) return -1;
    if (awaited(connection) == 0) return fail_as(ENOMSG);
    kr_begin_call(connection);
    while ((found = take_reply(connection, reply)) == 0)
        if (send_and_receive(connection) < 0) return -1;
    return found == 1 && connection->answered != last + 1 ? kr_break_off(connection, EPROTO) : found;
}

int64_t kr_receive(struct kr *connection, uint64_t *tag, void *buffer, size_t room) {
    UNCANCELLED;
    struct kr_reply reply;
    int64_t answer = -1;
    uint64_t answered = 0;
    if (receive_ahead(connection, &reply) == 1) {
        answered = connection->answered;
        answer = give_answer(connection, connection->ahead[answered % KR_AHEAD_MAX], &reply, buffer, room);
        if (connection->broken) answered = 0;
    }
    wipe(connection);
    wipe_part(connection);
    if (tag) *tag = answered;
    return answer;
}
