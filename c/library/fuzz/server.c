/* server.c: a hostile daemon in memory. The linker sends the client's calls to the kernel here (ld(1), --wrap), and the
 * input says how they go: sends and receives that are short, interrupted or out of time; a peer who isn't trusted;
 * replies of any length, tag and status, cut off, or with bytes behind them. Other calls go to the kernel.
 *
 * The clock goes on by what a call waits. So no run takes longer than it computes. */
#define _GNU_SOURCE
#include "server.h"

#include <errno.h>
#include <fcntl.h>
#include <poll.h>
#include <spawn.h>
#include <stdarg.h>
#include <stdio.h>
#include <stdlib.h>
#include <string.h>
#include <sys/mman.h>
#include <sys/socket.h>
#include <sys/stat.h>
#include <sys/time.h>
#include <sys/wait.h>
#include <time.h>
#include <unistd.h>

#include "library/keyretain.h"
#include "library/connection.h"

enum { DESCRIPTOR = 1000, OPENED_MAX = 6, MAPPED_MAX = 16, STEPS_MAX = 1500, STRANGER = 4242, KEEPER = 1 << 30 };
enum { ASKS_ROOM = 1 << 18, REPLIES_ROOM = 1 << 20, BODY_ROOM = 270000 };

static struct {
    const uint8_t *input;
    size_t left;
    int depth; /* of server_enter: whether the client is at work */
    int64_t time;
    bool is_open, is_stranger, may_be_anybody, keeper_speaks;
    bool has_answered, has_sent_noise; /* the last ask; anything that may be a reply to any */
    int opened, steps;
    ino_t inode;
    size_t bodies;    /* how long those that are still to come may be */
    int64_t waits[2]; /* what SO_SNDTIMEO and SO_RCVTIMEO were set to; 0 is for ever */
    uint8_t asks[ASKS_ROOM], replies[REPLIES_ROOM];
    size_t asks_length, start, end;
} server;

void fault(const char *what) {
    fprintf(stderr, "fault: %s\n", what);
    abort();
}

/* ---- The input ---- */

void server_begin(const uint8_t *input, size_t length) {
    server.input = input;
    server.left = length;
    server.depth = server.opened = server.steps = 0;
    server.time = 1000000;
    server.is_open = server.is_stranger = server.may_be_anybody = server.keeper_speaks = false;
    server.has_answered = server.has_sent_noise = false;
    server.inode++; /* what an earlier run left open is another's descriptor now */
    server.asks_length = server.start = server.end = 0;
    server.bodies = SIZE_MAX;
}

void server_limit_bodies(size_t length) { server.bodies = length; }
void server_enter(void) { server.depth++; }
void server_leave(void) { server.depth--; }
void server_allow_anybody(void) { server.may_be_anybody = true; }
int64_t server_time(void) { return server.time; }
bool server_may_have_answered(void) { return server.has_answered || server.has_sent_noise; }

uint8_t server_byte(void) {
    if (server.left == 0) return 0;
    server.left--;
    return *server.input++;
}

uint32_t server_word(void) {
    uint32_t word = server_byte();
    for (int i = 8; i < 32; i += 8) word |= (uint32_t)server_byte() << i;
    return word;
}

size_t server_rest(const uint8_t **rest) {
    *rest = server.input;
    return server.left;
}

static bool is_ours(int descriptor) { return server.depth > 0 && descriptor == DESCRIPTOR; }

static int fail(int error) {
    errno = error;
    return -1;
}

/* ---- Replies ---- */

static void put(const void *bytes, size_t length) {
    if (length == 0 || server.end + length > REPLIES_ROOM) return;
    memcpy(server.replies + server.end, bytes, length);
    server.end += length;
}

static void put_number(uint64_t number, size_t width) {
    uint8_t bytes[8];
    for (size_t i = 0; i < width; i++) bytes[i] = (uint8_t)(number >> 8 * i);
    put(bytes, width);
}

static void put_reply(uint64_t tag, uint32_t status, const uint8_t *body, size_t length) {
    put_number(12 + length, 4);
    put_number(status, 4);
    put_number(tag, 8);
    put(body, length);
}

/* An ask as far as its reply depends on it. */
struct ask {
    unsigned operation;
    uint64_t tag;
    enum kr_answer_form answer;
};

static struct ask read_ask(const uint8_t *frame, size_t length) {
    struct ask ask = { .operation = (unsigned)(frame[6] | frame[7] << 8) };
    const struct kr_ask_form *form = kr_ask_form(ask.operation);
    if (!form) fault("an ask of an unknown number");
    if ((frame[4] | frame[5] << 8) != 2) fault("an ask of another version");
    if (length < 20) fault("an ask without a tag");
    for (int i = 7; i >= 0; i--) ask.tag = ask.tag << 8 | frame[12 + i];
    ask.answer = form->answer;
    return ask;
}

static size_t put_description(uint8_t *body) {
    return (size_t)snprintf((char *)body, 200, "%s;%u;%u;%08x;desc%u", server_byte() & 1 ? "keyring" : "user",
                            (unsigned)(server_byte() & 1 ? geteuid() : server_word()), 1U, (unsigned)server_word(),
                            (unsigned)server_byte());
}

/* As an answer to this ask should be. Bits of `how` choose among such. */
static size_t put_body(const struct ask *ask, uint8_t how, uint8_t *body) {
    size_t length = 0;
    if (ask->answer == KR_NUMBER || ask->answer == KR_SERIAL) {
        uint32_t number = how & 64 ? server_word() : 1U + server_byte();
        memcpy(body, &number, sizeof number);
        return sizeof number;
    }
    if (ask->answer == KR_NOTHING) return 0;
    if (ask->operation == KR_DESCRIBE && how & 64) return put_description(body);
    length = server_byte();
    if (how & 32) length = length << 10 | server_byte();
    if (length > 262140) length = 262140;
    if (length > server.bodies) length = server.bodies;
    server.bodies -= length;
    for (size_t i = 0; i < length && i < 64; i++) body[i] = server_byte();
    return length;
}

static void put_noise(void) {
    server.has_sent_noise = true;
    for (size_t length = server_byte(); length > 0 && server.left > 0; length--) put_number(server_byte(), 1);
}

/* A tag that isn't the ask's, or is. */
static uint64_t some_tag(uint64_t tag, unsigned how) {
    switch (how) {
    case 9: return tag - 1;
    case 10: return tag + (uint64_t)(int8_t)server_byte();
    case 11: return (uint64_t)server_word() << 32 | server_word();
    default: return tag;
    }
}

static uint32_t some_status(unsigned how) {
    if (how == 7) return kr_statuses[server_byte() % kr_status_count].number;
    return how == 8 ? server_word() : 0;
}

/* One ask has come. The low bits of a byte say what is wrong with the reply, if anything. */
static void answer(const struct ask *ask) {
    static uint8_t body[BODY_ROOM];
    uint8_t how = server_byte();
    unsigned fault_of = how & 15;
    switch (fault_of) {
    case 12: server.is_open = false; return;
    case 13: return; /* silent */
    case 14: put_noise(); return;
    case 15: server.has_sent_noise = true; put_number(server_word(), 4); return;
    }
    uint64_t tag = some_tag(ask->tag, fault_of);
    uint32_t status = some_status(fault_of);
    size_t length = put_body(ask, how, body);
    if (how & 128) length += (size_t)(int8_t)server_byte();
    if (length > 262200) length = 5;
    if (status != 0 && !(how & 16)) length = 0;
    put_reply(tag, status, body, length);
    server.has_answered = tag == ask->tag;
    /* of more than the ask, or of a later one but for the mark of what makes a context */
    if ((how & 30) == 16 || tag << 1 > ask->tag << 1) server.has_sent_noise = true;
    if ((how & 31) == 16) put_number(server_word(), 4); /* and more than was asked for */
    if ((how & 31) == 17) put_reply(tag + 1, 0, body, 4);
}

/* Answers the whole asks that have come, and looks whether they are frames. */
static void serve(void) {
    while (server.asks_length >= 4) {
        size_t length = 4 + (size_t)kr_get_u32(server.asks);
        if (length > KR_ASK_ROOM || length < 12) fault("an ask of no length that there is");
        if (server.asks_length < length) return;
        struct ask ask = read_ask(server.asks, length);
        server.has_answered = false;
        answer(&ask);
        server.asks_length -= length;
        memmove(server.asks, server.asks + length, server.asks_length);
    }
}

/* ---- Sockets ---- */

/* What the compiler calls where a program calls NAME, and what the kernel's is. */
#define WRAPS(result, name, ...)         \
    result __real_##name(__VA_ARGS__);   \
    result __wrap_##name(__VA_ARGS__);   \
    result __wrap_##name(__VA_ARGS__)

WRAPS(int, socket, int domain, int type, int protocol) {
    if (server.depth == 0) return __real_socket(domain, type, protocol);
    if (++server.opened > OPENED_MAX) return fail(EMFILE);
    server.inode++;
    server.asks_length = server.start = server.end = 0;
    server.waits[0] = server.waits[1] = 0;
    return DESCRIPTOR;
}

WRAPS(int, connect, int descriptor, const struct sockaddr *address, socklen_t length) {
    if (!is_ours(descriptor)) return __real_connect(descriptor, address, length);
    if (++server.steps > STEPS_MAX) return fail(ECONNREFUSED);
    uint8_t how = server_byte();
    if (how == 255) return fail(ECONNREFUSED);
    if (how == 254) return fail(EINTR);
    if (how == 253) {
        server.time += server.waits[0];
        return fail(EAGAIN);
    }
    server.is_stranger = how >= 240;
    server.is_open = true;
    return 0;
}

/* Where every other socket gets a name. */
WRAPS(int, bind, int descriptor, const struct sockaddr *address, socklen_t length) {
    if (!is_ours(descriptor)) return __real_bind(descriptor, address, length);
    return server.inode & 1 ? 0 : fail(EADDRINUSE);
}

WRAPS(int, getsockopt, int descriptor, int level, int option, void *value, socklen_t *length) {
    if (!is_ours(descriptor)) return __real_getsockopt(descriptor, level, option, value, length);
    memset(value, 0, *length);
    if (option != SO_PEERCRED || *length < sizeof(struct ucred)) return 0;
    struct ucred peer = { .pid = 1, .uid = server.is_stranger ? STRANGER : geteuid(), .gid = 1 };
    memcpy(value, &peer, sizeof peer);
    return 0;
}

WRAPS(int, setsockopt, int descriptor, int level, int option, const void *value, socklen_t length) {
    if (!is_ours(descriptor)) return __real_setsockopt(descriptor, level, option, value, length);
    if (length != sizeof(struct timeval) || (option != SO_SNDTIMEO && option != SO_RCVTIMEO)) return 0;
    const struct timeval *time = value;
    server.waits[option == SO_RCVTIMEO] = (int64_t)time->tv_sec * 1000 + time->tv_usec / 1000;
    return 0;
}

WRAPS(int, fcntl, int descriptor, int command, ...) {
    va_list words;
    va_start(words, command);
    long word = va_arg(words, long);
    va_end(words);
    return is_ours(descriptor) ? DESCRIPTOR : __real_fcntl(descriptor, command, word);
}

WRAPS(int, fstat, int descriptor, struct stat *status) {
    if (!is_ours(descriptor)) return __real_fstat(descriptor, status);
    memset(status, 0, sizeof *status);
    status->st_mode = S_IFSOCK;
    status->st_ino = server.inode;
    return 0;
}

WRAPS(int, close, int descriptor) {
    if (!is_ours(descriptor)) return __real_close(descriptor);
    server.is_open = false;
    return 0;
}

/* ---- Bytes ---- */

/* A call that would wait: it is out of time, or where it would wait for ever the daemon goes. */
static int wait_in_vain(int which, int flags) {
    if (!(flags & MSG_DONTWAIT) && server.waits[which] == 0) {
        server.is_open = false;
        return fail(ECONNRESET);
    }
    if (!(flags & MSG_DONTWAIT)) server.time += server.waits[which];
    return fail(EAGAIN);
}

/* What the input says of a send or recv: -1 with errno, or how many of these bytes go through. */
static ssize_t some_of(size_t length, int which, int flags) {
    uint8_t how = server_byte();
    if (++server.steps > STEPS_MAX) server.is_open = false;
    if (how == 250 || how == 251) return fail(EINTR);
    if (how == 252) return wait_in_vain(which, flags);
    if (how == 253) return fail(ECONNRESET);
    if (how >= 190 && how < 200 && !(flags & MSG_DONTWAIT)) server.time += server.waits[which] * (how - 189) / 11;
    return how >= 200 && length > 1 ? (ssize_t)(1 + (how * 37U) % (length - 1)) : (ssize_t)length;
}

WRAPS(ssize_t, send, int descriptor, const void *bytes, size_t length, int flags) {
    if (!is_ours(descriptor)) return __real_send(descriptor, bytes, length, flags);
    if (!(flags & MSG_NOSIGNAL)) fault("a send that may end the program");
    if (server.is_stranger && !server.may_be_anybody) fault("a stranger is told something");
    if (!server.is_open) return fail(EPIPE);
    ssize_t sent = some_of(length, 0, flags);
    if (sent < 0) return sent;
    if ((size_t)sent > ASKS_ROOM - server.asks_length) sent = (ssize_t)(ASKS_ROOM - server.asks_length);
    memcpy(server.asks + server.asks_length, bytes, (size_t)sent);
    server.asks_length += (size_t)sent;
    serve();
    return sent;
}

WRAPS(ssize_t, recv, int descriptor, void *bytes, size_t length, int flags) {
    if (!is_ours(descriptor)) return __real_recv(descriptor, bytes, length, flags);
    if (length == 0) fault("a receive of nothing");
    size_t there = server.end - server.start;
    if (there == 0) return server.is_open ? wait_in_vain(1, flags) : 0;
    ssize_t got = some_of(length < there ? length : there, 1, flags);
    if (got < 0) return got;
    memcpy(bytes, server.replies + server.start, (size_t)got);
    server.start += (size_t)got;
    if (server.start == server.end) server.start = server.end = 0;
    return got;
}

/* What is ready on the socket. */
static short ready_events(void) {
    if (!server.is_open) return POLLIN | POLLOUT | POLLHUP;
    return (short)((server.end > server.start ? POLLIN : 0) | (server_byte() < 200 ? POLLOUT : 0));
}

/* A socket of the client's, or the pipe of a keeper, which always has something to say. */
WRAPS(int, poll, struct pollfd *waits, nfds_t count, int milliseconds) {
    bool is_pipe = server.depth > 0 && server.keeper_speaks;
    if (count == 0 && server.depth > 0) { /* a pause */
        server.time += milliseconds;
        return 0;
    }
    if (count != 1 || !(is_pipe || is_ours(waits->fd))) return __real_poll(waits, count, milliseconds);
    if (++server.steps > STEPS_MAX) server.is_open = false;
    if (server_byte() == 251) return fail(EINTR);
    waits->revents = is_ours(waits->fd) ? ready_events() & (waits->events | POLLHUP) : POLLIN;
    if (waits->revents) return 1;
    if (milliseconds < 0) server.is_open = false;
    server.time += milliseconds < 0 ? 1 : milliseconds;
    return 0;
}

/* ---- Time, memory and keepers ---- */

WRAPS(int, clock_gettime, clockid_t clock, struct timespec *time) {
    if (server.depth == 0) return __real_clock_gettime(clock, time);
    *time = (struct timespec){ .tv_sec = server.time / 1000, .tv_nsec = server.time % 1000 * 1000000 };
    return 0;
}

/* Memory that the sanitizer watches, in the place of pages. A library gives some of it back when the program ends. */
static void *mapped[MAPPED_MAX];

static void **place_of(const void *memory) {
    for (int i = 0; i < MAPPED_MAX; i++)
        if (mapped[i] == memory) return &mapped[i];
    return NULL;
}

WRAPS(void *, mmap, void *at, size_t length, int protection, int flags, int descriptor, off_t offset) {
    if (server.depth == 0 || !(flags & MAP_ANONYMOUS))
        return __real_mmap(at, length, protection, flags, descriptor, offset);
    void **place = place_of(NULL);
    if (!place) fault("connections that are never closed");
    *place = ++server.steps <= STEPS_MAX ? calloc(1, length) : NULL;
    return *place ? *place : MAP_FAILED;
}

WRAPS(int, munmap, void *at, size_t length) {
    void **place = at ? place_of(at) : NULL;
    if (!place) return __real_munmap(at, length);
    free(at);
    *place = NULL;
    return 0;
}

WRAPS(int, madvise, void *at, size_t length, int advice) {
    return server.depth == 0 ? __real_madvise(at, length, advice) : fail(EINVAL);
}

/* A keeper that says what the input has, or that can't be started. */
WRAPS(int, posix_spawn, pid_t *started, const char *path, const posix_spawn_file_actions_t *actions,
      const posix_spawnattr_t *attributes, char *const words[], char *const environment[]) {
    if (server.depth == 0) return __real_posix_spawn(started, path, actions, attributes, words, environment);
    server.keeper_speaks = server_byte() & 1;
    *started = KEEPER;
    return server.keeper_speaks ? 0 : ENOENT;
}

WRAPS(pid_t, waitpid, pid_t which, int *status, int options) {
    return which == KEEPER ? KEEPER : __real_waitpid(which, status, options);
}

/* A line of it: a serial and a name, or anything. */
WRAPS(ssize_t, read, int descriptor, void *bytes, size_t length) {
    if (server.depth == 0 || !server.keeper_speaks) return __real_read(descriptor, bytes, length);
    char text[256];
    uint8_t how = server_byte();
    int count = how & 1 ? snprintf(text, sizeof text, "%u:some\n", (unsigned)server_word())
                        : snprintf(text, sizeof text, "refused %u word\n", (unsigned)server_byte());
    for (int i = 0; how & 2 && i < count - 1; i++) text[i] = (char)server_byte();
    if (how & 4) count = (how >> 3) % (count + 1);
    server.keeper_speaks = how & 4 && count > 0;
    if ((size_t)count > length) count = (int)length;
    memcpy(bytes, text, (size_t)count);
    return count;
}
