/* hostile PATH MODE: libkeyretain and a server of its own process that is silent, slow, or answers in part. Prints
 * what became of it in one word, and `hangs` where that takes 8 seconds. */
#define _GNU_SOURCE
#include <malloc.h>
#include <stdint.h>
#include <sys/un.h>

#include "check.h"
#include "library/keyretain.h"

enum { LONGEST = 8, SECRET = 16, FRAME = 64, LONGEST_BODY = 262140, FILES = 300 };

static const char *path;
static int listener;

static void on_alarm(int unused) {
    (void)!write(STDOUT_FILENO, "hangs\n", 6);
    _exit(9);
}

static void make_secret(uint8_t *secret) {
    for (int i = 0; i < SECRET; i++) secret[i] = (uint8_t)(i * 7 + 0x41);
}

/* ---- Servers ---- */

static void listen_here(int backlog) {
    struct sockaddr_un address = { .sun_family = AF_UNIX };
    strcpy(address.sun_path, path);
    unlink(path);
    listener = socket(AF_UNIX, SOCK_STREAM | SOCK_CLOEXEC, 0);
    if (listener < 0 || bind(listener, (struct sockaddr *)&address, sizeof address) < 0 ||
        listen(listener, backlog) < 0)
        exit(2);
}

/* A byte each 100 milliseconds of a reply without end. */
static void *drip(void *unused) {
    const uint8_t byte[] = { 0 }, head[] = { 0, 0, 4, 0 };
    int end = accept(listener, NULL, NULL);
    (void)!write(end, head, sizeof head);
    while (write(end, byte, 1) == 1) usleep(100000);
    return unused;
}

static bool then_closes;

/* Answers the first ask, and half of what the second one reads; then it ends the connection where `then_closes` says
 * so. The frames are of version 2. */
static void *answer_half(void *unused) {
    uint8_t ask[FRAME], number[] = { 16, 0, 0, 0, 0, 0, 0, 0, 0, 0, 0, 0, 0, 0, 0, 0, 1, 0, 0, 0 };
    uint8_t half[16 + SECRET] = { 12 + 100, 0, 0, 0, 0, 0, 0, 0, 2 };
    int end = accept(listener, NULL, NULL);
    bool has_asked = read(end, ask, sizeof ask) > 0;
    memcpy(number + 8, ask + 12, 8); /* the tag */
    if (has_asked && write(end, number, sizeof number) > 0 && read(end, ask, sizeof ask) > 0) {
        make_secret(half + 16);
        (void)!write(end, half, sizeof half);
        explicit_bzero(half, sizeof half);
    }
    if (then_closes) close(end);
    pause();
    return unused;
}

/* Answers so many asks with the number or serial 1; the last one instead as READ, with the secret, or as if it was the
 * next but so many. Then it ends the connection where `then_closes` says so. */
static int answers, wiped, skipped;
static bool reads_last;

static void *answer_some(void *unused) {
    static uint8_t ask[4096];
    int end = accept(listener, NULL, NULL);
    for (int i = 1; i <= answers && read(end, ask, sizeof ask) > 0; i++) {
        bool is_secret = reads_last && i == answers;
        uint8_t frame[16 + SECRET] = { is_secret ? 12 + SECRET : 16 };
        memcpy(frame + 8, ask + 12, 8); /* the tag */
        frame[16] = 1;
        if (i == answers) frame[8] += (uint8_t)skipped;
        if (is_secret) make_secret(frame + 16);
        (void)!write(end, frame, is_secret ? sizeof frame : 20);
        explicit_bzero(frame, sizeof frame);
        explicit_bzero(ask, sizeof ask);
        __atomic_store_n(&wiped, i, __ATOMIC_SEQ_CST);
    }
    if (then_closes) close(end);
    if (then_closes) __atomic_store_n(&answers, 0, __ATOMIC_SEQ_CST);
    pause();
    return unused;
}

static struct kr *connect_to(void *(*serve)(void *), int patience) {
    pthread_t thread;
    listen_here(8);
    if (serve) pthread_create(&thread, NULL, serve, NULL);
    struct kr *connection = kr_open(path);
    if (!connection || kr_set_patience(connection, patience) < 0) exit(2);
    return connection;
}

static const char *hello(struct kr *connection) {
    return kr_hello(connection, 0, 0, 0, NULL) < 0 ? strerrorname_np(errno) : "answered";
}

/* A signal each 300 milliseconds. */
static void begin_timer(void) {
    struct sigaction action = { .sa_handler = do_nothing, .sa_flags = SA_RESTART };
    struct sigevent event = { .sigev_notify = SIGEV_SIGNAL, .sigev_signo = SIGUSR1 };
    struct itimerspec often = { .it_value.tv_nsec = 300000000, .it_interval.tv_nsec = 300000000 };
    timer_t timer;
    sigaction(SIGUSR1, &action, NULL);
    if (timer_create(CLOCK_MONOTONIC, &event, &timer) < 0 || timer_settime(timer, 0, &often, NULL) < 0) exit(2);
}

/* ---- Deadlines ---- */

static const char *try_zero(void) { return hello(connect_to(NULL, 0)); }

static const char *try_signals(void) {
    struct kr *connection = connect_to(NULL, 1000);
    begin_timer();
    return hello(connection);
}

static const char *try_drip(void) { return hello(connect_to(drip, 1000)); }

/* ---- What is left in memory ---- */

/* Whether the secret is in what may be written of this process, but for the stack and this program's own data. */
static bool finds_in(int memory, unsigned long from, unsigned long to) {
    static uint8_t page[4096 + SECRET];
    uint8_t secret[SECRET];
    bool found = false;
    make_secret(secret);
    for (unsigned long at = from; at < to && !found; at += 4096) {
        if (at <= (unsigned long)page + sizeof page && at + sizeof page >= (unsigned long)page) continue;
        ssize_t got = pread(memory, page, sizeof page, (off_t)at);
        found = got > SECRET && memmem(page, (size_t)got, secret, SECRET) != NULL;
    }
    explicit_bzero(page, sizeof page);
    explicit_bzero(secret, sizeof secret);
    return found;
}

static const char *look_for_secret(void) {
    while (__atomic_load_n(&wiped, __ATOMIC_SEQ_CST) < answers) usleep(1000); /* the server's own copies */
    FILE *maps = fopen("/proc/self/maps", "r");
    int memory = open("/proc/self/mem", O_RDONLY);
    unsigned long from, to;
    char line[512], rights[8];
    bool found = false;
    while (maps && fgets(line, sizeof line, maps)) {
        bool is_range = sscanf(line, "%lx-%lx %4s", &from, &to, rights) == 3;
        if (!is_range || rights[1] != 'w' || strstr(line, "[stack]")) continue;
        found = found || finds_in(memory, from, to);
    }
    return found ? "left" : "gone";
}

/* Whether a READ, of whose reply a half comes, is given up. */
static bool reads_half(int patience) {
    char buffer[SECRET];
    mallopt(M_MMAP_THRESHOLD, 1 << 30);
    struct kr *connection = connect_to(answer_half, patience);
    int64_t context = kr_hello(connection, 0, 0, 0, NULL);
    return context >= 0 && kr_read(connection, (uint32_t)context, 5, buffer, sizeof buffer) < 0;
}

/* A reply of which a half has come, and that isn't awaited any more; the connection goes on. */
static const char *try_half(void) { return reads_half(700) ? look_for_secret() : "answered"; }

/* The same, where the server ends the connection, which its client keeps. */
static const char *try_lost(void) {
    then_closes = true;
    if (!reads_half(2000)) return "answered";
    return errno == ECONNRESET ? look_for_secret() : strerrorname_np(errno);
}

static const struct kr_field of_read[] = { { .number = 5 } };

/* The same of a READ that was sent ahead. */
static const char *try_ahead(void) {
    char buffer[SECRET];
    then_closes = true;
    mallopt(M_MMAP_THRESHOLD, 1 << 30);
    struct kr *connection = connect_to(answer_half, 2000);
    int64_t context = kr_hello(connection, 0, 0, 0, NULL);
    bool is_sent = context >= 0 && kr_send(connection, KR_READ, (uint32_t)context, of_read, NULL) == 0;
    if (!is_sent || kr_receive(connection, NULL, buffer, sizeof buffer) >= 0) return "answered";
    return errno == ECONNRESET ? look_for_secret() : strerrorname_np(errno);
}

/* Asks are sent ahead to a server that takes nothing: that waits for nothing, whatever the calls before may take. */
static const char *try_flood(void) {
    static uint8_t payload[32000];
    const struct kr_field fields[] = { { .number = 5 }, { .items = payload, .count = sizeof payload } };
    answers = 1;
    struct kr *connection = connect_to(answer_some, 30000);
    if (kr_hello(connection, 0, 0, 0, NULL) != 1) return "refused";
    for (int i = 0; i < KR_AHEAD_MAX; i++)
        if (kr_send(connection, KR_UPDATE, 1, fields, NULL) < 0) return strerrorname_np(errno);
    return "taken";
}

/* The second of two asks is answered, and the first isn't. */
static const char *try_gap(void) {
    char buffer[SECRET];
    answers = 2;
    skipped = 1;
    struct kr *connection = connect_to(answer_some, 2000);
    if (kr_hello(connection, 0, 0, 0, NULL) != 1) return "refused";
    for (int i = 0; i < 2; i++) kr_send(connection, KR_READ, 1, of_read, NULL);
    return kr_receive(connection, NULL, buffer, sizeof buffer) < 0 ? strerrorname_np(errno) : "answered";
}

/* An ask that fits no frame, whose payload had been put there. */
static const char *try_no_frame(void) {
    static uint8_t payload[65503]; /* all but the last field has room */
    struct kr *connection = connect_to(NULL, 700);
    make_secret(payload + 60000);
    int32_t key = kr_add(connection, 1, "user", "name", payload, sizeof payload, -4);
    explicit_bzero(payload, sizeof payload);
    return key >= 0 || errno != EINVAL ? "sent" : look_for_secret();
}

/* What was sent, and answered, while the connection goes on. */
static const char *try_sent(void) {
    static uint8_t payload[SECRET];
    answers = 2;
    mallopt(M_MMAP_THRESHOLD, 1 << 30);
    struct kr *connection = connect_to(answer_some, 2000);
    int64_t context = kr_hello(connection, 0, 0, 0, NULL);
    make_secret(payload);
    int32_t key = kr_add(connection, (uint32_t)context, "user", "name", payload, sizeof payload, -4);
    explicit_bzero(payload, sizeof payload);
    return key == 1 ? look_for_secret() : "refused";
}

/* What was read, while the connection goes on. */
static const char *try_read(void) {
    static uint8_t payload[SECRET];
    answers = 2;
    reads_last = true;
    mallopt(M_MMAP_THRESHOLD, 1 << 30);
    struct kr *connection = connect_to(answer_some, 2000);
    int64_t context = kr_hello(connection, 0, 0, 0, NULL);
    bool is_read = kr_read(connection, (uint32_t)context, 5, payload, sizeof payload) == SECRET && *payload == 0x41;
    explicit_bzero(payload, sizeof payload);
    return is_read ? look_for_secret() : "not read";
}

/* An ask of which no byte goes out, as the socket is full. */
static const char *try_full(void) {
    static uint8_t payload[SECRET];
    struct kr *connection = connect_to(NULL, 200);
    mallopt(M_MMAP_THRESHOLD, 1 << 30);
    while (send(kr_descriptor(connection), payload, sizeof payload, MSG_DONTWAIT) > 0) continue;
    make_secret(payload);
    int32_t key = kr_add(connection, 1, "user", "name", payload, sizeof payload, -4);
    bool is_late = key < 0 && errno == ETIMEDOUT;
    explicit_bzero(payload, sizeof payload);
    return is_late ? look_for_secret() : "sent";
}

/* The longest reply: of 262,156 bytes with its head. */
static void *answer_longest(void *unused) {
    static uint8_t frame[16 + LONGEST_BODY], ask[FRAME];
    const uint32_t length = sizeof frame - 4;
    int end = accept(listener, NULL, NULL);
    for (int i = 0; i < 4; i++) frame[i] = (uint8_t)(length >> 8 * i);
    frame[8] = 1;
    if (read(end, ask, sizeof ask) > 0)
        for (size_t sent = 0; sent < sizeof frame;) {
            ssize_t more = write(end, frame + sent, sizeof frame - sent);
            if (more <= 0) break;
            sent += (size_t)more;
        }
    pause();
    return unused;
}

static const char *try_longest(void) {
    static uint8_t room[LONGEST_BODY];
    static char text[32];
    struct kr *connection = connect_to(answer_longest, 4000);
    int64_t length = kr_read(connection, 1, 5, room, sizeof room);
    snprintf(text, sizeof text, "%lld", (long long)length);
    return length < 0 ? strerrorname_np(errno) : text;
}

/* A server that has ended the connection: no signal, which would end this program. */
static const char *try_closed(void) {
    answers = 1;
    then_closes = true;
    struct kr *connection = connect_to(answer_some, 2000);
    if (kr_hello(connection, 0, 0, 0, NULL) != 1) return "refused";
    while (__atomic_load_n(&answers, __ATOMIC_SEQ_CST) != 0) usleep(1000);
    if (kr_get_id(connection, 1, -4, 0) >= 0) return "answered";
    return kr_is_broken(connection) ? strerrorname_np(errno) : "goes on";
}

/* Whether a core file would have what is sent and received, or a child of fork(2): VmFlags of proc(5) say `dd`,
 * `wf`. */
static const char *try_dump(void) {
    struct kr *connection = connect_to(NULL, 700);
    FILE *maps = fopen("/proc/self/smaps", "r");
    char line[512];
    bool is_left_out = false;
    while (maps && fgets(line, sizeof line, maps))
        is_left_out = is_left_out || (strncmp(line, "VmFlags:", 8) == 0 && strstr(line, " dd") && strstr(line, " wf"));
    kr_close(connection);
    return is_left_out ? "left out" : "dumped";
}

static const char *try_empty(void) { return kr_open("") ? "connected" : strerrorname_np(errno); }

/* As many bytes as sun_path of unix(7) has, which leaves none for the null byte. */
static const char *try_long(void) {
    char name[sizeof((struct sockaddr_un *)0)->sun_path + 1];
    memset(name, 'x', sizeof name - 1);
    *name = '/';
    name[sizeof name - 1] = '\0';
    return kr_open(name) ? "connected" : strerrorname_np(errno);
}

/* A record that says it has more bytes than there are. */
static const char *try_note(void) {
    static const uint8_t cut[12] = { 1, 0, 0, 0, 16 };
    const void *records = cut;
    size_t length = sizeof cut;
    struct kr_note note;
    int found = kr_next_note(&records, &length, &note);
    return found < 0 && length == sizeof cut && records == cut ? strerrorname_np(errno) : "taken";
}

int main(int count, char **words) {
    static const struct {
        const char *name;
        const char *(*run)(void);
    } modes[] = { { "zero", try_zero }, { "signals", try_signals }, { "drip", try_drip }, { "half", try_half },
                  { "dump", try_dump }, { "no frame", try_no_frame }, { "empty", try_empty }, { "sent", try_sent },
                  { "read", try_read }, { "full", try_full }, { "closed", try_closed }, { "long", try_long },
                  { "longest", try_longest }, { "note", try_note }, { "lost", try_lost },
                  { "ahead", try_ahead }, { "flood", try_flood }, { "gap", try_gap } };
    if (count != 3) return 2;
    path = words[1];
    signal(SIGALRM, on_alarm);
    alarm(LONGEST);
    for (size_t i = 0; i < sizeof modes / sizeof *modes; i++)
        if (strcmp(words[2], modes[i].name) == 0) puts(modes[i].run());
    fflush(stdout);
    _exit(0);
}
