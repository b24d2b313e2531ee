/* fuzz.c: fuzzes what reads a hostile program's memory: the notification of a call, the copies that its pointers mean,
 * and what is written back. The memory is this process's own, of which some pages aren't there; a daemon answers at
 * random. What goes to it is looked at: the sanitizers see a text without its end, and a length beyond a copy.
 *
 * An input is which call, five arguments of eight bytes, and what the memory begins with. Of one the calls are those
 * that a pipe of notes wants, one after the other, with queues of records at random. */
#define _GNU_SOURCE
#include <errno.h>
#include <fcntl.h>
#include <linux/audit.h>
#include <linux/keyctl.h>
#include <linux/seccomp.h>
#include <stdint.h>
#include <stdio.h>
#include <stdlib.h>
#include <string.h>
#include <sys/mman.h>
#include <unistd.h>

#include "common/caller.h"
#include "library/connection.h"
#include "notes.h"
#include "serve.h"

enum { GIVEN = 8 };
enum { PAGE = 4096, PAGES = 96, BEHIND = 65, WORDS = 5, HEAD = 2 + WORDS * 8 };

static uint8_t *arena;
static struct copies *copies;
static struct sender sender;
static struct task task;
static struct entered entered;
static unsigned long seen;
static uint32_t random_state;

/* ---- In the place of the supervisor's other parts ---- */

const struct entered *tracees_entered(void) { return &entered; }

long tracees_session_to_parent(void) { return 0; }

void contexts_count(size_t bytes) { seen += bytes; }

static uint8_t again[77 / 8 + 1];
static struct serials serials = { .again = again };

bool caller_enter(struct caller *caller) {
    serials.stale = random_state & 2 ? 77 : 0;
    *caller = (struct caller){ .lost_session = random_state & 1, .serials = &serials };
    return true;
}

void caller_leave(struct caller *caller, long result) { (void)caller, (void)result; }

int kr_read_attributes(struct kr *connection, uint32_t context, int32_t id, struct kr_attributes *attributes) {
    (void)connection, (void)context, (void)id, (void)attributes;
    return 0;
}

/* ---- In the place of the daemon ---- */

static long answer(long most) {
    static const int errors[] = { EINVAL, ENOKEY, EACCES, ENODEV, ESRCH };
    random_state = random_state * 1664525 + 1013904223;
    errno = errors[random_state >> 8 & 3];
    return random_state >> 28 == 0 ? -1 : (long)(random_state >> 4) % (most + 1);
}

static void see(const void *bytes, size_t length) {
    for (size_t i = 0; i < length; i++) seen += ((const uint8_t *)bytes)[i];
}

static int given_numbers[GIVEN], given_count;
int turns_give(int descriptor, bool closes) {
    (void)closes;
    int number = given_count < GIVEN && answer(9) >= 0 ? dup(descriptor) : fail_as(EMFILE);
    if (number >= 0) given_numbers[given_count++] = number;
    return number;
}

static struct kr queues_connection;
struct kr *contexts_open_apart(void) {
    queues_connection = (struct kr){ .broken = false };
    return answer(9) >= 0 ? &queues_connection : NULL;
}
unsigned contexts_beginnings(void) { return random_state >> 8 == 0; }
int kr_is_broken(const struct kr *connection) { return connection->broken; }
int kr_descriptor(const struct kr *connection) { return (void)connection, -1; }
void kr_close(struct kr *connection) { (void)connection; }
int64_t kr_hello_as(struct kr *connection, const struct kr_identity *identity) {
    return (void)connection, see(identity, sizeof *identity), answer(9);
}
bool caller_has_pipes(void) { return true; }
long caller_watch(struct caller *caller, int32_t id, int descriptor, int watch) {
    return pipe_watch(caller->connection, caller->context, id, descriptor, watch);
}

int kr_send(struct kr *connection, unsigned operation, uint32_t context, const struct kr_field *fields, uint64_t *tag) {
    (void)operation, (void)context, (void)fields, (void)tag;
    connection->asked += 8000000; /* so that it is soon worn */
    return (int)answer(9) < 0 ? -1 : 0;
}

/* Records, of which some are none, and more than there is room for. */
int64_t kr_receive(struct kr *connection, uint64_t *tag, void *buffer, size_t room) {
    static const uint8_t kinds[] = { 0, 1, 1, 1 }, lengths[] = { 16, 16, 8, 0, 15, 127 };
    (void)tag;
    long length = answer((long)room + 20);
    for (long at = 0; at + 16 <= length && (size_t)at + 16 <= room; at += 16) {
        uint8_t *record = (uint8_t *)buffer + at;
        memset(record, 0, 16);
        record[0] = kinds[answer(3) & 3], record[3] = (uint8_t)answer(7), record[8] = (uint8_t)answer(2);
        record[4] = lengths[(unsigned)answer(5) % sizeof lengths];
    }
    connection->broken = length < 0 && random_state & 1;
    return length;
}

static void see_text(const char *text) {
    if (text) see(text, strlen(text));
}

int64_t kr_ask(struct kr *connection, enum kr_operation operation, uint32_t context, const struct kr_field *fields,
               void *buffer, size_t room) {
    const struct kr_ask_form *form = kr_ask_form(operation);
    (void)connection, (void)context;
    for (int i = 0; form->fields[i] != KR_END; i++) see(fields[i].items, fields[i].count);
    long length = answer(form->answer == KR_BYTES ? 262140 : 1);
    if (length > 0 && buffer) memset(buffer, 'r', (size_t)length < room ? (size_t)length : room);
    if (operation == KR_OPEN_QUEUE && length == 0) return 1;
    if (operation == KR_READ_QUEUE) return kr_receive(connection, NULL, buffer, room);
    bool is_ring = operation == KR_DESCRIBE && buffer && room > 64 && random_state >> 17 & 7;
    if (is_ring) return snprintf(buffer, room, "keyring;1;2;0;d");
    return length;
}

int32_t caller_join(struct caller *caller, const char *name) {
    (void)caller;
    see_text(name);
    return (int32_t)answer(1000);
}

/* ---- An input ---- */

static bool is_valid(void) { return random_state >> 16 & 7; }

/* Behind the arena nobody may write, as far as the longest answer reaches. */
static void begin(void) {
    arena = mmap(NULL, (PAGES + BEHIND) * PAGE, PROT_NONE, MAP_PRIVATE | MAP_ANONYMOUS, -1, 0);
    copies = copies_make();
    sender.thread = getpid();
    if (arena == MAP_FAILED || mprotect(arena, PAGES * PAGE, PROT_READ | PROT_WRITE) < 0) abort();
    if (!copies || pipes_begin() < 0) abort();
    munmap(arena + 8 * PAGE, PAGE);
    mprotect(arena + 40 * PAGE, PAGE, PROT_READ);
    mprotect(arena + 50 * PAGE, PAGE, PROT_NONE);
    entered.task = &task;
    entered.sender = &sender;
    entered.is_valid = is_valid;
}

/* An argument is in the arena, or nowhere: nothing else of this process may be written to. */
static uint64_t argument_of(const uint8_t *bytes) {
    uint64_t value;
    memcpy(&value, bytes, sizeof value);
    if (value >> 60 == 0) return (uint64_t)(uintptr_t)arena + value % (PAGES * PAGE);
    if (value >> 60 == 1) return value & 0xfff;
    return value >> 63 ? value : 0;
}

static void call(const struct seccomp_data *data, bool is_kept) {
    unsigned long given[KEY_ARGUMENTS];
    uint64_t sum;
    int number = filter_decode(data, given);
    if (number < 0) return;
    if (copies_begin(copies, key_row_of(number), given)) copies_take(copies, getpid());
    long result = call_carry_out(copies, data, &sum);
    if (copies->puts && is_valid()) copies_put(copies);
    copies_end(copies);
    if (sum != 0 && is_kept) replay_keep(&task.replay, data, &entered.asker.process, sum, result, errno);
}

/* A pipe is made; its size, its filter, a watch, a change and a poll; then nobody reads it any more. */
static void call_for_notes(const uint8_t *bytes, struct seccomp_data data) {
    const uint64_t at = data.args[0], filter = data.args[1];
    memcpy(&random_state, bytes + HEAD - sizeof random_state, sizeof random_state);
    data.arch = AUDIT_ARCH_X86_64;
    for (int i = 0; i < 4; i++) {
        data.nr = i < 2 ? SYS_pipe2 : SYS_ioctl;
        data.args[0] = i < 2 ? at + 8 * (unsigned)i : (uint64_t)given_numbers[bytes[1] & 1];
        data.args[1] = i < 2 ? O_NOTIFICATION_PIPE | (bytes[1] & O_CLOEXEC) : IOC_WATCH_QUEUE_SET_SIZE + i - 2u;
        data.args[2] = i == 2 ? bytes[10] : filter;
        call(&data, false);
    }
    for (int i = 0; i < 6; i++) {
        data.nr = 250;
        data.args[0] = i == 3 ? KEYCTL_REVOKE : KEYCTL_WATCH_KEY;
        data.args[1] = 1 + bytes[18 + i] % 3;
        data.args[2] = (uint64_t)given_numbers[(bytes[1] + i) & 3];
        data.args[3] = i == 4 ? (uint64_t)-1 : bytes[26 + i];
        call(&data, false);
        queues_poll();
    }
    while (given_count > 0) close(given_numbers[--given_count]);
    pipes_take();
}

int LLVMFuzzerTestOneInput(const uint8_t *bytes, size_t size) {
    struct seccomp_data data = { .arch = AUDIT_ARCH_X86_64 };
    if (size < HEAD) return 0;
    if (!arena) begin();
    random_state = bytes[0] * 0x01010101u ^ (uint32_t)size;
    data.nr = (bytes[0] & 64 ? 286 : 248) + bytes[0] % 4;
    if (bytes[0] & 64) data.arch = AUDIT_ARCH_I386;
    for (int i = 0; i < WORDS; i++) data.args[i] = argument_of(bytes + 2 + 8 * i);
    if (bytes[0] % 4 == 2) data.args[5] = data.args[4], data.args[0] = bytes[1] % 40;
    for (size_t at = 0; at < 4; at++)
        memcpy(arena + at * PAGE * 2 + at * 100, bytes + HEAD, size - HEAD < PAGE ? size - HEAD : PAGE);
    if (bytes[0] >= 240) call_for_notes(bytes, data);
    else call(&data, bytes[1] & 1);
    return 0;
}
