/* calls.c: copies what a call's pointers mean out of the caller's memory, lets syscalls.c answer it from these
 * copies, and copies the result back. Each byte is read once, so that nothing can change between a look and its
 * use. */
#include "notes.h"
#include "serve.h"

static struct memory memory = { -1, -1 }; /* of this process: a worker has its own */

struct copies *copies_make(void) {
    void *room = mmap(NULL, sizeof(struct copies), PROT_READ | PROT_WRITE, MAP_SHARED | MAP_ANONYMOUS, -1, 0);
    if (room == MAP_FAILED) return NULL;
    if (madvise(room, sizeof(struct copies), MADV_DONTDUMP) == 0) return room;
    copies_free(room);
    return NULL;
}

void copies_free(struct copies *copies) {
    ERRNO_STAYS;
    if (copies) munmap(copies, sizeof *copies);
}

/* ---- Copying ---- */

static size_t least(unsigned long one, size_t other) { return one < other ? one : other; }

static bool is_text(enum key_argument kind) { return kind == KEY_TYPE || kind == KEY_TEXT; }

bool copies_begin(struct copies *copies, const struct key_row *row, const unsigned long given[KEY_ARGUMENTS]) {
    copies->row = row;
    memcpy(copies->given, given, sizeof copies->given);
    memcpy(copies->arguments.at, given, sizeof copies->given);
    copies->error = 0;
    copies->length = 0;
    copies->puts = false;
    int room = key_row_argument(row, KEY_ROOM);
    copies->to = room >= 0 ? given[room] : row->call == CALL_PIPE2 ? given[0] : 0;
    if (room >= 0) copies->arguments.at[room + 1] = least(given[room + 1], ROOM_MAX);
    bool is_pipe2 = row->call == CALL_PIPE2, wants_memory = is_pipe2 || (row->call == CALL_SET_FILTER && given[1]);
    for (int i = 0; i < KEY_ARGUMENTS; i++)
        wants_memory |= given[i] != 0 && (is_text(row->at[i]) || row->at[i] == KEY_ROOM ||
                                          (row->at[i] == KEY_PAYLOAD && given[i + 1] != 0));
    if (key_row_check_payload(row, given) < 0) copies->error = errno;
    return wants_memory && copies->error == 0;
}

static bool copy_texts(struct copies *copies, pid_t thread) {
    unsigned long *at = copies->arguments.at;
    int count = 0;
    for (int i = 0; i < KEY_ARGUMENTS; i++) {
        if (!is_text(copies->row->at[i]) || !at[i]) continue;
        char *text = copies->texts[count++];
        size_t most = copies->row->at[i] == KEY_TYPE ? TYPE_MAX : TEXT_MAX;
        if (!memory_read_text(thread, text, at[i], most)) return false;
        at[i] = (unsigned long)text;
    }
    return true;
}

/* What no ask can hold is refused as too long by the library; it is told so by one byte too many. */
static bool copy_payload(struct copies *copies, pid_t thread) {
    int payload = key_row_argument(copies->row, KEY_PAYLOAD);
    if (payload < 0 || copies->arguments.at[payload + 1] == 0) return true;
    unsigned long *from = &copies->arguments.at[payload], *length = from + 1;
    if (*length > PAYLOAD_MAX) *length = PAYLOAD_MAX;
    if (!memory_read(thread, copies->payload, *from, *length)) return false;
    *from = (unsigned long)copies->payload;
    return true;
}

/* A filter of linux/watch_queue.h: as much of it as can be read, as what is wrong with a pipe comes first. */
static bool copy_filter(struct copies *copies, pid_t thread) {
    uint32_t count;
    if (copies->row->call != CALL_SET_FILTER) return true;
    if (!memory_read(thread, copies->payload, copies->given[1], FILTER_HEAD)) return errno == EFAULT;
    copies->length = FILTER_HEAD;
    memcpy(&count, copies->payload, sizeof count);
    size_t more = count <= FILTERS ? count * sizeof(struct kr_entry) : 0;
    if (!memory_read(thread, copies->payload + FILTER_HEAD, copies->given[1] + FILTER_HEAD, more))
        return errno == EFAULT;
    copies->length += more;
    return true;
}

/* Whether two numbers can be read and written there, before there is a pipe that has them. */
static bool try_numbers(const struct copies *copies, pid_t thread) {
    int numbers[2];
    if (copies->row->call != CALL_PIPE2) return true;
    if (memory_read(thread, numbers, copies->to, sizeof numbers) &&
        memory_write(&memory, copies->to, numbers, sizeof numbers))
        return true;
    return fail_as(EFAULT), false;
}

/* What is read and opened is the notified thread's only where the notification still waits afterwards. */
void copies_take(struct copies *copies, pid_t thread) {
    int room = key_row_argument(copies->row, KEY_ROOM);
    memory_close(&memory);
    bool is_read = copy_texts(copies, thread) && copy_payload(copies, thread) && copy_filter(copies, thread);
    if (!is_read || (copies->to && memory_open(&memory, thread) < 0) || !try_numbers(copies, thread))
        copies->error = errno == EFAULT ? EFAULT : ENOSYS;
    if (room >= 0 && copies->to) copies->arguments.at[room] = (unsigned long)copies->room;
}

/* What the kernel would put there: all where there is room for it, else nothing; but of capabilities as much as there
 * is room for. */
static void say_what_to_put(struct copies *copies, long result) {
    int room = key_row_argument(copies->row, KEY_ROOM);
    bool is_pipe = copies->row->call == CALL_PIPE2 && result == 0;
    if (!is_pipe && (room < 0 || result <= 0 || !copies->to)) return;
    unsigned long most = is_pipe ? 0 : copies->arguments.at[room + 1];
    copies->length = is_pipe ? 2 * sizeof(int) : (size_t)result;
    copies->put_length = copies->length <= most || is_pipe ? copies->length : 0;
    if (copies->row->call == KEYCTL_CAPABILITIES) copies->put_length = most;
    copies->puts = copies->put_length > 0;
}

void copies_put(struct copies *copies) {
    if (!memory_write(&memory, copies->to, copies->room, copies->put_length)) copies->error = EFAULT;
}

void copies_end(struct copies *copies) {
    int payload = key_row_argument(copies->row, KEY_PAYLOAD);
    for (int i = 0; i < TEXTS; i++) explicit_bzero(copies->texts[i], strlen(copies->texts[i]));
    if (payload >= 0) explicit_bzero(copies->payload, least(copies->given[payload + 1], PAYLOAD_MAX));
    explicit_bzero(copies->room, least(copies->length, ROOM_MAX));
    memory_close(&memory);
}

/* ---- Answers that are kept ---- */

enum { KEPT_MILLISECONDS = 1000 };

/* FNV-1a: a thread that wants two calls to have one sum deceives itself alone. */
uint64_t replay_sum(uint64_t sum, const void *bytes, size_t length) {
    const unsigned char *at = bytes;
    for (size_t i = 0; i < length; i++) sum = (sum ^ at[i]) * UINT64_C(0x100000001b3);
    return sum;
}

bool replay_take(struct replay *replay, const struct seccomp_data *call, const struct admission_process *caller,
                 uint64_t sum, long *result) {
    bool is_same = replay->until >= kr_now() && replay->sum == sum && memcmp(&replay->call, call, sizeof *call) == 0 &&
                   memcmp(&replay->caller, caller, sizeof *caller) == 0;
    replay->until = 0;
    if (!is_same) return false;
    *result = replay->result;
    errno = replay->error;
    return true;
}

void replay_keep(struct replay *replay, const struct seccomp_data *call, const struct admission_process *caller,
                 uint64_t sum, long result, int error) {
    replay->call = *call;
    memcpy(&replay->caller, caller, sizeof *caller);
    replay->sum = sum;
    replay->until = kr_now() + KEPT_MILLISECONDS;
    replay->result = result;
    replay->error = error;
}

static uint64_t sum_of(const struct copies *copies) {
    int payload = key_row_argument(copies->row, KEY_PAYLOAD);
    uint64_t sum = 1;
    for (int i = 0; i < TEXTS; i++) sum = replay_sum(sum, copies->texts[i], strlen(copies->texts[i]) + 1);
    return (payload < 0 ? sum : replay_sum(sum, copies->payload, copies->arguments.at[payload + 1])) | 1;
}

/* ---- A call ---- */

/* In a user namespace of its own a program has other user keyrings, which aren't there, and other numbers of users. */
static long answer_tracee(struct copies *copies) {
    const struct key_row *row = copies->row;
    const unsigned long *given = copies->given;
    bool names_users = key_row_names(row, given, KEY_SPEC_USER_KEYRING) ||
                       key_row_names(row, given, KEY_SPEC_USER_SESSION_KEYRING);
    bool is_elsewhere = tracees_entered()->sender->is_elsewhere;
    if (is_elsewhere && (names_users || row->call == KEYCTL_CHOWN)) return fail_as(EOPNOTSUPP);
    switch (row->call) {
    case KEYCTL_SET_REQKEY_KEYRING: return key_set_reqkey(&tracees_entered()->task->reqkey, (int)given[0]);
    case KEYCTL_SESSION_TO_PARENT: return tracees_session_to_parent();
    case CALL_PIPE2: return pipe_make((int *)copies->room, (unsigned)given[1]);
    case CALL_SET_SIZE: return pipe_set_size((int)given[0], given[1]);
    case CALL_SET_FILTER: return pipe_set_filter((int)given[0], given[1] ? copies->payload : NULL, copies->length);
    default: return key_call_of_row(row, copies->arguments);
    }
}

long call_carry_out(struct copies *copies, const struct seccomp_data *data, uint64_t *sum) {
    const struct entered *entered = tracees_entered();
    long result = copies->error ? fail_as(copies->error) : 0;
    *sum = result < 0 || key_row_only_reads(copies->row, copies->given) ? 0 : sum_of(copies);
    bool is_answered = replay_take(&entered->task->replay, data, &entered->asker.process, *sum, &result);
    if (result == 0 && !is_answered) result = answer_tracee(copies);
    queues_after_call(copies->row, copies->given, result);
    say_what_to_put(copies, result);
    return result;
}
