/* pipes.c: what a program has as a pipe of notes.
 *
 * It is an end of a pair of sockets that keep records apart: each read takes one. Unlike a pipe's it can't be opened
 * again for writing by /proc, so that notes aren't forged, and nothing is received from it. By the inode of a socket,
 * which nobody may choose, it is known again whatever its number is. */
#include "notes.h"

#include <sys/epoll.h>

#include "serve.h"

enum { PIPES = 64, PIPES_OF_USER = 16, CAPACITY_MAX = 512, EVENTS = 16, LOOKS = 1024, INFO_LENGTH = 0x7f };

static struct {
    int epoll;
    struct pipe *pipes;
} all;

int pipes_begin(void) { return all.epoll = epoll_create1(EPOLL_CLOEXEC); }
struct pipe *pipes_first(void) { return all.pipes; }

/* A worker that begins has its sockets for a moment longer: until then epoll(7) wouldn't forget it by itself. */
void pipe_end(struct pipe *pipe) {
    TAKE_OUT(all.pipes, pipe);
    queue_close(pipe);
    epoll_ctl(all.epoll, EPOLL_CTL_DEL, pipe->writer, NULL);
    close_one(&pipe->writer);
    free(pipe);
}

bool pipe_put(struct pipe *pipe) {
    while (pipe->start < pipe->end) {
        const uint8_t *record = pipe->held + pipe->start;
        size_t left = pipe->end - pipe->start, length = left < LOSS ? 0 : kr_get_u32(record + 4) & INFO_LENGTH;
        if (length == 0 || length > left) length = left;
        if (send(pipe->writer, record, length, MSG_DONTWAIT | MSG_NOSIGNAL) < 0) return false;
        pipe->start += length;
    }
    return true;
}

/* Some have room again, or nobody who reads them. */
void pipes_take(void) {
    struct epoll_event events[EVENTS];
    int count = epoll_wait(all.epoll, events, EVENTS, 0);
    for (int i = 0; i < count; i++) {
        struct pipe *pipe = events[i].data.ptr;
        pipe->is_due = true;
        if (events[i].events & (EPOLLERR | EPOLLHUP)) pipe_end(pipe);
    }
    queues_move();
}

/* ---- Making one ---- */

/* As of a connection's contexts: nobody gets one more who has as many as are left. */
static bool may_have_more(uint32_t uid) {
    unsigned count = 0, own = 0;
    for (const struct pipe *pipe = all.pipes; pipe; pipe = pipe->next) count++, own += pipe->uid == uid;
    return own < PIPES_OF_USER && own < PIPES - count;
}

/* What a descriptor of the thread that has entered is called; false where it is none. No file is looked at: one of
 * FUSE could have this wait. */
static bool read_name(int descriptor, char *name, size_t room) {
    char path[64];
    snprintf(path, sizeof path, "/proc/%d/fd/%d", (int)tracees_entered()->sender->thread, descriptor);
    ssize_t length = readlink(path, name, room - 1);
    name[length > 0 ? length : 0] = '\0';
    return length >= 0;
}

/* Whether there are two, as what one was given can't be taken from it again. They are looked for from the highest on,
 * as they are taken from the lowest on. */
static bool has_two_numbers(void) {
    struct rlimit limit;
    char name[2];
    int free_ones = 0;
    if (prlimit(tracees_entered()->sender->thread, RLIMIT_NOFILE, NULL, &limit) < 0) return true;
    int number = limit.rlim_cur < INT_MAX ? (int)limit.rlim_cur : INT_MAX;
    for (int looks = 0; looks < LOOKS && number > 0 && free_ones < 2; looks++)
        free_ones += !read_name(--number, name, sizeof name);
    return free_ones == 2;
}

static struct pipe *add_pipe(uint32_t uid, const int ends[2]) {
    struct pipe *pipe = calloc(1, sizeof *pipe);
    struct epoll_event event = { .events = EPOLLOUT | EPOLLET, .data.ptr = pipe };
    struct stat status;
    if (!pipe || fstat(ends[0], &status) < 0 || shutdown(ends[1], SHUT_RD) < 0 ||
        epoll_ctl(all.epoll, EPOLL_CTL_ADD, ends[1], &event) < 0)
        return forgotten(pipe);
    *pipe = (struct pipe){ .writer = ends[1], .inode = status.st_ino, .uid = uid, .next = all.pipes };
    return all.pipes = pipe;
}

/* Gives the thread two numbers of it: false where there is none left. */
static bool give(int end, unsigned flags, int given[2]) {
    for (int i = 0; i < 2; i++)
        if ((given[i] = turns_give(end, flags & O_CLOEXEC)) < 0) return false;
    return true;
}

/* What can be seen to fail does before there is one. */
long pipe_make(int given[2], unsigned flags) {
    const uint32_t uid = tracees_entered()->identity.uid;
    int ends[2];
    if (flags & ~(unsigned)(O_CLOEXEC | O_NONBLOCK | O_DIRECT | O_NOTIFICATION_PIPE)) return fail_as(EINVAL);
    if (!has_two_numbers()) return fail_as(EMFILE);
    const int kind = SOCK_SEQPACKET | SOCK_CLOEXEC | (flags & O_NONBLOCK ? SOCK_NONBLOCK : 0);
    if (!may_have_more(uid) || socketpair(AF_UNIX, kind, 0, ends) < 0) return fail_as(ENFILE);
    struct pipe *pipe = add_pipe(uid, ends);
    bool is_given = pipe && give(ends[0], flags, given);
    close_one(&ends[0]);
    if (!pipe) close_one(&ends[1]);
    if (!pipe) return fail_as(ENFILE);
    if (!is_given) return pipe_end(pipe), fail_as(EMFILE);
    return 0;
}

/* ---- What is asked of one ---- */

/* ENOTTY or EBADF where it is none of these; ENODEV, as of the kernel, of another pipe. */
static struct pipe *find_pipe(int descriptor) {
    char name[64];
    unsigned long inode;
    if (!read_name(descriptor, name, sizeof name) || !tracees_entered()->is_valid()) return fail_as(EBADF), NULL;
    errno = strncmp(name, "pipe:[", 6) == 0 ? ENODEV : ENOTTY;
    return sscanf(name, "socket:[%lu]", &inode) == 1 ? FIND(all.pipes, at, at->inode == inode) : NULL;
}

long pipe_set_size(int descriptor, unsigned long capacity) {
    struct pipe *pipe = find_pipe(descriptor);
    if (!pipe) return -1;
    if (pipe->capacity) return fail_as(EBUSY);
    if (capacity < 1 || capacity > CAPACITY_MAX) return fail_as(EINVAL);
    pipe->capacity = (uint32_t)capacity;
    return 0;
}

static bool is_sound(const struct kr_entry *entry) {
    return !(entry->info_filter & ~entry->info_mask) && !(entry->info_mask & INFO_LENGTH);
}

/* The daemon takes no filter away: one that all notes pass is as good. */
long pipe_set_filter(int descriptor, const uint8_t *from, size_t length) {
    struct { uint32_t count, reserved; } head = { 1, 0 };
    struct kr_entry filter[FILTERS] = { { .type = 1 } };
    struct pipe *pipe = find_pipe(descriptor);
    if (!pipe) return -1;
    if (!from) memset(filter[0].subtypes, 0xff, sizeof filter[0].subtypes);
    if (from && length < FILTER_HEAD) return fail_as(EFAULT);
    if (from) memcpy(&head, from, sizeof head);
    if (head.count < 1 || head.count > FILTERS || head.reserved) return fail_as(EINVAL);
    if (from && length < FILTER_HEAD + head.count * sizeof *filter) return fail_as(EFAULT);
    if (from) memcpy(filter, from + FILTER_HEAD, head.count * sizeof *filter);
    for (unsigned i = 0; i < head.count; i++)
        if (!is_sound(&filter[i])) return fail_as(EINVAL);
    memcpy(pipe->filter, filter, sizeof filter);
    pipe->count = head.count;
    return queue_set_filter(pipe);
}

/* What the daemon tells of a key to those who may view it, and which key it is. */
static bool read_key(struct kr *asker, uint32_t context, int32_t id, struct watch *wanted) {
    char text[64 + 4096];
    int64_t length = kr_describe(asker, context, id, text, sizeof text - 1);
    if (length < 0) return false;
    text[(size_t)length < sizeof text ? (size_t)length : 0] = '\0';
    wanted->is_ring = strncmp(text, "keyring;", 8) == 0;
    if (sscanf(text, "%*[^;];%u;%u;", &wanted->owner, &wanted->group) != 2) return fail_as(EACCES), false;
    wanted->key = id < 0 ? kr_get_id(asker, context, id, 1) : id;
    return wanted->key > 0;
}

/* A key that may not be viewed is refused before a pipe that is none, as in the kernel. */
long pipe_watch(struct kr *asker, uint32_t context, int32_t id, int descriptor, int watch) {
    struct watch wanted = { .id = watch, .identity = tracees_entered()->identity };
    if (!read_key(asker, context, id, &wanted)) return -1;
    const struct pipe *pipe = find_pipe(descriptor);
    if (!pipe || !pipe->capacity) return fail_as(EINVAL);
    if (!queues_begin_call()) return fail_as(EDQUOT);
    struct pipe *there = FIND(all.pipes, at, at == pipe);
    return there ? queue_watch(there, &wanted) : fail_as(EINVAL);
}
