/* common.h: what all files here stand on: the C library, and how a function fails. */
#ifndef KEYRETAIN_COMMON_H
#define KEYRETAIN_COMMON_H

#ifndef _GNU_SOURCE
#define _GNU_SOURCE
#endif
#include <errno.h>
#include <fcntl.h>
#include <limits.h>
#include <linux/keyctl.h>
#include <poll.h>
#include <signal.h>
#include <stdbool.h>
#include <stddef.h>
#include <stdint.h>
#include <stdio.h>
#include <stdlib.h>
#include <string.h>
#include <sys/mman.h>
#include <sys/prctl.h>
#include <sys/resource.h>
#include <sys/socket.h>
#include <sys/stat.h>
#include <sys/syscall.h>
#include <sys/wait.h>
#include <time.h>
#include <unistd.h>

/* -1, with this errno. */
static inline int fail_as(int error) {
    errno = error;
    return -1;
}

/* From here on errno stays, as it is again at the end of the block. */
#define ERRNO_STAYS int kept_errno __attribute__((cleanup(put_errno), unused)) = errno
static inline void put_errno(const int *kept) { errno = *kept; }

/* The first item of a list of which this holds, or NULL. */
#define FIND(list, item, holds)                                   \
    ({                                                            \
        __typeof__(&*(list)) item = (list);                       \
        while (item && !(holds)) item = item->next;               \
        item;                                                     \
    })

/* Takes an item out of the list that begins there, if it is in it. */
#define TAKE_OUT(list, item)                                      \
    do {                                                          \
        __typeof__(list) *at_ = &(list);                          \
        while (*at_ && *at_ != (item)) at_ = &(*at_)->next;       \
        if (*at_) *at_ = (*at_)->next;                            \
    } while (0)

/* Frees what was made in vain: NULL, and errno stays. */
static inline void *forgotten(void *made) {
    ERRNO_STAYS;
    free(made);
    return NULL;
}

/* Moves what stands behind so many bytes to the front, and wipes the rest. */
static inline void drop_front(uint8_t *bytes, size_t *length, size_t count) {
    *length -= count;
    memmove(bytes, bytes + count, *length);
    explicit_bzero(bytes + *length, count);
}

/* Closes a descriptor, if it is one, and takes note of that; errno stays. */
static inline void close_one(int *descriptor) {
    ERRNO_STAYS;
    if (*descriptor >= 0) close(*descriptor);
    *descriptor = -1;
}

/* A descriptor and the file that it stands for: a program may close every descriptor, and have something else under the
 * number. */
struct kr_file {
    int descriptor; /* -1 for none */
    mode_t type;
    dev_t device;
    ino_t inode;
};

/* Takes a descriptor over. False with errno where it is none, or can't be told from what has its number later: then it
 * is closed. */
static inline bool kr_take_file(struct kr_file *file, int descriptor) {
    struct stat status;
    if (descriptor < 0) return false;
    if (fstat(descriptor, &status) < 0) return close_one(&descriptor), false;
    *file = (struct kr_file){ descriptor, status.st_mode & S_IFMT, status.st_dev, status.st_ino };
    return true;
}

/* Whether the number is still that file's, in whatever process. */
static inline bool kr_has_file(const struct kr_file *file) {
    struct stat status;
    return file->descriptor >= 0 && fstat(file->descriptor, &status) == 0 && (status.st_mode & S_IFMT) == file->type &&
           status.st_dev == file->device && status.st_ino == file->inode;
}

/* Closes it, if it is; errno stays. */
static inline void kr_close_file(struct kr_file *file) {
    ERRNO_STAYS;
    if (kr_has_file(file)) close(file->descriptor);
    file->descriptor = -1;
}

/* Milliseconds of the monotonic clock. */
static inline int64_t kr_now(void) {
    struct timespec now;
    clock_gettime(CLOCK_MONOTONIC, &now);
    return (int64_t)now.tv_sec * 1000 + now.tv_nsec / 1000000;
}

/* The same descriptor, or a copy in its place where its number is one of the three that programs read from and write
 * to. */
static inline int move_up(int descriptor) {
    if (descriptor < 0 || descriptor > STDERR_FILENO) return descriptor;
    int moved = fcntl(descriptor, F_DUPFD_CLOEXEC, STDERR_FILENO + 1);
    close_one(&descriptor);
    return moved;
}

/* Who made the other end of a connection of unix(7), or listens there: struct ucred. */
struct peer {
    pid_t pid;
    uid_t uid;
    gid_t gid;
};

/* False where the kernel doesn't say. */
static inline bool find_peer(int connection, struct peer *peer) {
    socklen_t length = sizeof *peer;
    return getsockopt(connection, SOL_SOCKET, SO_PEERCRED, peer, &length) == 0 && length == sizeof *peer;
}

/* Reads so many lines, or what comes until the end or fills the room, as a text, by the deadline (of kr_now): 0, or -1
 * with errno. */
static inline int read_lines(int from, int lines, char *text, size_t room, int64_t deadline) {
    size_t got = 0;
    *text = '\0';
    for (int whole = 0; whole < lines && got < room - 1;) {
        int64_t left = deadline - kr_now();
        struct pollfd wait = { .fd = from, .events = POLLIN };
        int ready = poll(&wait, 1, left > 0 ? (int)left : 0);
        if (ready == 0) errno = ETIMEDOUT;
        if (ready == 0 || (ready < 0 && errno != EINTR)) return -1;
        if (ready < 0) continue;
        ssize_t more = read(from, text + got, room - 1 - got);
        if (more < 0 && errno == EINTR) continue;
        if (more <= 0) return (int)more;
        text[got += (size_t)more] = '\0';
        whole = 0;
        for (const char *end = text; (end = strchr(end, '\n')) != NULL; end++) whole++;
    }
    return 0;
}

/* The number that a word is in this base, from `least` to `most`; or -1. */
static inline int64_t number_in(const char *word, int base, unsigned long least, unsigned long most) {
    char *end;
    errno = 0;
    unsigned long number = strtoul(word, &end, base);
    bool is_one = *word >= '0' && *word <= '9' && !*end && !errno && number >= least && number <= most;
    return is_one ? (int64_t)number : -1;
}

/* A number that proc(5) tells, or this one. An id that has no number in a user namespace is OVERFLOW_ID there, unless
 * the system says otherwise. */
enum { OVERFLOW_ID = 65534 };
static inline unsigned number_of_file(const char *path, const char *form, unsigned otherwise) {
    unsigned number = otherwise;
    FILE *file = fopen(path, "re");
    if (!file || fscanf(file, form, &number) != 1) number = otherwise;
    if (file) fclose(file);
    return number;
}

/* Answers what a program is asked of itself, and ends it; other words are no such question. */
static inline void answer_option(const char *word, const char *usage, const char *help, const char *version) {
    bool wants_help = strcmp(word, "--help") == 0 || strcmp(word, "-h") == 0;
    if (!wants_help && strcmp(word, "--version") != 0) return;
    printf("%s%s", wants_help ? usage : version, wants_help ? help : "\n");
    exit(fflush(stdout) == 0 && !ferror(stdout) ? 0 : 3);
}

#endif
