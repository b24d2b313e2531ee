/* proc.c: what the kernel tells of processes. */
#include "proc.h"

#include <linux/auxvec.h>

enum { DECIMAL = 10, FORKED_AND_NOT_EXECUTED = 0x40 /* PF_FORKNOEXEC of the kernel */ };

#ifndef PIDFD_THREAD
#define PIDFD_THREAD O_EXCL
#endif

int proc_open_file(pid_t id, const char *name, int flags) {
    char path[64];
    snprintf(path, sizeof path, "/proc/%d/%s", (int)id, name);
    return open(path, flags | O_CLOEXEC);
}

/* Puts the first bytes of a file as a text; false for none. Closes it. */
static bool read_file(int file, char *text, size_t room, bool is_long) {
    size_t length = 0;
    ssize_t got = 0;
    if (file < 0) return false;
    do {
        got = read(file, text + length, room - 1 - length);
        if (got > 0) length += (size_t)got;
    } while (is_long && got > 0 && length < room - 1);
    close(file);
    text[length] = '\0';
    return got >= 0 && length > 0;
}

bool proc_read(pid_t id, const char *name, char *text, size_t room) {
    return read_file(proc_open_file(id, name, O_RDONLY), text, room, false);
}

bool proc_read_long(pid_t id, const char *name, char *text, size_t room) {
    return read_file(proc_open_file(id, name, O_RDONLY), text, room, true);
}

/* ---- status ---- */

/* What stands behind a name at the beginning of a line. No earlier line can have it: that of the program's name has
 * its line ends escaped. */
static const char *find_field(const char *text, const char *name) {
    const char *at = strstr(text, name);
    return at ? at + strlen(name) : NULL;
}

static bool read_number(const char *text, const char *name, unsigned *number) {
    const char *at = find_field(text, name);
    if (at) *number = (unsigned)strtoul(at, NULL, DECIMAL);
    return at != NULL;
}

static bool read_ids(const char *text, const char *name, struct admission_ids *ids) {
    const char *at = find_field(text, name);
    return at && sscanf(at, "%u %u %u %u", &ids->real, &ids->effective, &ids->saved, &ids->files) == 4;
}

static bool read_groups(const char *text, struct proc_status *status) {
    const char *at = find_field(text, "\nGroups:");
    int length = 0;
    for (; at && status->count < KR_GROUPS_MAX; status->count++, at += length)
        if (sscanf(at, "%*[ \t]%u%n", &status->groups[status->count], &length) != 1) break;
    return at != NULL;
}

/* The last two stand behind the groups, of which there may be more than there is room for. */
bool proc_read_status(pid_t thread, struct proc_status *status) {
    char text[4096];
    unsigned process;
    struct stat of_file;
    int file = proc_open_file(thread, "status", O_RDONLY);
    memset(status, 0, sizeof *status);
    status->owner = fstat(file, &of_file) == 0 ? of_file.st_uid : UINT32_MAX;
    if (!read_file(file, text, sizeof text, false) || !read_number(text, "\nTgid:", &process) ||
        !read_ids(text, "\nUid:", &status->uids) || !read_ids(text, "\nGid:", &status->gids) ||
        !read_groups(text, status))
        return false;
    status->process = (pid_t)process;
    if (!read_number(text, "\nThreads:", &status->threads) || !read_number(text, "\nSeccomp:", &status->seccomp))
        status->threads = status->seccomp = 0;
    return true;
}

pid_t proc_parent(pid_t process) {
    char text[4096];
    unsigned parent;
    bool is_read = proc_read(process, "status", text, sizeof text) && read_number(text, "\nPPid:", &parent);
    return is_read ? (pid_t)parent : -1;
}

DIR *proc_begin(pid_t process) {
    char path[64] = "/proc";
    if (process > 0) snprintf(path, sizeof path, "/proc/%d/task", (int)process);
    DIR *processes = opendir(path);
    int spare = processes ? fcntl(dirfd(processes), F_DUPFD_CLOEXEC, 0) : -1;
    if (spare >= 0) close(spare);
    if (spare >= 0 || !processes) return processes;
    closedir(processes);
    return NULL;
}

pid_t proc_next(DIR *processes) {
    for (const struct dirent *entry; (entry = readdir(processes)) != NULL;) {
        pid_t process = (pid_t)strtol(entry->d_name, NULL, DECIMAL); /* or 0 */
        if (process > 0) return process;
    }
    return 0;
}

/* NStgid has the numbers of a process in the namespace of /proc and in those within it, down to its own. A kernel
 * without PID namespaces doesn't say it. */
bool proc_is_ours(void) {
    char text[4096];
    int number, within;
    if (!read_file(open("/proc/self/status", O_RDONLY | O_CLOEXEC), text, sizeof text, false)) return false;
    const char *at = find_field(text, "\nNStgid:");
    errno = ESRCH;
    return !at || (sscanf(at, "%d %d", &number, &within) == 1 && number == getpid());
}

/* ---- stat ---- */

/* The flags stand behind the program's name in parentheses. */
bool proc_has_only_forked(pid_t process, bool unknown) {
    char text[1024];
    unsigned flags;
    const char *end = proc_read(process, "stat", text, sizeof text) ? strrchr(text, ')') : NULL;
    bool is_read = end && sscanf(end + 1, " %*c %*d %*d %*d %*d %*d %u", &flags) == 1;
    return is_read ? flags & FORKED_AND_NOT_EXECUTED : unknown;
}

/* ---- auxv ---- */

/* The value of a type, in pairs of words of this many bytes. */
static bool find_auxiliary(const char *bytes, size_t room, size_t width, uint64_t type, uint64_t *value) {
    for (size_t at = 0; at + 2 * width <= room; at += 2 * width) {
        uint64_t found = 0;
        *value = 0;
        memcpy(&found, bytes + at, width);
        memcpy(value, bytes + at + width, width);
        if (found == type) return true;
    }
    return false;
}

bool proc_read_vector(pid_t process, struct proc_vector *vector) {
    memset(vector, 0, sizeof *vector);
    return proc_read(process, "auxv", vector->bytes, sizeof vector->bytes);
}

/* The first is a type, which is a small number, and a value that isn't 0: of a program of 32 bits both are in one
 * word. */
bool vector_find(const struct proc_vector *vector, bool *is_secure, uint32_t *uid) {
    uint64_t first, secure, starter;
    memcpy(&first, vector->bytes, sizeof first);
    size_t width = first > UINT32_MAX ? sizeof(uint32_t) : sizeof(uint64_t);
    if (!find_auxiliary(vector->bytes, sizeof vector->bytes, width, AT_UID, &starter) ||
        !find_auxiliary(vector->bytes, sizeof vector->bytes, width, AT_SECURE, &secure))
        return false;
    *is_secure = secure != 0;
    *uid = (uint32_t)starter;
    return true;
}

static uint64_t add_to_sum(uint64_t sum, const void *bytes, size_t length) {
    for (size_t i = 0; i < length; i++) sum = (sum ^ ((const unsigned char *)bytes)[i]) * UINT64_C(0x100000001b3);
    return sum;
}

/* FNV-1a. The file system of what it executes, which may be its own user's, isn't asked. */
uint64_t proc_image(pid_t thread, const struct proc_vector *vector) {
    char path[64];
    struct statx file;
    snprintf(path, sizeof path, "/proc/%d/exe", (int)thread);
    if (statx(AT_FDCWD, path, AT_STATX_DONT_SYNC, STATX_INO, &file) < 0) return 0;
    const uint64_t told[3] = { file.stx_dev_major, file.stx_dev_minor, file.stx_ino };
    return add_to_sum(add_to_sum(1, vector->bytes, sizeof vector->bytes), told, sizeof told) | 1;
}

/* ---- Limits ---- */

/* Those of other users' processes are told by proc(5), where prlimit(2) wants CAP_SYS_RESOURCE. */
bool proc_read_locks(pid_t process, uint64_t *soft) {
    struct rlimit limit;
    char text[2048];
    unsigned long long number;
    if (prlimit(process, RLIMIT_LOCKS, NULL, &limit) == 0) {
        *soft = limit.rlim_cur;
        return true;
    }
    if (!proc_read(process, "limits", text, sizeof text)) return false;
    const char *at = find_field(text, "\nMax file locks");
    if (!at) return false;
    *soft = sscanf(at, "%llu", &number) == 1 ? number : RLIM_INFINITY;
    return true;
}

/* ---- Descriptors ---- */

int proc_open(pid_t process) { return (int)syscall(SYS_pidfd_open, process, 0); }

/* Kernels before 6.9 have no such descriptors of single threads: there it is that of the thread's folder, which is
 * bound to it too, but can't be waited for. */
int proc_open_thread(pid_t thread) {
    if (!KEYRETAIN_OLD_KERNEL) {
        int descriptor = (int)syscall(SYS_pidfd_open, thread, PIDFD_THREAD);
        if (descriptor >= 0 || errno != EINVAL) return descriptor;
    }
    return proc_open_file(thread, "", O_PATH | O_DIRECTORY);
}

bool proc_has_ended(int descriptor) {
    if (syscall(SYS_pidfd_send_signal, descriptor, 0, NULL, 0) == 0) return false;
    return errno == ESRCH || (errno == EBADF && faccessat(descriptor, "stat", F_OK, 0) < 0);
}
