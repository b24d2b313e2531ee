/* proc.h: what the kernel tells of processes by /proc and by descriptors of them (pidfd_open(2)). */
#ifndef KEYRETAIN_PROC_H
#define KEYRETAIN_PROC_H

#include "library/session.h"
#include "krs_admission.h"

#include <dirent.h>

/* For tests: 1 does without what came after Linux 5.9, as WAIT_KILLABLE_RECV, PROCMAP_QUERY and PIDFD_THREAD. */
#ifndef KEYRETAIN_OLD_KERNEL
#define KEYRETAIN_OLD_KERNEL 0
#endif

struct proc_status {
    pid_t process;
    unsigned threads, seccomp;
    struct admission_ids uids, gids;
    uint32_t owner; /* of its files in /proc: root, unless its user may look into it */
    uint32_t count, groups[KR_GROUPS_MAX];
};

/* Whether the numbers in /proc are those that this process gives and is told. They are another PID namespace's where
 * one was made, and no /proc mounted for it: then each would mean some other process. False with errno. */
bool proc_is_ours(void);

/* Opens a file of a process in proc(5), with these flags of open(2); -1 with errno. */
int proc_open_file(pid_t id, const char *name, int flags);

/* The beginning of a file of a process in proc(5), as a text; false for none. The first is for those that one read
 * tells whole, as their text has no more than a page: all but the maps of ids. */
bool proc_read(pid_t id, const char *name, char *text, size_t room);
bool proc_read_long(pid_t id, const char *name, char *text, size_t room);

/* False where there is no such thread, or it may not be looked at. */
bool proc_read_status(pid_t thread, struct proc_status *status);

/* The processes of /proc, or for one that isn't 0 its threads, for closedir(3); NULL where no descriptor is left for
 * what is read of them, as then all would look as if they were gone. The next one, 0 behind the last. */
DIR *proc_begin(pid_t process);
pid_t proc_next(DIR *processes);

/* 0 where it is outside of this PID namespace, -1 where it can't be looked at. It doesn't wait for a process that is
 * held up within execve(2), as by a file of FUSE that this closes: such a one may be above who is served. */
pid_t proc_parent(pid_t process);

/* Whether a process was forked and has executed nothing since; `unknown` where that can't be read. */
bool proc_has_only_forked(pid_t process, bool unknown);

/* What execve(2) has told a process (getauxval(3)); false where it can't be read. */
struct proc_vector {
    char bytes[1024];
};
bool proc_read_vector(pid_t process, struct proc_vector *vector);

/* AT_SECURE of it, whether a process executes something that runs with more rights than its caller's, as what is
 * set-uid does; and AT_UID, the real uid that it was executed with, which may be another one now. False where it has
 * none. */
bool vector_find(const struct proc_vector *vector, bool *is_secure, uint32_t *uid);

/* A number of what a process executes, and of all that execve(2) has told it so, addresses among that; 0 where it isn't
 * known. Another execve(2) has another one, unless that is of the same program, and the process has seen to it that
 * nothing is put at random, which it can't for what gains rights. Overlayfs gives a file with hard links another inode
 * where it is changed, also only in its mode. */
uint64_t proc_image(pid_t thread, const struct proc_vector *vector);

/* The soft limit RLIMIT_LOCKS. */
bool proc_read_locks(pid_t process, uint64_t *soft);

/* A descriptor, which stays bound to the process or thread whoever gets the number later; -1 with errno. epoll(7)
 * tells the end of a process, and, where it takes the descriptor (Linux 6.9), of a thread. */
int proc_open(pid_t process);
int proc_open_thread(pid_t thread);
bool proc_has_ended(int descriptor);

/* ---- memory.c: the memory of a thread whose call is carried out for it ---- */

/* To be written to. What is opened stays bound to that memory, whoever gets the thread's number later. */
struct memory {
    int file, maps;
};

/* -1 with errno: EACCES where it may not be looked at. */
int memory_open(struct memory *memory, pid_t thread);
void memory_close(struct memory *memory);

/* A descriptor that stands for a process's memory, by which it is told whether that is gone: its processes have ended
 * or executed something else. Nothing that they do makes the question wait. */
int memory_watch(pid_t thread);
bool memory_is_gone(int watched);

/* Of whoever has the thread's number now. False with errno where not all of it can be read: EFAULT where the thread
 * itself couldn't. */
bool memory_read(pid_t thread, void *to, unsigned long from, size_t length);

/* A text with its null byte; a longer one than `max` bytes is cut there. `to` has room for one byte more. */
bool memory_read_text(pid_t thread, char *to, unsigned long from, size_t max);

/* False where the program itself could not write there. */
bool memory_write(const struct memory *memory, unsigned long to, const void *from, size_t length);

#endif
