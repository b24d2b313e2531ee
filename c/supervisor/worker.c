/* worker.c: a process that reads and writes callers' memory. */
#include "serve.h"

#include <linux/close_range.h>

enum { AT = STDERR_FILENO + 1 };

/* It has nothing else open, neither the listeners nor the daemon's socket, and ends with the supervisor. */
static _Noreturn void work(int socket, struct copies *copies) {
    pid_t thread;
    if (dup2(socket, AT) < 0 || syscall(SYS_close_range, AT + 1, ~0u, 0) < 0) _exit(1);
    while (recv(AT, &thread, sizeof thread, 0) == (ssize_t)sizeof thread) {
        if (thread > 0)
            copies_take(copies, thread);
        else
            copies_put(copies);
        if (send(AT, "", 1, MSG_NOSIGNAL) != 1) break;
    }
    _exit(0);
}

/* No later one has its room. */
bool worker_start(struct worker *worker) {
    int ends[2];
    struct copies *copies = copies_make();
    if (!copies) return false;
    if (socketpair(AF_UNIX, SOCK_STREAM | SOCK_CLOEXEC, 0, ends) < 0) return copies_free(copies), false;
    pid_t process = fork();
    if (process == 0) work(ends[1], copies);
    close_one(&ends[1]);
    *worker = (struct worker){ process, ends[0], copies };
    if (process > 0 && madvise(copies, sizeof *copies, MADV_DONTFORK) == 0) return true;
    worker_end(worker);
    return false;
}

bool worker_tell(const struct worker *worker, pid_t thread) {
    return send(worker->socket, &thread, sizeof thread, MSG_NOSIGNAL | MSG_DONTWAIT) == (ssize_t)sizeof thread;
}

bool worker_has_done(const struct worker *worker) {
    char byte;
    return recv(worker->socket, &byte, 1, MSG_DONTWAIT) == 1;
}

/* What it is at may keep it for longer, as a write to a page of such a file: it has its room until then. */
void worker_end(struct worker *worker) {
    ERRNO_STAYS;
    if (worker->process > 0) kill(worker->process, SIGKILL);
    close_one(&worker->socket);
    explicit_bzero(worker->copies, sizeof *worker->copies);
    copies_free(worker->copies);
    *worker = (struct worker){ .socket = -1 };
}
