/* holder.c: how a keeper is started. It is executed, and not merely forked: so nothing of this process is in its
 * memory. */
#include "library/session.h"

#include <spawn.h>

enum { KEPT_DESCRIPTOR = 200, READING = 0, WRITING = 1, LOOK_MILLISECONDS = 1 };

/* A pipe of which each end is closed at the end of the block, if it still is open. */
#define PIPE(name) int name[2] __attribute__((cleanup(close_pipe))) = { -1, -1 }
static void close_pipe(int (*ends)[2]) {
    close_one(&(*ends)[READING]);
    close_one(&(*ends)[WRITING]);
}

/* A pipe whose numbers are none of the three that programs read from and write to. */
static int open_pipe(int ends[2]) {
    int low[2];
    if (pipe2(low, O_CLOEXEC) < 0) return -1;
    for (int i = READING; i <= WRITING; i++) ends[i] = move_up(low[i]);
    return ends[READING] < 0 || ends[WRITING] < 0 ? -1 : 0;
}

/* ---- Starting ---- */

/* An error, or 0. The process that is started has no terminal; it goes to the background by itself, and ends. */
static int spawn(int life, int answer, char *const words[], pid_t *started) {
    char *environment[] = { NULL };
    posix_spawn_file_actions_t actions;
    posix_spawnattr_t attributes;
    int error;
    posix_spawn_file_actions_init(&actions); /* this and the next take no memory */
    posix_spawnattr_init(&attributes);
    if (!(error = posix_spawn_file_actions_adddup2(&actions, life, STDIN_FILENO)) &&
        !(error = posix_spawn_file_actions_adddup2(&actions, answer, STDOUT_FILENO)) &&
        !(error = posix_spawn_file_actions_addopen(&actions, STDERR_FILENO, "/dev/null", O_RDWR, 0)) &&
        !(error = posix_spawnattr_setflags(&attributes, POSIX_SPAWN_SETSID)))
        error = posix_spawn(started, KEYRETAIN_KEEPER, &actions, &attributes, words, environment);
    posix_spawnattr_destroy(&attributes);
    posix_spawn_file_actions_destroy(&actions);
    return error;
}

/* Mostly it has ended before its answer came. Who runs as the user may have stopped it, and could so stop a program of
 * root's that has taken the user's effective uid: it is left then. A program that ignores SIGCHLD, or waits for any
 * child in its handler, may have reaped it before. */
static void reap(pid_t started, int64_t deadline) {
    ERRNO_STAYS;
    pid_t ended;
    while ((ended = waitpid(started, NULL, WNOHANG)) == 0 || (ended < 0 && errno == EINTR)) {
        if (kr_now() >= deadline) return;
        poll(NULL, 0, LOOK_MILLISECONDS);
    }
}

/* ---- Its answer ---- */

/* `SERIAL:NAME`, or `refused ERROR WHAT`, or `failed ERROR WHAT`. */
static int read_answer(int from, struct kr_session *session, int64_t deadline, enum kr_refusal *why) {
    char text[KR_SESSION_NAME_ROOM + KR_PATH_ROOM + 64];
    int error;
    if (read_lines(from, 1, text, sizeof text, deadline) < 0) return -1;
    char *end = strchr(text, '\n');
    if (!end) return fail_as(ECHILD); /* it has ended without a word */
    *end = '\0';
    if (kr_parse_session(session, text) && session->serial > 0) return 0;
    *why = strncmp(text, "refused ", 8) == 0 ? KR_REFUSED : KR_NO_DAEMON;
    errno = sscanf(text, "%*s %d", &error) == 1 && error > 0 ? error : EPROTO;
    return -1;
}

/* ---- A holder ---- */

/* The keeper waits on the reading end of one pipe, and says on the other what it has made. What is inherited is not
 * closed by execve(2), and out of the way of shells. */
int kr_start_keeper(struct kr_file *holder, struct kr_session *session, const char *socket, bool links_user,
                    int64_t deadline, enum kr_refusal *why) {
    PIPE(life);
    PIPE(answer);
    char *words[8] = { "keyretain-keeper", "--deaf", "--socket", (char *)socket };
    int count = 4;
    pid_t started;
    bool is_line = !strchr(session->name, '\n'); /* the keeper answers with one */
    *why = is_line ? KR_NO_KEEPER : KR_REFUSED;
    if (!is_line) return fail_as(EINVAL);
    if (!links_user) words[count++] = "--no-link";
    if (*session->name) words[count++] = "--name", words[count++] = session->name;
    if (open_pipe(life) < 0 || open_pipe(answer) < 0) return -1;
    int error = spawn(life[READING], answer[WRITING], words, &started);
    close_one(&life[READING]);
    close_one(&answer[WRITING]);
    if (error) return fail_as(error);
    int result = read_answer(answer[READING], session, deadline, why);
    reap(started, deadline);
    if (result < 0) return -1;
    int kept = fcntl(life[WRITING], F_DUPFD, KEPT_DESCRIPTOR);
    if (kept < 0) kept = fcntl(life[WRITING], F_DUPFD, STDERR_FILENO + 1); /* fewer descriptors are allowed than that */
    return kr_take_file(holder, kept) ? 0 : -1;
}

/* ---- Handing on ---- */

#define HOLDER_VARIABLE "KEYRETAIN_HOLDER"

int kr_export_holder(const struct kr_file *holder, const struct kr_session *session) {
    char text[sizeof session->name + 64];
    snprintf(text, sizeof text, "%d:%llu:%llu:%s", holder->descriptor, (unsigned long long)holder->device,
             (unsigned long long)holder->inode, session->name);
    return setenv(HOLDER_VARIABLE, text, 1);
}

struct kr_file kr_handed_holder(const struct kr_session *session) {
    const char *text = secure_getenv(HOLDER_VARIABLE);
    unsigned long long device, inode;
    int descriptor, length = 0;
    bool is_read = text && sscanf(text, "%d:%llu:%llu:%n", &descriptor, &device, &inode, &length) == 3 && length > 0;
    if (!is_read || strcmp(text + length, session->name) != 0) return (struct kr_file){ .descriptor = -1 };
    return (struct kr_file){ descriptor, S_IFIFO, (dev_t)device, (ino_t)inode };
}
