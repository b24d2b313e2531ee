/* runtime.c SOCKET ID [OPTION ..] -- CMD ..: the least that a runtime of containers does. A child makes itself a
 * container and hands its listener to its parent, which gives it to the agent; then the child executes CMD.
 *   --pid N          the container's first process, as it tells; 0 for none. Without this it is the one that it starts
 *   --state TEXT     what it sends in place of a state
 *   --names TEXT     the list of descriptors that it sends
 *   --metadata TEXT  what it sends as the profile's
 *   --count N        how many descriptors it sends; the last is the listener
 *   --pieces         a byte at a time, the descriptors with the last one
 *   --halves A B     a byte, then it makes the file A, awaits B, sends the rest and removes B
 *   --open           the connection is left open until CMD has ended
 *   --held A B       it keeps the listener where CMD has ended, makes the file A, awaits B and removes it
 *   --often N        all that so many times, on a connection each
 *   --uids N         in a user namespace whose uids and gids 0 to 999 are N to N + 999 outside; `own`: its 0 is the
 *                    caller's
 *   --pids           in a pid namespace, which the user namespace owns
 * runtime.c --able: whether such a filter can be had here. */
#define _GNU_SOURCE
#include <sched.h>
#include <sys/prctl.h>
#include <sys/un.h>

#include "check.h"
#include "supervisor/serve.h"

enum { DESCRIPTORS = 64, FAILED = 99 };

static const char *half, *rest, *held, *freed, *state, *names = "[\"seccompFd\"]", *metadata = "", *uids;
static int count = 1, often = 1, pid = -1;
static bool is_in_pieces, is_left_open, has_pids;

static _Noreturn void fail(const char *what) {
    perror(what);
    exit(FAILED);
}

static char **read_options(char **words) {
    for (; *words && strcmp(*words, "--") != 0; words++) {
        if (strcmp(*words, "--pieces") == 0) is_in_pieces = true;
        else if (strcmp(*words, "--halves") == 0) half = *++words, rest = *++words;
        else if (strcmp(*words, "--open") == 0) is_left_open = true;
        else if (strcmp(*words, "--held") == 0) held = *++words, freed = *++words;
        else if (strcmp(*words, "--pids") == 0) has_pids = true;
        else if (strcmp(*words, "--pid") == 0) pid = atoi(*++words);
        else if (strcmp(*words, "--state") == 0) state = *++words;
        else if (strcmp(*words, "--names") == 0) names = *++words;
        else if (strcmp(*words, "--metadata") == 0) metadata = *++words;
        else if (strcmp(*words, "--count") == 0) count = atoi(*++words);
        else if (strcmp(*words, "--often") == 0) often = atoi(*++words);
        else if (strcmp(*words, "--uids") == 0) uids = *++words;
    }
    if (!*words || count > DESCRIPTORS) exit(FAILED);
    return words + 1;
}

/* ---- The parent's part ---- */

static void put(pid_t process, const char *name, const char *text) {
    char path[64];
    snprintf(path, sizeof path, "/proc/%d/%s", (int)process, name);
    int file = open(path, O_WRONLY | O_CLOEXEC);
    if (file < 0 || write(file, text, strlen(text)) < 0) perror(name);
    if (file >= 0) close(file);
}

static void put_maps(pid_t child) {
    bool is_own = strcmp(uids, "own") == 0;
    char uid[64], gid[64];
    snprintf(uid, sizeof uid, "0 %u %u", is_own ? (unsigned)getuid() : (unsigned)atoi(uids), is_own ? 1 : 1000);
    snprintf(gid, sizeof gid, "0 %u %u", is_own ? (unsigned)getgid() : (unsigned)atoi(uids), is_own ? 1 : 1000);
    if (is_own) put(child, "setgroups", "deny");
    put(child, "uid_map", uid);
    put(child, "gid_map", gid);
}

static int connect_to(const char *path) {
    struct sockaddr_un address = { .sun_family = AF_UNIX };
    int connection = socket(AF_UNIX, SOCK_STREAM | SOCK_CLOEXEC, 0);
    strncpy(address.sun_path, path, sizeof address.sun_path - 1);
    if (connection < 0 || connect(connection, (struct sockaddr *)&address, sizeof address) < 0) fail(path);
    return connection;
}

static void send_part(int connection, const char *text, size_t length, const int *descriptors, int some) {
    char room[CMSG_SPACE(sizeof(int) * DESCRIPTORS)] = "";
    size_t bytes = sizeof(int) * (size_t)some;
    struct iovec part = { (char *)text, length };
    struct msghdr message = { .msg_iov = &part, .msg_iovlen = 1, .msg_control = some ? room : NULL,
                              .msg_controllen = some ? CMSG_SPACE(bytes) : 0 };
    if (some) {
        *CMSG_FIRSTHDR(&message) = (struct cmsghdr){ .cmsg_level = SOL_SOCKET, .cmsg_type = SCM_RIGHTS,
                                                     .cmsg_len = CMSG_LEN(bytes) };
        memcpy(CMSG_DATA(CMSG_FIRSTHDR(&message)), descriptors, bytes);
    }
    if (sendmsg(connection, &message, MSG_NOSIGNAL) < 0) return; /* the agent has had enough */
}

static void make_and_await(const char *made, const char *awaited) {
    close(open(made, O_CREAT | O_WRONLY | O_CLOEXEC, 0600));
    for (int i = 0; i < 3000 && access(awaited, F_OK) < 0; i++) usleep(20000);
}

static void tell(int connection, const char *text, int listener) {
    int descriptors[DESCRIPTORS];
    size_t length = strlen(text);
    for (int i = 0; i < count; i++) descriptors[i] = i == count - 1 ? listener : STDERR_FILENO;
    for (int i = 0; length > 1 && (is_in_pieces || (half && i == 0)); i++, length--)
        send_part(connection, text++, 1, NULL, 0);
    if (half) make_and_await(half, rest);
    send_part(connection, text, length, descriptors, count);
    if (half) unlink(rest);
}

static int receive_listener(int socket) {
    char byte, room[CMSG_SPACE(sizeof(int))];
    struct iovec part = { &byte, 1 };
    struct msghdr message = { .msg_iov = &part, .msg_iovlen = 1, .msg_control = room, .msg_controllen = sizeof room };
    int listener;
    if (recvmsg(socket, &message, MSG_CMSG_CLOEXEC) != 1 || !CMSG_FIRSTHDR(&message)) exit(FAILED);
    memcpy(&listener, CMSG_DATA(CMSG_FIRSTHDR(&message)), sizeof listener);
    return listener;
}

static int run_parent(const char *agent, const char *id, pid_t child, int socket) {
    char text[4096], byte;
    int status;
    if (uids && read(socket, &byte, 1) == 1) put_maps(child);
    if (uids && write(socket, "m", 1) != 1) return FAILED;
    int listener = receive_listener(socket);
    snprintf(text, sizeof text, "{\"ociVersion\":\"1.0.2\",\"fds\":%s,\"pid\":%d,\"metadata\":\"%s\",\"state\":"
             "{\"id\":\"%s\",\"pid\":%d}}", names, (int)child, metadata, id, pid < 0 ? (int)child : pid);
    for (int i = 0; i < often; i++) {
        int connection = connect_to(agent);
        tell(connection, state ? state : text, listener);
        if (!is_left_open) close(connection);
    }
    if (!held) close(listener);
    if (write(socket, "g", 1) != 1 || waitpid(child, &status, 0) != child) return FAILED;
    if (held) make_and_await(held, freed);
    if (held) unlink(freed);
    return WIFEXITED(status) ? WEXITSTATUS(status) : FAILED;
}

/* ---- The child's part ---- */

static void await(int socket) {
    char byte;
    if (read(socket, &byte, 1) != 1) _exit(FAILED);
}

static void enter_user_namespace(int socket) {
    if (unshare(CLONE_NEWUSER) < 0) fail("unshare");
    if (write(socket, "u", 1) != 1) _exit(FAILED);
    await(socket);
    if (setgid(0) < 0 || setuid(0) < 0) fail("setuid");
}

/* Goes on as its first process; who was there before waits for it. */
static void enter_pid_namespace(void) {
    int status;
    if (unshare(CLONE_NEWPID) < 0) fail("unshare");
    pid_t child = fork();
    if (child < 0) fail("fork");
    if (child == 0) return;
    if (waitpid(child, &status, 0) != child) fail("waitpid");
    exit(WIFEXITED(status) ? WEXITSTATUS(status) : FAILED);
}

static void run_child(int socket, char **command) {
    if (uids) enter_user_namespace(socket);
    if (has_pids) enter_pid_namespace();
    int listener = filter_install();
    if (listener < 0) fail("filter");
    send_part(socket, "l", 1, &listener, 1);
    close(listener);
    await(socket);
    execvp(*command, command);
    fail(*command);
}

int main(int words, char **word) {
    int sockets[2];
    if (words == 2 && strcmp(word[1], "--able") == 0) return filter_install() < 0;
    if (words < 5) return FAILED;
    char **command = read_options(word + 3);
    if (socketpair(AF_UNIX, SOCK_STREAM | SOCK_CLOEXEC, 0, sockets) < 0) fail("socketpair");
    pid_t child = fork();
    if (child < 0) fail("fork");
    if (child == 0) {
        close(sockets[0]);
        run_child(sockets[1], command);
    }
    close(sockets[1]);
    return run_parent(word[1], word[2], child, sockets[0]);
}
