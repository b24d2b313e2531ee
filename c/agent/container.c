/* keyretain-agent-container.c: the containers, the process that serves each, and its daemon.
 *
 * A listener goes to the server by a socket pair of which both ends stay open here. So what a server that ends has not
 * taken from it is still there, for the next one. */
#include "keyretain-agent.h"

#include <dirent.h>
#include <linux/capability.h>
#include <sys/file.h>
#include <sys/sendfile.h>

#include "supervisor/serve.h"

enum { FAILED = 3, DAEMON_PATIENCE = 10000, END_PATIENCE = 1000, LOOK = 10 /* milliseconds */ };
enum { STACK_BYTES = 256 * 1024, COPIED_AT_ONCE = 1024 * 1024 };
enum { LISTENERS = 3, COPY = 4, KEPT = 5 }; /* descriptors of a server */

#ifndef MFD_EXEC
#define MFD_EXEC 0x10u
#endif

/* With an empty id it is a free place. */
struct container {
    char id[CONTAINER_ID_MAX + 1];
    char path[KR_PATH_ROOM]; /* of its daemon's socket */
    pid_t server, first;
    bool has_pipes;
    int process; /* the first one, as pidfd_open(2) opens it, or -1 */
    int in, out; /* what is sent to `in` comes out for the server */
};

static struct {
    struct containers_settings settings;
    int folder, copy; /* of the daemon's program, or -1 */
    struct container *containers;
} all;

static void say(const struct container *container, const char *what) {
    fprintf(stderr, "keyretain-agent: container %s: %s\n", container->id, what);
}

static _Noreturn void fail(const struct container *container, const char *what) {
    fprintf(stderr, "keyretain-agent: container %s: %s: %s\n", container->id, what, strerror(errno));
    _exit(FAILED);
}

/* What `parent` has started ends with it. */
static bool end_with(pid_t parent) { return prctl(PR_SET_PDEATHSIG, SIGKILL) == 0 && getppid() == parent; }

/* ---- The program ---- */

/* A copy in memory that may be executed and not read, unless by who has the capabilities for that. What executes it
 * can't be dumped or traced by others of its uid, as those of another container may be. -1 where there is none. Linux
 * 6.3 wants to be told that it is to be executed; others don't know that. */
static int copy_program(const char *path) {
    int program = open(path, O_RDONLY | O_CLOEXEC), copy = memfd_create("keyretaind", MFD_CLOEXEC | MFD_EXEC);
    ssize_t copied;
    if (copy < 0 && errno == EINVAL) copy = memfd_create("keyretaind", MFD_CLOEXEC);
    while ((copied = sendfile(copy, program, NULL, COPIED_AT_ONCE)) > 0) continue;
    if (copied < 0 || fchmod(copy, S_IXUSR) < 0) close_one(&copy);
    close_one(&program);
    return copy;
}

/* ---- The daemon ---- */

/* Not even as root: without new privileges a program that root executes gets none that it hasn't here. */
static bool drop_capabilities(void) {
    struct __user_cap_header_struct head = { .version = _LINUX_CAPABILITY_VERSION_3 };
    struct __user_cap_data_struct none[_LINUX_CAPABILITY_U32S_3] = { 0 };
    return prctl(PR_SET_NO_NEW_PRIVS, 1, 0, 0, 0) == 0 && syscall(SYS_capset, &head, none) == 0;
}

/* What it keeps is the container's, which may ask for as much as it likes. At a limit on address space it refuses what
 * would be too much; the stacks of its threads count too: keyretaind(8). */
static bool limit_memory(unsigned long bytes) {
    const struct rlimit space = { bytes, bytes }, stack = { STACK_BYTES, STACK_BYTES };
    return bytes == 0 || (setrlimit(RLIMIT_STACK, &stack) == 0 && setrlimit(RLIMIT_AS, &space) == 0);
}

static _Noreturn void become_daemon(const struct container *container, pid_t parent, int answers) {
    static char one_arena[] = "MALLOC_ARENA_MAX=1", bound_now[] = "LD_BIND_NOW=1";
    char *environment[] = { one_arena, bound_now, NULL };
    char *words[] = { "keyretaind", "--socket", (char *)container->path, "--lanes", "8", NULL };
    if (drop_capabilities() && end_with(parent) && limit_memory(all.settings.memory) &&
        dup2(answers, STDOUT_FILENO) >= 0) {
        execveat(COPY, "", words, environment, AT_EMPTY_PATH);
        /* without a copy just what others of its uid may not read, or they could look into what executes it */
        bool is_readable = open(all.settings.daemon, O_RDONLY | O_CLOEXEC) >= 0 || errno != EACCES;
        if (!is_readable) execve(all.settings.daemon, words, environment);
        errno = EACCES;
    }
    fail(container, all.settings.daemon);
}

/* It says `listening PATH`. */
static bool is_listening(int answers) {
    static const char wanted[] = "listening ";
    char said[sizeof wanted + KR_PATH_ROOM];
    return read_lines(answers, 1, said, sizeof said, kr_now() + DAEMON_PATIENCE) == 0 &&
           strncmp(said, wanted, sizeof wanted - 1) == 0;
}

static void start_daemon(const struct container *container) {
    pid_t parent = getpid();
    int ends[2];
    if (pipe2(ends, O_CLOEXEC) < 0) fail(container, "a pipe");
    pid_t daemon = fork();
    if (daemon == 0) become_daemon(container, parent, ends[1]);
    if (daemon < 0) fail(container, "its daemon");
    close(ends[1]);
    errno = 0;
    if (!is_listening(ends[0])) {
        say(container, errno == ETIMEDOUT ? "its daemon does not begin"
                                          : "its daemon has ended before it listened, or is another program");
        _exit(FAILED);
    }
    close(ends[0]);
    close(COPY);
}

/* ---- The server ---- */

/* Nothing of the agent but the standard descriptors and these. */
static void keep_descriptors(const struct container *container) {
    int listeners = fcntl(container->out, F_DUPFD_CLOEXEC, KEPT), copy = fcntl(all.copy, F_DUPFD_CLOEXEC, KEPT);
    if (listeners < 0 || dup3(listeners, LISTENERS, O_CLOEXEC) < 0) fail(container, "its listeners");
    close(COPY);
    if (copy >= 0) dup3(copy, COPY, O_CLOEXEC);
    closefrom(KEPT);
}

/* Serves the container until its last listener has gone, and ends the process: with 0 then, and else with FAILED. It
 * is a child of the agent, with which it ends. */
static _Noreturn void serve_container(const struct container *container, pid_t agent) {
    char name[sizeof "_ses." + CONTAINER_ID_MAX];
    const struct serve_settings settings = {
        .tracees = { .socket = container->path, .name = name, .is_container = true, .first = container->first,
                     .has_pipes = container->has_pipes },
        .more = LISTENERS };
    sigset_t none;
    sigemptyset(&none);
    snprintf(name, sizeof name, "_ses.%s", container->id);
    if (!end_with(agent)) _exit(FAILED);
    keep_descriptors(container);
    sigprocmask(SIG_SETMASK, &none, NULL);
    start_daemon(container);
    int listener = serve_receive_listener(LISTENERS);
    if (listener < 0) fail(container, "its listener");
    if (serve(listener, &settings) != SERVE_DONE) fail(container, "its session");
    _exit(0);
}

/* ---- The folder ---- */

static void remove_left_sockets(void) {
    DIR *folder = fdopendir(fcntl(all.folder, F_DUPFD_CLOEXEC, 0));
    if (!folder) return;
    for (struct dirent *entry; (entry = readdir(folder)) != NULL;) {
        const char *end = strrchr(entry->d_name, '.');
        if (end && strcmp(end, ".daemon") == 0) unlinkat(all.folder, entry->d_name, 0);
    }
    closedir(folder);
}

/* Nobody else may enter it, and one agent uses it at a time. */
static bool open_folder(const char *path) {
    struct stat status;
    if (mkdir(path, 0700) < 0 && errno != EEXIST) return false;
    all.folder = open(path, O_RDONLY | O_DIRECTORY | O_NOFOLLOW | O_CLOEXEC);
    if (all.folder < 0 || fstat(all.folder, &status) < 0) return false;
    errno = EPERM;
    if (status.st_uid != geteuid() || (status.st_mode & 077) != 0) return false;
    return flock(all.folder, LOCK_EX | LOCK_NB) == 0;
}

bool containers_begin(const struct containers_settings *settings) {
    errno = ENAMETOOLONG;
    if (strlen(settings->folder) + sizeof "/4095.daemon" > KR_PATH_ROOM) return false;
    all.settings = *settings;
    all.containers = calloc(settings->most, sizeof *all.containers);
    if (!all.containers || !open_folder(settings->folder)) return false;
    all.copy = copy_program(settings->daemon);
    remove_left_sockets();
    return true;
}

/* ---- A container ---- */

/* False too where its first process isn't known, or had ended before the agent heard of it. */
static bool is_running(const struct container *container) {
    struct pollfd end = { .fd = container->process, .events = POLLIN };
    return container->process >= 0 && poll(&end, 1, 0) == 0;
}

/* The container of this id and this first process, or 0 where that isn't told. The server of one that has ended may
 * still be there when another has its id, or its first process that one's number: so only one that runs is found. NULL
 * too where there are two. */
static struct container *find(const char *id, pid_t first) {
    struct container *found = NULL;
    for (struct container *at = all.containers; at < all.containers + all.settings.most; at++) {
        if (strcmp(at->id, id) != 0 || (first > 0 && at->first != first) || !is_running(at)) continue;
        if (found) return NULL;
        found = at;
    }
    return found;
}

static struct container *begin(const struct container_state *state) {
    struct container *container = all.containers, *last = all.containers + all.settings.most - 1;
    const int kind = SOCK_SEQPACKET | SOCK_CLOEXEC | SOCK_NONBLOCK;
    int ends[2];
    while (container < last && *container->id) container++;
    if (*container->id || socketpair(AF_UNIX, kind, 0, ends) < 0) return NULL;
    int process = state->first > 0 ? proc_open(state->first) : -1;
    *container = (struct container){ .first = state->first, .has_pipes = state->has_pipes, .process = process,
                                     .in = ends[0], .out = ends[1] };
    strcpy(container->id, state->id);
    snprintf(container->path, sizeof container->path, "%s/%u.daemon", all.settings.folder,
             (unsigned)(container - all.containers)); /* nothing of the container's id */
    return container;
}

static void forget(struct container *container) {
    unlink(container->path);
    close_one(&container->process);
    close(container->in);
    close(container->out);
    *container = (struct container){ 0 };
}

static bool start_server(struct container *container) {
    pid_t agent = getpid();
    unlink(container->path);
    container->server = fork();
    if (container->server == 0) serve_container(container, agent);
    return container->server > 0;
}

/* A server says a byte to each that it has taken; what it hasn't is seen by what is left when it has ended. */
void containers_take(const struct container_state *state, int listener) {
    struct container *container = find(state->id, state->first);
    char byte;
    if (!container) container = begin(state);
    while (container && recv(container->in, &byte, 1, MSG_DONTWAIT) > 0) continue;
    bool is_sent = container && serve_send_listener(container->in, listener) == 0;
    close(listener);
    if (!is_sent) fprintf(stderr, "keyretain-agent: container %s: there are too many\n", state->id);
    if (container && container->server > 0 && is_sent) say(container, "one more");
    if (!container || container->server > 0) return;
    if (is_sent && start_server(container)) {
        say(container, "begins");
    } else {
        say(container, "no process can be started");
        forget(container);
    }
}

/* ---- Ends ---- */

/* A server ends with 0 after its last listener; another may have been on its way. */
static void end_server(struct container *container, int status) {
    struct pollfd listeners = { .fd = container->out, .events = POLLIN };
    container->server = 0;
    bool has_more = status == 0 && poll(&listeners, 1, 0) == 1 && listeners.revents & POLLIN;
    if (has_more && start_server(container)) return;
    say(container, status == 0 ? "ends" : "its server has failed");
    forget(container);
}

void containers_reap(void) {
    int status;
    for (pid_t pid; (pid = waitpid(-1, &status, WNOHANG)) > 0;)
        for (unsigned i = 0; i < all.settings.most; i++)
            if (all.containers[i].server == pid) end_server(&all.containers[i], status);
}

/* A server that waits for its container's memory, as for a page of a FUSE file, may end long after: it is left. */
void containers_end(void) {
    const int64_t deadline = kr_now() + END_PATIENCE;
    unsigned served = 0;
    for (unsigned i = 0; i < all.settings.most; i++)
        if (all.containers[i].server > 0) served += kill(all.containers[i].server, SIGKILL) == 0;
    if (served) fprintf(stderr, "keyretain-agent: ends, and the keys of %u containers with it\n", served);
    for (unsigned i = 0; i < all.settings.most; i++) {
        if (all.containers[i].server <= 0) continue;
        while (waitpid(all.containers[i].server, NULL, WNOHANG) == 0 && kr_now() < deadline) poll(NULL, 0, LOOK);
        forget(&all.containers[i]);
    }
}
