/* launch.c: three processes. This one waits, and ends as the command does. Its child, the supervisor, lives as long as
 * something has the filter. The command is the supervisor's child, as some systems let none but ancestors look into a
 * process (Yama), and what it leaves behind stays below the supervisor. */
#include "supervisor/serve.h"
#include "launch.h"

/* What the supervisor tells the process that waits. */
struct report {
    enum { STARTED, FAILED, ENDED } kind;
    int value; /* the command's process, the status to end with, the command's status */
    int error;
};

enum { REPORTS = 3, LISTENERS = 4, KEPT = 5 }; /* descriptors of the supervisor */

static pid_t command_process;
static int command_descriptor = -1; /* by its number another would be told, once it has ended */

/* What the command inherits of signals. */
static struct {
    sigset_t mask;
    struct sigaction of_children; /* SIGCHLD: children of one who ignores it can't be waited for */
} inherited;

/* ---- The command ---- */

static _Noreturn void execute(char **command) {
    if (sigaction(SIGCHLD, &inherited.of_children, NULL) < 0 || sigprocmask(SIG_SETMASK, &inherited.mask, NULL) < 0)
        fail(REFUSED, "signals");
    execvp(*command, command);
    fail(errno == ENOENT ? NOT_FOUND : NOT_EXECUTABLE, *command);
}

/* Whether keyctl(2) is answered by keyretaind: any kernel with user notification says that its keyrings know of
 * namespaces. Another filter, as that of a container, may refuse the call. */
static bool is_served(void) {
    unsigned char known[2] = { 0 };
    long length = syscall(SYS_keyctl, KEYCTL_CAPABILITIES, known, sizeof known);
    if (length < (long)sizeof known) return false;
    errno = EBUSY;
    return !(known[1] & (KEYCTL_CAPS1_NS_KEYRING_NAME | KEYCTL_CAPS1_NS_KEY_TAG));
}

/* The supervisor lets the command go when the daemon has answered. */
static void run_command(int socket, char **command) {
    char byte;
    int listener = filter_install();
    if (listener < 0) fail(NO_CONNECTION, "seccomp user notification");
    if (serve_send_listener(socket, listener) < 0) fail(NO_CONNECTION, "the supervisor");
    close(listener);
    if (read(socket, &byte, 1) != 1) _exit(NO_CONNECTION); /* why is told by the process that waits */
    if (!is_served()) fail(NO_CONNECTION, "keyctl(2) is answered by another");
    execute(command);
}

/* ---- The supervisor ---- */

static void tell(struct report report) { TEMP_FAILURE_RETRY(write(REPORTS, &report, sizeof report)); }

static void give_up(int status) {
    tell((struct report){ FAILED, status, errno });
    _exit(status);
}

static void let_go(void) {
    if (send(LISTENERS, "", 1, MSG_NOSIGNAL) != 1) give_up(NO_CONNECTION);
    close(LISTENERS);
}

static void tell_end(int status) {
    tell((struct report){ ENDED, status, 0 });
    close(REPORTS);
}

/* Away from what the command inherits: no terminal, no folder, and no descriptor but the two. */
static int detach(int reports, int listeners) {
    int nothing = open("/dev/null", O_RDWR), high[2];
    if (nothing < 0 || setsid() < 0 || chdir("/") < 0) return -1;
    high[0] = fcntl(reports, F_DUPFD, KEPT);
    high[1] = fcntl(listeners, F_DUPFD, KEPT);
    if (high[0] < 0 || high[1] < 0) return -1;
    for (int i = STDIN_FILENO; i <= STDERR_FILENO; i++)
        if (dup2(nothing, i) < 0) return -1;
    if (dup3(high[0], REPORTS, O_CLOEXEC) < 0 || dup3(high[1], LISTENERS, O_CLOEXEC) < 0) return -1;
    return (int)syscall(SYS_close_range, KEPT, ~0u, 0);
}

static void supervise(int reports, const char *path, const char *name, char **command) {
    struct serve_settings settings = { .tracees = { .socket = path, .name = name, .has_pipes = true }, .more = -1,
                                       .is_ready = let_go, .has_ended = tell_end };
    int sockets[2];
    if (prctl(PR_SET_CHILD_SUBREAPER, 1, 0, 0, 0) < 0 ||
        socketpair(AF_UNIX, SOCK_STREAM | SOCK_CLOEXEC, 0, sockets) < 0)
        fail(REFUSED, "the supervisor");
    pid_t child = fork();
    if (child < 0) fail(REFUSED, "fork");
    if (child == 0) {
        close(sockets[0]);
        close(reports);
        run_command(sockets[1], command);
    }
    int descriptor = proc_open(child);
    if (descriptor < 0 || serve_send_listener(reports, descriptor) < 0 || detach(reports, sockets[0]) < 0)
        fail(REFUSED, "the supervisor");
    if (serve_protect() < 0 || sigprocmask(SIG_SETMASK, &inherited.mask, NULL) < 0) give_up(REFUSED);
    tell((struct report){ STARTED, child, 0 });
    int listener = serve_receive_listener(LISTENERS);
    if (listener < 0) give_up(NO_CONNECTION);
    kr_own_identity(&settings.tracees.identity);
    settings.tracees.identity.uid = getuid(); /* a session is begun as the real user */
    settings.tracees.identity.gid = getgid();
    settings.tracees.child = child;
    enum serve_result result = serve(listener, &settings);
    if (result != SERVE_DONE) give_up(result == SERVE_NO_DAEMON ? NO_CONNECTION : REFUSED);
    _exit(0);
}

/* ---- The process that waits ---- */

static void forward(int number) {
    ERRNO_STAYS;
    syscall(SYS_pidfd_send_signal, command_descriptor, number, NULL, 0);
}

/* What a terminal sends goes to the command too. */
static void handle_signals(void) {
    struct sigaction action = { .sa_handler = forward, .sa_flags = SA_RESTART };
    sigaction(SIGTERM, &action, NULL);
    sigaction(SIGHUP, &action, NULL);
    signal(SIGINT, SIG_IGN);
    signal(SIGQUIT, SIG_IGN);
    sigprocmask(SIG_SETMASK, &inherited.mask, NULL);
}

/* As the command has ended. */
static void end_as(int status) {
    struct rlimit none = { 0 };
    if (!WIFSIGNALED(status)) exit(WEXITSTATUS(status));
    setrlimit(RLIMIT_CORE, &none); /* the command has left one, if any */
    signal(WTERMSIG(status), SIG_DFL);
    raise(WTERMSIG(status));
    exit(128 + WTERMSIG(status));
}

/* Where the supervisor is gone the command goes on, without keys, and is this process's child then. */
static _Noreturn void wait_for_command(pid_t supervisor, int reports, const char *path, const char *name) {
    struct report report;
    int status;
    command_descriptor = serve_receive_listener(reports);
    while (TEMP_FAILURE_RETRY(read(reports, &report, sizeof report)) == (ssize_t)sizeof report) {
        errno = report.error;
        if (report.kind == FAILED) fail(report.value, report.value == REFUSED && name ? name : path);
        if (report.kind == ENDED) end_as(report.value);
        command_process = report.value;
        handle_signals();
    }
    TEMP_FAILURE_RETRY(waitpid(supervisor, &status, 0));
    /* its children are this one's then, and so is what they leave */
    for (pid_t ended = 1; command_process > 0 && ended > 0;) {
        ended = TEMP_FAILURE_RETRY(waitpid(-1, &status, 0));
        if (ended == command_process) end_as(status);
    }
    exit(NO_CONNECTION);
}

/* ---- Beginning ---- */

/* What installing the filter comes to here, tried in a process that ends: 0 or an error. */
static int try_filter(void) {
    int status;
    pid_t child = fork();
    if (child < 0) return errno;
    if (child == 0) _exit(filter_install() < 0 ? errno : 0);
    if (TEMP_FAILURE_RETRY(waitpid(child, &status, 0)) < 0) return errno;
    return WIFEXITED(status) ? WEXITSTATUS(status) : EIO;
}

static bool read_attributes(long id, struct kr_attributes *attributes) {
    char text[KR_SESSION_NAME_ROOM + 64];
    long length = syscall(SYS_keyctl, KEYCTL_DESCRIBE, id, text, sizeof text);
    return length > 0 && length <= (long)sizeof text && kr_parse_attributes(text, attributes);
}

/* Whether the session that was joined by its name is this user's alone: see kr_begin_session. Which uid this process
 * has to the daemon, its user keyring tells. */
static bool is_session_private(void) {
    struct kr_attributes session, user;
    bool is_known = read_attributes(KEY_SPEC_SESSION_KEYRING, &session) &&
                    read_attributes(KEY_SPEC_USER_KEYRING, &user);
    errno = EACCES;
    return is_known && session.owner == user.owner && !(session.mask & KR_GROUP_AND_OTHERS);
}

/* Where keyretaind answers already, a session is joined as by any program. */
static void join_within(const char *name, char **command) {
    if (!is_served()) fail(NO_CONNECTION, "another supervisor");
    if (syscall(SYS_keyctl, KEYCTL_JOIN_SESSION_KEYRING, name) < 0) fail(REFUSED, name ? name : "the session");
    if (name && !is_session_private()) fail(REFUSED, name);
    if (syscall(SYS_keyctl, KEYCTL_LINK, KEY_SPEC_USER_KEYRING, KEY_SPEC_SESSION_KEYRING) < 0 && errno != ELOOP)
        fail(REFUSED, "the user keyring"); /* see kr_link_user_keyring */
    execute(command);
}

/* Until they are handled, and by the command, signals are held back. */
static void hold_signals(void) {
    const struct sigaction as_at_first = { .sa_handler = SIG_DFL };
    const int numbers[] = { SIGTERM, SIGHUP, SIGINT, SIGQUIT };
    sigset_t held;
    sigemptyset(&held);
    for (size_t i = 0; i < sizeof numbers / sizeof *numbers; i++) sigaddset(&held, numbers[i]);
    if (sigprocmask(SIG_BLOCK, &held, &inherited.mask) < 0 ||
        sigaction(SIGCHLD, &as_at_first, &inherited.of_children) < 0)
        fail(REFUSED, "signals");
}

void launch(const char *path, const char *name, char **command) {
    int reports[2];
    hold_signals();
    int error = try_filter();
    if (error == EBUSY) join_within(name, command);
    errno = error;
    if (error != 0) fail(NO_CONNECTION, "seccomp user notification");
    if (!proc_is_ours()) fail(NO_CONNECTION, "/proc");
    if (socketpair(AF_UNIX, SOCK_STREAM | SOCK_CLOEXEC, 0, reports) < 0 ||
        prctl(PR_SET_CHILD_SUBREAPER, 1, 0, 0, 0) < 0)
        fail(REFUSED, "the supervisor");
    pid_t supervisor = fork();
    if (supervisor < 0) fail(REFUSED, "fork");
    if (supervisor == 0) {
        close(reports[0]);
        supervise(reports[1], path, name, command);
    }
    close(reports[1]);
    wait_for_command(supervisor, reports[0], path, name);
}
