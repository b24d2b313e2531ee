/* keeper.c: a keeper is executed, and never merely forked: a copy of the application's memory, with its host keys and
 * passwords, would run as the user. Between fork and execve(2) there is such a copy. It calls nothing but the system,
 * as other threads of the application may hold the C library's locks; and as its ids have changed, the kernel lets
 * nobody but root look at it. */
#include "keeper.h"

#include <grp.h>
#include <sys/uio.h>

/* How long a login waits for its session, and a logout for its end. Tests on a busy machine are built with more. */
#ifndef START_MILLISECONDS
#define START_MILLISECONDS 2000
#endif
#ifndef END_MILLISECONDS
#define END_MILLISECONDS 1000
#endif

/* The keeper gives up before the module does, so that it can say why. */
enum { KEEPER_MILLISECONDS = START_MILLISECONDS - 200, SOCKET_MAX = 107, DIGITS = 12 };
enum { READING = 0, WRITING = 1, FIRST_FREE = STDERR_FILENO + 1 };

const struct keeper no_keeper = { .life.descriptor = -1, .answers.descriptor = -1 };

/* ---- Descriptors ---- */

/* What a keeper is given, and what is kept: two pipes and /dev/null. */
struct descriptors {
    int life[2], answers[2], nothing;
};

static void close_all(struct descriptors *all) {
    for (int i = READING; i <= WRITING; i++) {
        close_one(&all->life[i]);
        close_one(&all->answers[i]);
    }
    close_one(&all->nothing);
}

/* An application without the three standard descriptors would write into it. */
static int open_pipe(int ends[2]) {
    int low[2];
    if (pipe2(low, O_CLOEXEC) < 0) return -1;
    for (int i = READING; i <= WRITING; i++) ends[i] = move_up(low[i]);
    return ends[READING] < 0 || ends[WRITING] < 0 ? -1 : 0;
}

/* Who runs as the user could fill the pipe on which a keeper waits: no end of a session waits for that. */
static int open_descriptors(struct descriptors *all) {
    *all = (struct descriptors){ { -1, -1 }, { -1, -1 }, -1 };
    if (open_pipe(all->life) < 0 || open_pipe(all->answers) < 0) return -1;
    all->nothing = move_up(open("/dev/null", O_RDWR | O_CLOEXEC));
    return all->nothing < 0 ? -1 : fcntl(all->life[WRITING], F_SETFL, O_NONBLOCK);
}

bool has_keeper(const struct keeper *keeper) { return kr_has_file(&keeper->life) && kr_has_file(&keeper->answers); }

void let_go_of_keeper(struct keeper *keeper) {
    kr_close_file(&keeper->life);
    kr_close_file(&keeper->answers);
}

/* ---- Starting ---- */

/* What is known before there is another process. */
struct launch {
    struct descriptors all;
    bool sets_groups;
    uid_t uid;
    gid_t gid, *groups;
    int count;
    char *words[6], patience[DIGITS];
};

/* Root takes the user's ids and groups, of which -1 would leave its own. Anybody else must be the user, and a program
 * that runs set-gid lets that go. */
static int find_ids(struct launch *launch, const struct passwd *user) {
    launch->sets_groups = geteuid() == 0;
    launch->uid = user->pw_uid;
    launch->gid = launch->sets_groups ? user->pw_gid : getgid();
    bool is_user = launch->sets_groups || (geteuid() == user->pw_uid && getuid() == user->pw_uid);
    if (!is_user || launch->uid == (uid_t)-1 || launch->gid == (gid_t)-1) return fail_as(EPERM);
    getgrouplist(user->pw_name, user->pw_gid, NULL, &launch->count);
    launch->groups = calloc(launch->count > 0 ? (size_t)launch->count : 1, sizeof *launch->groups);
    if (!launch->groups) return -1;
    if (getgrouplist(user->pw_name, user->pw_gid, launch->groups, &launch->count) >= 0) return 0;
    return fail_as(EAGAIN); /* there are more of them now */
}

/* The C library would have the other threads do so too, which aren't in this process. */
static bool take_ids(const struct launch *launch) {
    const uid_t uid = launch->uid;
    const gid_t gid = launch->gid;
    return (!launch->sets_groups || syscall(SYS_setgroups, (long)launch->count, launch->groups) == 0) &&
           syscall(SYS_setresgid, gid, gid, gid) == 0 && syscall(SYS_setresuid, uid, uid, uid) == 0;
}

/* As its ids have changed nobody but root looks at it. But where fs.suid_dumpable is 2, as collectors of crashes set
 * it, a signal of the user's would have all of it written to a file. */
static bool keep_no_core(void) { return prctl(PR_SET_DUMPABLE, 0, 0, 0, 0) == 0; }

/* All as at first, and none held back. */
static void reset_signals(void) {
    const struct sigaction standard = { .sa_handler = SIG_DFL };
    sigset_t none;
    for (int number = 1; number < NSIG; number++) sigaction(number, &standard, NULL);
    sigemptyset(&none);
    sigprocmask(SIG_SETMASK, &none, NULL);
}

/* Before it runs as the user it has left the terminal: who takes a process over that has one types there, in the place
 * of whoever lets the user in. */
_Noreturn static void become_keeper(const struct launch *launch) {
    static char *environment[] = { NULL };
    const struct descriptors *all = &launch->all;
    bool is_ready = dup2(all->life[READING], STDIN_FILENO) >= 0 && dup2(all->answers[WRITING], STDOUT_FILENO) >= 0 &&
                    dup2(all->nothing, STDERR_FILENO) >= 0 && close_range(FIRST_FREE, ~0U, 0) == 0 &&
                    chdir("/") == 0 && setsid() >= 0 && take_ids(launch) && keep_no_core();
    reset_signals();
    if (is_ready) execve(KEYRETAIN_KEEPER, launch->words, environment);
    static char who[] = KEYRETAIN_KEEPER ": ";
    char *why = (char *)strerrordesc_np(errno);
    const struct iovec said[] = { { who, sizeof who - 1 }, { why, strlen(why) } };
    if (is_ready && writev(STDOUT_FILENO, said, 2) < 0) _exit(2);
    _exit(1);
}

/* fork(2) without what the C library does beside it. That the process ends is told by no signal, so that no handler of
 * the application sees it. */
static pid_t split(void) { return (pid_t)syscall(SYS_clone, 0L, 0L, 0L, 0L, 0L); }

/* The process between doesn't run as the user, who so can't stop it, and it ends at once: nothing waits for long. All
 * signals are held back, so that no handler of the application runs in either. */
static int split_twice(const struct launch *launch) {
    sigset_t all, theirs;
    sigfillset(&all);
    pthread_sigmask(SIG_SETMASK, &all, &theirs);
    pid_t between = split();
    if (between == 0) {
        pid_t last = split();
        if (last == 0) become_keeper(launch);
        _exit(last < 0);
    }
    int error = errno;
    while (between > 0 && waitpid(between, NULL, __WALL) < 0 && errno == EINTR) continue;
    pthread_sigmask(SIG_SETMASK, &theirs, NULL);
    errno = error;
    return between < 0 ? -1 : 0;
}

/* ---- Its answer ---- */

static bool is_printable(const char *text) {
    for (; *text; text++)
        if (*text < ' ' || *text > '~') return false;
    return true;
}

/* SERIAL:NAME */
static bool is_session(const char *text) {
    size_t digits = strspn(text, "0123456789");
    return *text != '0' && digits > 0 && digits <= 10 && text[digits] == ':' && text[digits + 1] &&
           is_printable(text);
}

static bool is_path(const char *text) { return *text == '/' && strlen(text) <= SOCKET_MAX && is_printable(text); }

/* A session and a path, or one line that says why there is none. */
static void take_apart(struct answer *answer) {
    char *session = answer->text, *socket = strchr(session, '\n'), *end = NULL;
    if (socket) *socket++ = '\0';
    if (socket) end = strchr(socket, '\n');
    if (end) *end = '\0';
    if (end && is_session(session) && is_path(socket)) {
        answer->session = session;
        answer->socket = socket;
    }
    if (!*session || !is_printable(session)) strcpy(session, KEYRETAIN_KEEPER " said nothing of use");
}

/* -1 with errno where it isn't executed or says nothing in time. */
static int launch_keeper(struct launch *launch, const struct passwd *user, char text[ANSWER_ROOM]) {
    int64_t deadline = kr_now() + START_MILLISECONDS;
    if (open_descriptors(&launch->all) < 0 || find_ids(launch, user) < 0 || split_twice(launch) < 0) return -1;
    close_one(&launch->all.answers[WRITING]);
    return read_lines(launch->all.answers[READING], 2, text, ANSWER_ROOM, deadline);
}

void start_keeper(struct keeper *keeper, const struct passwd *user, const char *socket, struct answer *answer) {
    struct launch launch = { .words = { "keyretain-keeper", "--patience", launch.patience,
                                        socket ? "--socket" : NULL, (char *)socket, NULL } };
    *keeper = no_keeper;
    *answer = (struct answer){ .text = "" };
    snprintf(launch.patience, DIGITS, "%d", KEEPER_MILLISECONDS);
    if (launch_keeper(&launch, user, answer->text) < 0)
        snprintf(answer->text, ANSWER_ROOM, "%s: %s", KEYRETAIN_KEEPER, strerror(errno));
    else
        take_apart(answer);
    if (answer->session) {
        kr_take_file(&keeper->life, launch.all.life[WRITING]);
        kr_take_file(&keeper->answers, launch.all.answers[READING]);
        launch.all.life[WRITING] = launch.all.answers[READING] = -1;
    }
    close_all(&launch.all);
    free(launch.groups);
}

/* ---- Ending ---- */

/* It may be gone: then SIGPIPE, which would end the application, is taken away again, unless it was there before. */
static void tell(int life, char word) {
    const struct timespec at_once = { 0, 0 };
    sigset_t broken, theirs, pending;
    sigemptyset(&broken);
    sigaddset(&broken, SIGPIPE);
    sigpending(&pending);
    pthread_sigmask(SIG_BLOCK, &broken, &theirs);
    if (write(life, &word, 1) < 0 && errno == EPIPE && !sigismember(&pending, SIGPIPE))
        sigtimedwait(&broken, NULL, &at_once);
    pthread_sigmask(SIG_SETMASK, &theirs, NULL);
}

static bool wait_for_end(int answers) {
    int64_t deadline = kr_now() + END_MILLISECONDS, left;
    struct pollfd wait = { .fd = answers };
    int ended = 0;
    while ((left = deadline - kr_now()) > 0 && (ended = poll(&wait, 1, (int)left)) < 0 && errno == EINTR) continue;
    return ended > 0;
}

void revoke_at_end(const struct keeper *keeper) {
    if (has_keeper(keeper)) tell(keeper->life.descriptor, 'R');
}

bool end_keeper(const struct keeper *keeper) {
    if (!has_keeper(keeper)) return true;
    tell(keeper->life.descriptor, 'e');
    return wait_for_end(keeper->answers.descriptor);
}
