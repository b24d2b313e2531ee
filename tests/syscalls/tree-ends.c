/* tree-ends.c: of the program tree: what is killed, executes something else, or lives for long. */
#define _GNU_SOURCE
#include <sys/ptrace.h>
#include <time.h>

#include "tree.h"

enum { SECONDS = 60, LONG_PAYLOAD = 32000 };

/* ---- What is killed in the midst of a call ---- */

static bool is_served(long unused) { return ring_of(KEY_SPEC_THREAD_KEYRING, 1) > 0; }

static bool is_served_in_child(void) { return child_says(is_served, 0); }

static int kill_in_calls(int count) {
    int wrong = 0;
    for (int i = 0; i < count; i++) {
        pid_t child = fork();
        if (child == 0)
            for (;;) ring_of(KEY_SPEC_PROCESS_KEYRING, 1);
        usleep((useconds_t)(i * 37 % 3000));
        wrong += kill(child, SIGKILL) < 0 || waitpid(child, NULL, 0) != child;
    }
    puts(wrong == 0 && ring_of(KEY_SPEC_SESSION_KEYRING, 0) > 0 && is_served_in_child() ? "served" : "not served");
    return 0;
}

/* Processes with children that are killed while they join a session, each a little later. */
static int kill_in_joins(int count) {
    int wrong = 0;
    for (int i = 0; i < count; i++) {
        pid_t parent = fork();
        if (parent == 0) {
            const struct rlimit none = { 0, 0 };
            if (setrlimit(RLIMIT_LOCKS, &none) < 0) _exit(2);
            const pid_t self = getpid();
            for (int children = 0; children < 3; children++)
                if (fork() == 0) _exit(prctl(PR_SET_PDEATHSIG, SIGKILL) == 0 && getppid() == self ? pause() : 2);
            _exit(join(NULL) > 0 ? 0 : 1);
        }
        usleep((useconds_t)i * 1000 * 4);
        wrong += kill(parent, SIGKILL) < 0 || waitpid(parent, NULL, 0) != parent;
    }
    puts(wrong == 0 && ring_of(KEY_SPEC_SESSION_KEYRING, 0) > 0 ? "served" : "not served");
    return 0;
}

/* ---- What has executed something that asks nothing ---- */

static bool holds_in_time(bool (*holds)(void)) {
    time_t end = time(NULL) + SECONDS;
    while (!holds()) {
        if (time(NULL) > end) return false;
        usleep(LOOK_MICROSECONDS);
    }
    return true;
}

static int execute_in_processes(int count) {
    pid_t children[MOST];
    begin();
    for (int i = 0; i < count; i++) {
        children[i] = fork();
        if (children[i] == 0) {
            give(ring_of(KEY_SPEC_PROCESS_KEYRING, 1));
            wait_at_gate();
            execl("/proc/self/exe", "tree", "sleep", (char *)NULL);
            _exit(2);
        }
    }
    for (int i = 0; i < count; i++) take();
    bool is_full = !is_served_in_child();
    close(gates[1]);
    printf("%s, then %s\n", is_full ? "full" : "not full", holds_in_time(is_served_in_child) ? "served" : "refused");
    for (int i = 0; i < count; i++) kill(children[i], SIGKILL);
    return 0;
}

/* What executes something while another process has its memory, which therefore stays. */
static char stack[65536];

static int stay(void *parent) {
    return prctl(PR_SET_PDEATHSIG, SIGKILL) == 0 && getppid() == *(const pid_t *)parent ? pause() : 2;
}

static int execute_beside(const char *file) {
    static pid_t self;
    self = getpid();
    bool are_there = ring_of(KEY_SPEC_PROCESS_KEYRING, 1) > 0 && ring_of(KEY_SPEC_THREAD_KEYRING, 1) > 0;
    if (!are_there || clone(stay, stack + sizeof stack, CLONE_VM | SIGCHLD, &self) < 0) return 2;
    execl(file, file, "executed-beside", file, (char *)NULL);
    return 2;
}

static int tell_keyrings(void) {
    bool has_process = ring_of(KEY_SPEC_PROCESS_KEYRING, 0) > 0, has_thread = ring_of(KEY_SPEC_THREAD_KEYRING, 0) > 0;
    return printf("process %s, thread %s\n", has_process ? "kept" : "gone", has_thread ? "kept" : "gone") < 0;
}

/* ---- Sessions that nobody asks in ---- */

static long key;

static bool is_gone(void) {
    return keyctl(KEYCTL_DESCRIBE, (unsigned long)key, 0, 0, 0) < 0 && (errno == ENOKEY || errno == EACCES);
}

/* What has joined a session ends, and leaves a process that has not asked yet, for longer than two sweeps. Then that
 * ends too, and the session with it. */
static int leave_session(void) {
    struct answer answer;
    begin();
    pid_t child = fork();
    if (child == 0) {
        long ring = join(NULL);
        add_key("user", "left", "x", 1, KEY_SPEC_SESSION_KEYRING);
        if (fork() == 0) {
            sleep(5);
            long found = request_key("user", "left", NULL, 0);
            end_with(found > 0 ? ring : found);
        }
        _exit(0);
    }
    status_of(child);
    answer = take();
    key = answer.value;
    printf("%s, then %s\n", answer.value > 0 ? "kept" : "lost", holds_in_time(is_gone) ? "gone" : "still there");
    return 0;
}

/* Another user's process has taken the tag of a session, whose last process then ends. */
static int keep_by_tag(void) {
    begin();
    pid_t owner = fork();
    if (owner == 0) {
        long joined = join(NULL);
        live_on(joined < 0 ? joined : add_key("user", "left", "x", 1, KEY_SPEC_SESSION_KEYRING));
    }
    key = take().value;
    pid_t other = fork();
    if (other == 0) {
        close(gates[1]);
        become_nobody();
        copy_tag(owner);
        give(0);
        return pause();
    }
    take();
    bool was_there = !is_gone();
    close(gates[1]);
    status_of(owner);
    printf("%s, then %s\n", was_there ? "there" : "not there", holds_in_time(is_gone) ? "gone" : "kept");
    kill(other, SIGKILL);
    return 0;
}

/* ---- A long life ---- */

/* Whether the session's key can be read, by a child too. */
static bool is_in_session(long ring, long key) {
    char byte;
    return ring_of(KEY_SPEC_SESSION_KEYRING, 0) == ring && read_key(key, &byte, 1) == 1 && byte == 'x';
}

/* Many calls, in a session of its own and with a process keyring; then as many by a child. The session stays; the
 * process keyring ends with its connection, which is the one before the last. */
static int ask_often(int count) {
    long ring = join("often"), process = ring_of(KEY_SPEC_PROCESS_KEYRING, 1);
    long key_in_session = add_key("user", "often", "x", 1, KEY_SPEC_SESSION_KEYRING);
    int wrong = 0, kept = 0;
    for (int i = 0; i < count; i++) {
        wrong += !is_in_session(ring, key_in_session);
        kept += ring_of(KEY_SPEC_PROCESS_KEYRING, 0) == process;
    }
    pid_t child = fork();
    if (child == 0) {
        for (int i = 0; i < count; i++) wrong += !is_in_session(ring, key_in_session);
        _exit(wrong != 0);
    }
    int status = status_of(child);
    wrong += !is_in_session(ring, key_in_session);
    bool is_there = ring_of(KEY_SPEC_PROCESS_KEYRING, 0) == process;
    printf("%d wrong, a child %d, the process keyring %s, then %s\n", wrong, status, kept == count ? "kept" : "lost",
           is_there ? "kept" : "lost");
    return 0;
}

/* Payloads that take the daemon some reads each; then it waits until it is killed. */
static int ask_at_length(int count) {
    static char payload[LONG_PAYLOAD];
    for (int i = 0; i < count; i++)
        if (add_key("user", "long", payload, sizeof payload, KEY_SPEC_SESSION_KEYRING) < 0) return 1;
    return pause();
}

/* Of payloads that can't be read nothing goes to the daemon, by which a connection would be worn. */
static int ask_in_vain(int count) {
    long kept = add_key("user", "kept", "x", 1, KEY_SPEC_PROCESS_KEYRING);
    pid_t child = fork();
    for (int i = 0; child == 0 && i < count; i++)
        if (add_key("user", "none", (void *)PAGE, 2 * LONG_PAYLOAD, KEY_SPEC_SESSION_KEYRING) > 0 || i % 10 == 0)
            ring_of(KEY_SPEC_SESSION_KEYRING, 0);
    if (child == 0) _exit(0);
    status_of(child);
    return puts(keyctl(KEYCTL_DESCRIBE, (unsigned long)kept, 0, 0, 0) > 0 ? "kept" : "gone") < 0;
}

/* So many that have begun sessions end, and nobody reaps them, while all that they leave ask for the first time. How
 * many of these have the session. */
static int end_together(int count) {
    enum { CHILDREN = 8 };
    int kept = 0;
    begin();
    for (int i = 0; i < count; i++)
        if (fork() == 0) {
            long joined = join(NULL);
            bool is_left = false;
            for (int child = 0; joined > 0 && !is_left && child < CHILDREN; child++) is_left = fork() == 0;
            if (!is_left) give(joined);
            wait_at_gate();
            if (!is_left) _exit(0);
            end_with(has_session(joined));
        }
    for (int i = 0; i < count; i++) take();
    close(gates[1]);
    for (int i = 0; i < CHILDREN * count; i++) kept += take().value == 1;
    return printf("%d of %d\n", kept, CHILDREN * count) < 0;
}

/* Has its parent trace it, for which each signal stops it. */
static int ask_for_tracing(void) { return ptrace(PTRACE_TRACEME, 0, 0, 0) == 0 && raise(SIGCONT) == 0 ? 7 : 2; }

int ends_modes(const char *mode, int many, int count, char **words) {
    if (strcmp(mode, "killed") == 0) return kill_in_calls(many);
    if (strcmp(mode, "killed-joining") == 0) return kill_in_joins(many);
    if (strcmp(mode, "executed") == 0) return execute_in_processes(many);
    if (strcmp(mode, "executes-beside") == 0) return execute_beside(count > 2 ? words[2] : "/proc/self/exe");
    if (strcmp(mode, "executed-beside") == 0) return tell_keyrings();
    if (strcmp(mode, "left") == 0) return leave_session();
    if (strcmp(mode, "kept-by-tag") == 0) return keep_by_tag();
    if (strcmp(mode, "often") == 0) return ask_often(many);
    if (strcmp(mode, "long") == 0) return ask_at_length(many);
    if (strcmp(mode, "in-vain") == 0) return ask_in_vain(many);
    if (strcmp(mode, "together") == 0) return end_together(many);
    if (strcmp(mode, "traced") == 0) return ask_for_tracing();
    return -1;
}
