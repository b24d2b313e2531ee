/* signals storm N | stopped DAEMON restart|interrupt: calls in which signals arrive.
 *
 * storm: keys are added and unlinked again under a timer. No call may be carried out twice, and none may have been
 * that answers EINTR.
 *
 * stopped: the daemon is stopped by SIGSTOP, a signal arrives in the midst of the call, and the daemon goes on. */
#define _GNU_SOURCE
#include <sys/time.h>

#include "calls.h"

enum { TIMER_MICROSECONDS = 200, AWHILE_MICROSECONDS = 300000 };

static volatile sig_atomic_t arrived;

static void note(int number) { arrived = 1; }

static void handle(int flags) {
    struct sigaction action = { .sa_handler = note, .sa_flags = flags };
    sigaction(SIGALRM, &action, NULL);
}

static void set_timer(long microseconds) {
    const struct itimerval timer = { { 0, microseconds }, { 0, microseconds } };
    setitimer(ITIMER_REAL, &timer, NULL);
}

/* ---- A storm ---- */

static long add(const char *description) { return add_key("user", description, "x", 1, KEY_SPEC_PROCESS_KEYRING); }

static long unlink_key(long key) {
    return keyctl(KEYCTL_UNLINK, (unsigned long)key, (unsigned long)(long)KEY_SPEC_PROCESS_KEYRING, 0, 0);
}

/* With SA_RESTART the kernel makes an interrupted call again. */
static int storm_restarted(int count) {
    int wrong = 0;
    handle(SA_RESTART);
    set_timer(TIMER_MICROSECONDS);
    for (int i = 0; i < count; i++) {
        long key = add("restarted");
        if (key < 0 || unlink_key(key) < 0) wrong++;
    }
    set_timer(0);
    return wrong;
}

static bool is_there(const char *description) { return find(KEY_SPEC_PROCESS_KEYRING, description) > 0; }

/* Without it the call answers EINTR: then nothing was done. */
static int storm_interrupted(int count) {
    int wrong = 0;
    handle(0);
    for (int i = 0; i < count; i++) {
        char description[32];
        snprintf(description, sizeof description, "interrupted %d", i);
        set_timer(TIMER_MICROSECONDS);
        long key = add(description);
        int error = errno;
        set_timer(0);
        if (key < 0 && error != EINTR) wrong++;
        if (is_there(description) != (key > 0)) wrong++;
        if (key > 0) unlink_key(key);
    }
    return wrong;
}

static int storm(int count) {
    int restarted = storm_restarted(count);
    printf("restarted %d wrong, interrupted %d wrong\n", restarted, storm_interrupted(count));
    return 0;
}

/* ---- A daemon that is stopped ---- */

/* A child that signals this process in the midst of its call. */
static pid_t stop_daemon(pid_t daemon) {
    pid_t own = getpid();
    if (kill(daemon, SIGSTOP) < 0) exit(2);
    pid_t child = fork();
    if (child != 0) return child;
    usleep(AWHILE_MICROSECONDS);
    kill(own, SIGALRM);
    usleep(AWHILE_MICROSECONDS);
    kill(daemon, SIGCONT);
    _exit(0);
}

static const char *outcome(long answer) {
    if (answer >= 0) return "done";
    return errno == EINTR ? "EINTR" : errno == ENOENT || errno == ENOKEY ? "carried out twice" : "another error";
}

/* A call that is made again where the program is told that it was interrupted. */
static const char *again_unlink(long key, pid_t daemon) {
    pid_t child = stop_daemon(daemon);
    long answer = unlink_key(key);
    if (answer < 0 && errno == EINTR) answer = unlink_key(key);
    const char *text = outcome(answer);
    status_of(child);
    return text;
}

static const char *again_read(long key, pid_t daemon) {
    char buffer[8] = "";
    pid_t child = stop_daemon(daemon);
    long answer = read_key(key, buffer, sizeof buffer);
    if (answer < 0 && errno == EINTR) answer = read_key(key, buffer, sizeof buffer);
    const char *text = answer == 1 && *buffer == 'x' ? "the payload" : "not the payload";
    status_of(child);
    return text;
}

static int stopped(pid_t daemon, int flags) {
    handle(flags);
    long key = add("stopped");
    const char *reading = again_read(key, daemon), *unlinking = again_unlink(key, daemon);
    bool is_gone = unlink_key(key) < 0 && errno == ENOKEY;
    printf("read: %s, unlink: %s, %s, %s\n", reading, unlinking, is_gone ? "gone" : "still there",
           arrived ? "interrupted" : "not interrupted");
    return 0;
}

int main(int count, char **words) {
    if (count == 3 && strcmp(words[1], "storm") == 0) return storm(atoi(words[2]));
    if (count != 4) return 2;
    return stopped(atoi(words[2]), strcmp(words[3], "restart") == 0 ? SA_RESTART : 0);
}
