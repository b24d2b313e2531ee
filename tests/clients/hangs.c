/* hangs DAEMON MODE: what libkeyutils.so.1 does in a program with threads, forks and cancelled threads. Prints what
 * became of it in one word, and `hangs` where that takes 15 seconds, or where of many calls none ends for so long. */
#define _GNU_SOURCE
#include <stdatomic.h>

#include "check.h"
#include "keyutils/keyutils.h"

enum { LONGEST = 15, CROWD = 8, ROUNDS = 40, CALLS = 20 };

static pid_t daemon_process;
static atomic_uint ended; /* how many calls of a crowd have */

static void on_alarm(int unused) {
    static unsigned seen;
    unsigned now = atomic_load(&ended);
    if (now != seen) {
        seen = now;
        alarm(LONGEST);
        return;
    }
    if (daemon_process > 0) kill(daemon_process, SIGCONT);
    (void)!write(STDOUT_FILENO, "hangs\n", 6);
    _exit(9);
}

static void *ask(void *unused) {
    keyctl_get_keyring_ID(KEY_SPEC_USER_KEYRING, 0);
    return unused;
}

/* ---- A daemon that doesn't answer any more ---- */

static pthread_t ask_of_stopped(void) {
    pthread_t thread;
    kill(daemon_process, SIGSTOP);
    usleep(300000); /* its threads may run on for a little */
    pthread_create(&thread, NULL, ask, NULL);
    usleep(300000);
    return thread;
}

static const char *go_on(pthread_t thread, const char *result) {
    kill(daemon_process, SIGCONT);
    pthread_join(thread, NULL);
    return result;
}

/* Another thread waits for its answer. */
static const char *try_fork(void) {
    ask(NULL);
    pthread_t waiting = ask_of_stopped();
    pid_t child = fork();
    if (child == 0) _exit(0);
    waitpid(child, NULL, 0);
    return go_on(waiting, "forks");
}

static pthread_barrier_t both_have_asked, may_end;

static void *ask_and_end(void *unused) {
    ask(unused);
    pthread_barrier_wait(&both_have_asked);
    pthread_barrier_wait(&may_end);
    return NULL;
}

/* Another thread, which has asked, ends. */
static const char *try_end(void) {
    pthread_t ending;
    pthread_barrier_init(&both_have_asked, NULL, 2);
    pthread_barrier_init(&may_end, NULL, 2);
    ask(NULL);
    pthread_create(&ending, NULL, ask_and_end, NULL);
    pthread_barrier_wait(&both_have_asked);
    pthread_t waiting = ask_of_stopped();
    pthread_barrier_wait(&may_end);
    pthread_join(ending, NULL);
    return go_on(waiting, "ends");
}

/* ---- Many threads that wait for one another ---- */

static void *ask_often(void *unused) {
    for (int i = 0; i < CALLS; i++) {
        ask(unused);
        atomic_fetch_add(&ended, 1);
    }
    return NULL;
}

/* Each round ends with threads that wait while nobody comes back: none is forgotten. */
static const char *try_crowd(void) {
    pthread_t threads[CROWD];
    for (int round = 0; round < ROUNDS; round++) {
        for (int i = 0; i < CROWD; i++) pthread_create(&threads[i], NULL, ask_often, NULL);
        for (int i = 0; i < CROWD; i++) pthread_join(threads[i], NULL);
    }
    return "all end";
}

/* ---- Cancelling ---- */

static void *be_cancelled(void *unused) {
    pthread_cancel(pthread_self());
    ask(unused);
    pthread_testcancel();
    return NULL;
}

static const char *try_cancel(void) {
    if (in_thread(be_cancelled, NULL) != PTHREAD_CANCELED) return "not cancelled";
    return keyctl_get_keyring_ID(KEY_SPEC_USER_KEYRING, 0) > 0 ? "answers" : "refuses";
}

/* Another thread cancels one that has asked and is about to return: its end tells the daemon, which must not be where
 * it is cancelled. */
static void *ask_and_return(void *unused) {
    ask(unused);
    pthread_setcancelstate(PTHREAD_CANCEL_DISABLE, NULL);
    pthread_barrier_wait(&both_have_asked);
    pthread_barrier_wait(&may_end);
    pthread_setcancelstate(PTHREAD_CANCEL_ENABLE, NULL);
    return &may_end;
}

static const char *try_cancel_at_end(void) {
    pthread_t ending;
    void *result;
    pthread_barrier_init(&both_have_asked, NULL, 2);
    pthread_barrier_init(&may_end, NULL, 2);
    pthread_create(&ending, NULL, ask_and_return, NULL);
    pthread_barrier_wait(&both_have_asked);
    pthread_cancel(ending);
    pthread_barrier_wait(&may_end);
    pthread_join(ending, &result);
    if (keyctl_get_keyring_ID(KEY_SPEC_USER_KEYRING, 0) < 0) return "refuses";
    return result == &may_end ? "returns" : "cancelled";
}

/* ---- A handler of a signal that forks, wherever the program is ---- */

enum { HANDLED = 3000 };

static volatile sig_atomic_t handled;

static void fork_now(int unused) {
    pid_t child = fork();
    if (child == 0) _exit(0);
    waitpid(child, NULL, 0);
    handled++;
}

static const char *try_handler(void) {
    struct sigevent event = { .sigev_notify = SIGEV_SIGNAL, .sigev_signo = SIGUSR1 };
    const struct itimerspec often = { .it_value.tv_nsec = 700000, .it_interval.tv_nsec = 700000 };
    timer_t timer;
    ask(NULL);
    signal(SIGUSR1, fork_now);
    if (timer_create(CLOCK_MONOTONIC, &event, &timer) < 0 || timer_settime(timer, 0, &often, NULL) < 0) exit(2);
    while (handled < HANDLED) {
        ask(NULL);
        atomic_fetch_add(&ended, 1);
    }
    timer_delete(timer);
    return "goes on";
}

/* ---- The environment of a program with threads ---- */

static void *wait_for_end(void *unused) {
    pthread_barrier_wait(&may_end);
    return unused;
}

static bool is_in_session(key_serial_t session) {
    int status;
    pid_t child = fork();
    if (child == 0) _exit(keyctl_get_keyring_ID(KEY_SPEC_SESSION_KEYRING, 0) == session ? 0 : 1);
    return waitpid(child, &status, 0) == child && status == 0;
}

static const char *try_environment(void) {
    pthread_t other;
    pthread_barrier_init(&may_end, NULL, 2);
    pthread_create(&other, NULL, wait_for_end, NULL);
    key_serial_t session = keyctl_join_session_keyring("environment");
    bool was_changed = getenv("KEYRETAIN_SESSION") != NULL, is_in = is_in_session(session);
    pthread_barrier_wait(&may_end);
    pthread_join(other, NULL);
    if (was_changed || !is_in) return was_changed ? "changed" : "lost";
    keyctl_join_session_keyring("environment");
    return getenv("KEYRETAIN_SESSION") ? "changed alone" : "unchanged";
}

/* ---- A child that a second thread has made, and whose first thread ends before the others ---- */

static void *ask_later(void *unused) {
    usleep(500000);
    long ring = keyctl_get_keyring_ID(KEY_SPEC_USER_KEYRING, 0);
    puts(ring > 0 ? "answers" : strerrorname_np(errno));
    fflush(stdout);
    _exit(0);
}

static void run_child(void) {
    pthread_t later;
    alarm(LONGEST);
    keyctl_get_keyring_ID(KEY_SPEC_THREAD_KEYRING, 1);
    pthread_create(&later, NULL, ask_later, NULL);
    pthread_exit(NULL);
}

static void *fork_and_wait(void *unused) {
    ask(unused);
    pid_t child = fork();
    if (child == 0) run_child();
    waitpid(child, NULL, 0);
    return NULL;
}

static const char *try_child(void) {
    ask(NULL);
    return in_thread(fork_and_wait, NULL);
}

/* ---- Arguments whose upper half nobody has set ---- */

static const char *try_halves(void) {
    const unsigned long dirt = 0x100000000;
    key_serial_t key = add_key("user", "moved", "x", 1, KEY_SPEC_PROCESS_KEYRING);
    key_serial_t ring = add_key("keyring", "to", NULL, 0, KEY_SPEC_PROCESS_KEYRING);
    long made = keyctl(KEYCTL_GET_KEYRING_ID, (unsigned long)KEY_SPEC_THREAD_KEYRING, dirt);
    long moved = keyctl(KEYCTL_MOVE, (unsigned long)key, (unsigned long)KEY_SPEC_PROCESS_KEYRING, (unsigned long)ring,
                        dirt);
    return made == -1 && moved == 0 ? "cut" : "whole";
}

int main(int count, char **words) {
    static const struct {
        const char *name;
        const char *(*run)(void);
    } modes[] = { { "fork", try_fork }, { "end", try_end }, { "cancel", try_cancel }, { "crowd", try_crowd },
                  { "child", try_child }, { "halves", try_halves }, { "environment", try_environment },
                  { "cancel-at-end", try_cancel_at_end }, { "handler", try_handler } };
    if (count != 3) return 2;
    daemon_process = atoi(words[1]);
    signal(SIGALRM, on_alarm);
    alarm(LONGEST);
    for (size_t i = 0; i < sizeof modes / sizeof *modes; i++) {
        const char *result = strcmp(words[2], modes[i].name) == 0 ? modes[i].run() : NULL;
        if (result) puts(result);
    }
    return 0;
}
