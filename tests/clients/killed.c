/* killed DAEMON: a daemon that is killed in the middle of a call. Prints `killed`, and then waits for a line, which
 * tells that there is a new daemon. */
#define _GNU_SOURCE
#include "check.h"
#include "keyutils/keyutils.h"

static pid_t daemon_process;

/* A second thread, which has asked the old daemon, and asks the new one. */
static pthread_barrier_t may_ask;

static void *ask_both(void *unused) {
    check("a second thread", add_key("user", "own", "x", 1, KEY_SPEC_THREAD_KEYRING) > 0);
    pthread_barrier_wait(&may_ask);
    pthread_barrier_wait(&may_ask);
    check("which has the new daemon too", add_key("user", "own", "x", 1, KEY_SPEC_THREAD_KEYRING) > 0);
    check("and no session either", refused(add_key("user", "a", "x", 1, KEY_SPEC_SESSION_KEYRING), EKEYREVOKED));
    return unused;
}

/* Until then the daemon is stopped, so that it has the ask and can't answer it. */
static void *kill_soon(void *unused) {
    usleep(300000);
    kill(daemon_process, SIGKILL);
    return unused;
}

static void be_killed(key_serial_t key) {
    pthread_t killer;
    char buffer[8];
    check("stop the daemon", kill(daemon_process, SIGSTOP) == 0);
    usleep(300000); /* its threads may run on for a little */
    pthread_create(&killer, NULL, kill_soon, NULL);
    check("killed in mid-call", refused(keyctl_read(key, buffer, sizeof buffer), ECONNRESET));
    pthread_join(killer, NULL);
    usleep(300000); /* it may close the connection before it stops listening */
    check("nobody listens", refused(keyctl_read(key, buffer, sizeof buffer), ENOSYS));
    check("still", refused(add_key("user", "a", "x", 1, KEY_SPEC_USER_KEYRING), ENOSYS));
}

/* Another process has keys of the new daemon with the serials of the old one, until it is ended. It says so when it has
 * them all. */
static pid_t fill_serials(key_serial_t highest) {
    int ends[2];
    char byte;
    if (pipe(ends) < 0) return -1;
    pid_t child = fork();
    if (child != 0) {
        close(ends[1]);
        check("the other process has its keys", read(ends[0], &byte, 1) == 1);
        return child;
    }
    for (key_serial_t made = 0; made <= highest + 1;) {
        char name[16];
        snprintf(name, sizeof name, "%d", made);
        made = add_key("user", name, "another's", 9, KEY_SPEC_PROCESS_KEYRING);
        if (made < 0 || keyctl_setperm(made, 0x3f3f0000) < 0 || keyctl_link(made, KEY_SPEC_USER_KEYRING) < 0) break;
    }
    (void)!write(ends[1], "", 1);
    sleep(60);
    _exit(0);
}

/* A serial that the old daemon told means its key, until the new one has told it to this process. */
static void see_serials(key_serial_t key) {
    char buffer[16];
    int32_t links[64];
    pid_t child = fill_serials(key);
    check("a serial of the last daemon is no key of the new one",
          refused(keyctl_read(key, buffer, sizeof buffer), EKEYREVOKED) &&
          refused(keyctl_update(key, "secret", 6), EKEYREVOKED));
    check("nor one that anything goes into",
          refused(add_key("user", "b", "secret", 6, key), EKEYREVOKED) &&
          refused(keyctl_link(KEY_SPEC_USER_KEYRING, key), EKEYREVOKED) &&
          refused(keyctl_search(KEY_SPEC_USER_KEYRING, "user", "a", key), EKEYREVOKED));
    key_serial_t ring = keyctl_get_keyring_ID(KEY_SPEC_USER_KEYRING, 0);
    check("serials begin anew", ring > 0 && ring <= key && keyctl_setperm(ring, 0x3f3f0000) == 0);
    check("the keyring is read", keyctl_read(ring, (char *)links, sizeof links) >= 4);
    check("a serial that was told again is that of the new key", keyctl_read(key, buffer, sizeof buffer) == 9);
    check("the other process ends", kill(child, SIGKILL) == 0 && waitpid(child, NULL, 0) == child);
}

static void go_on(key_serial_t key, pthread_t thread) {
    char buffer[8];
    check("a new daemon: a serial of the last one is refused",
          refused(keyctl_read(key, buffer, sizeof buffer), EKEYREVOKED));
    see_serials(key);
    check("the session is lost, and not made anew",
          refused(add_key("user", "a", "x", 1, KEY_SPEC_SESSION_KEYRING), EKEYREVOKED));
    check("nor is it searched", refused(request_key("user", "a", NULL, 0), EKEYREVOKED));
    pthread_barrier_wait(&may_ask);
    pthread_join(thread, NULL);
    check("the user keyring is there", add_key("user", "a", "x", 1, KEY_SPEC_USER_KEYRING) > 0);
    check("another session can be joined", keyctl_join_session_keyring(NULL) > 0);
    check("and has keys", add_key("user", "a", "x", 1, KEY_SPEC_SESSION_KEYRING) > 0);
}

int main(int count, char **words) {
    char line[16];
    pthread_t thread;
    if (count != 2) return 2;
    daemon_process = atoi(words[1]);
    check("a session", keyctl_join_session_keyring("killed") > 0);
    key_serial_t key = 0;
    for (int i = 0; i < 20; i++) { /* so that its serial is above those of the first keys of the next daemon */
        if (key > 0) keyctl_unlink(key, KEY_SPEC_SESSION_KEYRING);
        key = add_key("user", "a", "x", 1, KEY_SPEC_SESSION_KEYRING);
    }
    check("a key", key > 0);
    pthread_barrier_init(&may_ask, NULL, 2);
    pthread_create(&thread, NULL, ask_both, NULL);
    pthread_barrier_wait(&may_ask);
    be_killed(key);
    puts("killed");
    fflush(stdout);
    if (fgets(line, sizeof line, stdin)) go_on(key, thread);
    return conclude("killed");
}
