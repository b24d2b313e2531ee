/* races: threads of several users and groups, of more than a process remembers, ask for the first time and end, while
 * the first one joins sessions and forks: for the thread sanitizer, by root. */
#define _GNU_SOURCE
#include <sys/syscall.h>

#include "check.h"
#include "keyutils/keyutils.h"

enum { OTHER = 65533, THREADS = 12, ROUNDS = 10, JOINS = 4, OFTEN = 3 };

/* A child of a process with threads that have ended isn't told of them. */
const char *__tsan_default_options(void) { return "report_thread_leaks=0"; }

static int has_joined; /* the first thread, all that it joins in this round */

/* Two threads each are of one user, and have keyrings of their own; or of root and one group, and have none. */
static void *ask_as_another(void *number) {
    int other = OTHER - (int)(long)number / 2, call = (long)number % 4 < 2 ? SYS_setresuid : SYS_setresgid;
    bool fine = syscall(call, -1, other, -1) == 0;
    for (int i = 0; fine && (i < OFTEN || !__atomic_load_n(&has_joined, __ATOMIC_RELAXED)); i++)
        fine = keyctl_get_keyring_ID(KEY_SPEC_USER_KEYRING, 0) > 0 &&
               (call == SYS_setresgid || keyctl_get_keyring_ID(KEY_SPEC_THREAD_KEYRING, 1) > 0);
    return fine ? number : NULL;
}

static bool asks_in_child(void) {
    int status;
    pid_t child = fork();
    if (child == 0) _exit(keyctl_get_keyring_ID(KEY_SPEC_SESSION_KEYRING, 0) < 0);
    return waitpid(child, &status, 0) == child && status == 0;
}

int main(void) {
    pthread_t threads[THREADS];
    char name[32];
    for (int round = 0; round < ROUNDS; round++) {
        __atomic_store_n(&has_joined, 0, __ATOMIC_RELAXED);
        for (long i = 0; i < THREADS; i++) pthread_create(&threads[i], NULL, ask_as_another, (void *)(THREADS + i));
        for (int i = 0; i < JOINS; i++) {
            snprintf(name, sizeof name, "races-%d-%d-%d", (int)getpid(), round, i);
            check("a session that is joined meanwhile", keyctl_join_session_keyring(name) > 0);
        }
        __atomic_store_n(&has_joined, 1, __ATOMIC_RELAXED);
        check("a child that asks", asks_in_child());
        for (int i = 0; i < THREADS; i++) {
            void *fine;
            pthread_join(threads[i], &fine);
            check("a thread of another identity", fine != NULL);
        }
    }
    return conclude("races");
}
