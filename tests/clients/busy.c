/* busy MODE [WORD ..]: what libkeyutils.so.1 does with many threads and processes, and a daemon that is slow or full.
 * Prints what became of it. */
#define _GNU_SOURCE
#include <spawn.h>
#include <stdatomic.h>

#include "check.h"
#include "library/keyretain.h"
#include "keyutils/keyutils.h"

enum { THREADS = 32, LOOKS = 100, STALLED = 200, AGAIN = 9, OFTEN = 20 };

static char **words; /* behind the mode */

static long ask(void) { return keyctl_get_keyring_ID(KEY_SPEC_USER_KEYRING, 0); }

static const char *word_of(bool holds) { return holds ? "answered" : strerrorname_np(errno); }

/* ---- Turns ---- */

static atomic_ulong calls;
static atomic_bool is_over;

static void *ask_often(void *unused) {
    while (!atomic_load(&is_over)) {
        ask();
        atomic_fetch_add(&calls, 1);
    }
    return unused;
}

/* fair: how often the others are answered while one thread waits for its answer: each once, as they came before, and
 * some that had been answered, and not counted yet. A thread that loses its processor before it has come waits longer,
 * so of a hundred calls ten may. */
static void wait_beside_others(void) {
    pthread_t threads[THREADS];
    int unfair = 0;
    for (int i = 0; i < THREADS; i++) pthread_create(&threads[i], NULL, ask_often, NULL);
    while (atomic_load(&calls) < THREADS) usleep(1000);
    for (int i = 0; i < LOOKS; i++) {
        unsigned long before = atomic_load(&calls);
        ask();
        unfair += atomic_load(&calls) - before > 2 * THREADS;
        usleep(500);
    }
    atomic_store(&is_over, true);
    for (int i = 0; i < THREADS; i++) pthread_join(threads[i], NULL);
    if (unfair > LOOKS / 10) printf("%d of %d calls behind many of others\n", unfair, LOOKS);
    else puts("fair");
}

/* ---- A daemon that is stopped, while the clock runs ---- */

static time_t step, passed;
static const struct timespec *stands; /* where not NULL, the clock stands here */

int clock_gettime(clockid_t clock, struct timespec *moment) {
    int told = OURS(clock_gettime)(clock, moment);
    if (step) passed += step;
    moment->tv_sec += passed;
    if (stands) *moment = *stands;
    return told;
}

/* A call to a daemon that goes on, and has much to do first. */
static bool ask_again(void) {
    for (int i = 0; i < AGAIN; i++)
        if (ask() > 0) return true;
        else if (errno != ETIMEDOUT) return false;
    return false;
}

/* stalled DAEMON: calls that are all out of time, and one when the daemon goes on. */
static void ask_stopped(void) {
    pid_t daemon = atoi(words[0]);
    int late = 0;
    kill(daemon, SIGSTOP);
    usleep(300000);
    step = 6;
    for (int i = 0; i < STALLED; i++) late += ask() < 0 && errno == ETIMEDOUT;
    step = 0;
    kill(daemon, SIGCONT);
    bool is_answered = ask_again();
    printf("%d late, then %s\n", late, word_of(is_answered));
}

static void *make_ring(void *unused) { return (void *)(long)keyctl_get_keyring_ID(KEY_SPEC_THREAD_KEYRING, 1); }

/* threads DAEMON: the same of a thread that wants a context of its own, in a process that has one already. */
static void *make_ring_stopped(void *late) {
    for (int i = 0; i < STALLED; i++)
        *(int *)late += keyctl_get_keyring_ID(KEY_SPEC_THREAD_KEYRING, 1) < 0 && errno == ETIMEDOUT;
    return NULL;
}

static void want_own_stopped(void) {
    pid_t daemon = atoi(words[0]);
    int late = 0;
    add_key("user", "kept", "s3", 2, KEY_SPEC_PROCESS_KEYRING);
    kill(daemon, SIGSTOP);
    usleep(300000);
    step = 40;
    in_thread(make_ring_stopped, &late);
    step = 0;
    kill(daemon, SIGCONT);
    void *ring = in_thread(make_ring, NULL);
    printf("%d late, then %s, and the process's key is %s\n", late, word_of((long)ring > 0),
           request_key("user", "kept", NULL, 0) > 0 ? "there" : "lost");
}

/* late DAEMON: the same of libkeyretain. */
static void want_contexts_stopped(void) {
    pid_t daemon = atoi(words[0]);
    struct kr *connection = kr_open(NULL);
    int64_t context = kr_hello(connection, geteuid(), getegid(), 0, NULL);
    int late = 0;
    kill(daemon, SIGSTOP);
    usleep(300000);
    kr_set_patience(connection, 1);
    for (int i = 0; i < STALLED; i++) {
        int64_t made = i % 3 == 0   ? kr_hello(connection, 1, 1, 0, NULL)
                       : i % 3 == 1 ? kr_thread(connection, (uint32_t)context)
                                    : kr_fork(connection, (uint32_t)context);
        late += made < 0 && errno == ETIMEDOUT;
    }
    kr_set_patience(connection, 30000);
    kill(daemon, SIGCONT);
    bool is_answered = kr_thread(connection, (uint32_t)context) > 0;
    printf("%d late, then %s\n", late, word_of(is_answered));
    kr_close(connection);
}

/* ---- A crowd ---- */

static atomic_int connections;

int connect(int descriptor, const struct sockaddr *address, socklen_t length) {
    if (atomic_fetch_add(&connections, 1) == 0) usleep(1000000);
    return OURS(connect)(descriptor, address, length);
}

static void *ask_once(void *unused) { return (void *)ask(); }

/* crowd: how many connections are made for threads that ask while the first one is being made, and a second isn't
 * over. */
static void ask_as_crowd(void) {
    pthread_t threads[THREADS];
    struct timespec now;
    clock_gettime(CLOCK_MONOTONIC, &now);
    stands = &now;
    for (int i = 0; i < THREADS; i++) pthread_create(&threads[i], NULL, ask_once, NULL);
    for (int i = 0; i < THREADS; i++) pthread_join(threads[i], NULL);
    printf("%d\n", atomic_load(&connections));
}

/* ---- Many processes ---- */

/* many COUNT: so many processes that live at one time, each of which asks, and again when all have. How many were
 * answered both times. */
static void ask_as_many(void) {
    int count = atoi(words[0]), fine = 0, status, begin[2], told[2];
    char none;
    if (pipe(begin) < 0 || pipe(told) < 0) exit(2);
    for (int i = 0; i < count; i++) {
        if (fork() == 0) {
            bool is_first = ask() > 0;
            (void)!write(told[1], "", 1);
            (void)!read(begin[0], &none, 1);
            bool is_second = ask() > 0;
            (void)!write(told[1], "", 1);
            _exit(is_first && is_second ? 0 : 1);
        }
        (void)!read(told[0], &none, 1);
    }
    for (int i = 0; i < count; i++) (void)!(write(begin[1], "", 1) + read(told[0], &none, 1));
    while (wait(&status) > 0) fine += status == 0;
    printf("%d of %d\n", fine, count);
}

/* Asks as often, at one moment, and nothing from then on: until the other end is closed. Tells how many calls were
 * answered, how many sockets there are then, and how many in a child. */
static void fall_silent(int told, int end) {
    char said[] = { 0, 0, 0 };
    struct timespec now;
    int status;
    clock_gettime(CLOCK_MONOTONIC, &now);
    stands = &now;
    while (said[0] < OFTEN && ask() > 0) said[0]++;
    said[1] = (char)count_sockets();
    pid_t child = fork();
    if (child == 0) _exit(count_sockets());
    waitpid(child, &status, 0);
    said[2] = (char)WEXITSTATUS(status);
    (void)!write(told, said, sizeof said);
    (void)!read(end, said, 1);
    _exit(0);
}

/* silent COUNT: so many processes that live at one time and have fallen silent: how many were answered, hold a
 * connection, and have a child that does; and what a further call comes to. */
static void ask_beside_silent(void) {
    int count = atoi(words[0]), fine = 0, held = 0, inherited = 0, end[2], told[2];
    char said[3];
    if (pipe(end) < 0 || pipe(told) < 0) exit(2);
    for (int i = 0; i < count; i++)
        if (fork() == 0) {
            close(end[1]);
            fall_silent(told[1], end[0]);
        }
    for (int i = 0; i < count && read(told[0], said, sizeof said) == sizeof said; i++) {
        fine += said[0] == OFTEN;
        held += said[1];
        inherited += said[2];
    }
    printf("%d answered, %d held, %d inherited, ", fine, held, inherited);
    puts(word_of(ask() > 0));
}

/* held: how many sockets a process has that has nothing to lose, that has asked often, that asks a second later, that
 * has a process keyring; and whether its key is there afterwards. */
static void hold(void) {
    struct timespec now;
    ask();
    printf("%d", count_sockets());
    clock_gettime(CLOCK_MONOTONIC, &now);
    stands = &now;
    for (int i = 0; i < 200; i++) ask();
    stands = NULL;
    printf(" %d", count_sockets());
    usleep(1200000);
    ask();
    printf(" %d", count_sockets());
    add_key("user", "held", "s3", 2, KEY_SPEC_PROCESS_KEYRING);
    usleep(1200000);
    ask();
    printf(" %d %s\n", count_sockets(), word_of(request_key("user", "held", NULL, 0) > 0));
}

static void *keep_ring(void *barrier) {
    key_serial_t ring = keyctl_get_keyring_ID(KEY_SPEC_THREAD_KEYRING, 1);
    pthread_barrier_wait(barrier);
    pthread_barrier_wait(barrier);
    return (void *)(long)(ring > 0 && keyctl_get_keyring_ID(KEY_SPEC_THREAD_KEYRING, 0) == ring);
}

/* thread: a thread keyring of one thread, while another one asks; then that thread has ended. */
static void hold_for_thread(void) {
    pthread_barrier_t barrier;
    pthread_t thread;
    void *is_same;
    pthread_barrier_init(&barrier, NULL, 2);
    pthread_create(&thread, NULL, keep_ring, &barrier);
    pthread_barrier_wait(&barrier);
    ask();
    printf("%d", count_sockets());
    pthread_barrier_wait(&barrier);
    pthread_join(thread, &is_same);
    ask();
    printf(" %d %s\n", count_sockets(), is_same ? "the same" : "another");
}

/* ---- No process can be made ---- */

static bool is_full;

int posix_spawn(pid_t *child, const char *path, const posix_spawn_file_actions_t *actions,
                const posix_spawnattr_t *attributes, char *const words[], char *const environment[]) {
    return is_full ? EAGAIN : OURS(posix_spawn)(child, path, actions, attributes, words, environment);
}

/* no-process: joins a session when no keeper can be started. */
static void join_when_full(void) {
    is_full = true;
    puts(word_of(keyctl_join_session_keyring(NULL) > 0));
}

/* read RING COUNT: so many calls, for whoever counts what they take: what is read could be the links of a keyring. */
static void read_often(void) {
    static const char payload[] = "a secret as long as eight links.";
    char room[sizeof payload];
    const long length = sizeof payload - 1;
    key_serial_t key = add_key("user", "read", payload, (size_t)length, atoi(words[0]));
    int count = atoi(words[1]), fine = 0;
    for (int i = 0; i < count; i++) fine += keyctl_read(key, room, sizeof room) == length;
    puts(fine == count ? "read" : "not read");
}

int main(int count, char **given) {
    static const struct {
        const char *name;
        void (*run)(void);
    } modes[] = { { "fair", wait_beside_others }, { "crowd", ask_as_crowd }, { "stalled", ask_stopped },
                  { "threads", want_own_stopped }, { "late", want_contexts_stopped }, { "many", ask_as_many },
                  { "silent", ask_beside_silent }, { "held", hold }, { "thread", hold_for_thread },
                  { "no-process", join_when_full }, { "read", read_often } };
    if (count < 2) return 2;
    words = given + 2;
    for (size_t i = 0; i < sizeof modes / sizeof *modes; i++)
        if (strcmp(given[1], modes[i].name) == 0) modes[i].run();
    return 0;
}
