/* failing: what libkeyutils.so.1 leaves where one thing fails within a call: the first ask, allocation or call of the
 * system, then the second, and so on until the call makes fewer. A call that fails says why and changes nothing: the
 * session, what the environment says of it, and how many descriptors are open; nor is a context left. But on a
 * connection that is made anew the session may be lost. */
#define _GNU_SOURCE
#include "check.h"
#include "hooks.h"
#include "keyutils/keyutils.h"
#include "library/session.h"

enum { MOST = 300, FILES = 1024, NAME = 64, THREADS = 70, CONTEXTS = 64 };

static bool is_socket(int descriptor) {
    struct stat status;
    return fstat(descriptor, &status) == 0 && S_ISSOCK(status.st_mode);
}

/* But for a connection, which is let go now and then. */
static int count_open(void) {
    int open = 0;
    for (int i = 0; i < FILES; i++) open += fcntl(i, F_GETFD) >= 0 && !is_socket(i);
    return open;
}

static key_serial_t session(void) { return keyctl_get_keyring_ID(KEY_SPEC_SESSION_KEYRING, 0); }

struct state {
    key_serial_t session;
    char variable[KR_SESSION_NAME_ROOM];
    int open;
};

static struct state look(void) {
    const char *variable = getenv(KR_SESSION_VARIABLE);
    struct state now = { .session = session() };
    snprintf(now.variable, sizeof now.variable, "%s", variable ? variable : "");
    now.open = count_open();
    return now;
}

/* ---- Calls: each has one thing fail from where it calls `arm` ---- */

static const char *kind;
static int nth, number; /* what fails, and of the names that were joined */

static void arm(void) { fail_nth(kind, nth); }

static long join_own(void) {
    char name[NAME];
    snprintf(name, sizeof name, "failing-%d-%d", (int)getpid(), number++);
    return keyctl_join_session_keyring(name);
}

static long join(void) { return arm(), join_own(); }
static long join_another(void) { return arm(), keyctl_join_session_keyring(NULL); }
static long add(void) { return arm(), add_key("user", "failing", "s3", 2, KEY_SPEC_SESSION_KEYRING); }
static long have_ring(void) { return keyctl_get_keyring_ID(KEY_SPEC_THREAD_KEYRING, 1); }
static long have_ring_armed(void) { return arm(), have_ring(); }

/* Who has a session of its own enters it anew, as the program has closed its connection. */
static long enter_anew(void) {
    if (join_own() < 0) return -1;
    for (int i = 0; i < FILES; i++)
        if (is_socket(i)) close(i);
    return arm(), session();
}

static long (*run)(void);
static void *run_it(void *answer) { return *(long *)answer = run(), NULL; }

static long in_another(long (*what)(void)) {
    long answer = fail_as(EAGAIN); /* where no thread could be made */
    run = what;
    in_thread(run_it, &answer);
    return answer;
}

static long join_beside(void) { return in_another(join); }
static long have_ring_beside(void) { return in_another(have_ring_armed); }
static long enter_beside(void) { return in_another(enter_anew); }

static const struct call {
    const char *name;
    long (*run)(void);
    bool joins, is_anew;
} calls[] = { { "join", join, true, false }, { "join without a name", join_another, true, false },
              { "add", add, false, false }, { "a keyring of a thread", have_ring_armed, false, false },
              { "a keyring of another thread", have_ring_beside, false, false },
              { "join in a thread", join_beside, false, false },
              { "a session of a thread that is entered anew", enter_beside, false, true } };

static void check_of(const struct call *call, const char *what, bool holds) {
    char text[256];
    snprintf(text, sizeof text, "%s: the %s of number %d that fails: %s", call->name, kind, nth, what);
    check(holds ? "" : text, holds);
}

static pthread_barrier_t all_are_here;
static int with_keyring;

static void *have_keyring(void *unused) {
    bool has_one = keyctl_get_keyring_ID(KEY_SPEC_THREAD_KEYRING, 1) > 0;
    __atomic_add_fetch(&with_keyring, has_one, __ATOMIC_SEQ_CST);
    pthread_barrier_wait(&all_are_here);
    return unused;
}

/* One context is shared, and this thread has one: so many threads at once may have one of their own. */
static bool are_free(void) {
    pthread_t threads[THREADS];
    with_keyring = have_ring() < 0;
    pthread_barrier_init(&all_are_here, NULL, THREADS);
    for (int i = 0; i < THREADS; i++) pthread_create(&threads[i], NULL, have_keyring, NULL);
    for (int i = 0; i < THREADS; i++) pthread_join(threads[i], NULL);
    return with_keyring == CONTEXTS - 2;
}

/* Whether something has failed, as the call makes so many. */
static bool try_nth(const struct call *call) {
    struct state before = look();
    errno = 0;
    long answer = call->run();
    int error = errno;
    bool failed = has_failed();
    struct state after = look();
    bool has_joined = call->joins && answer > 0;
    errno = error;
    check_of(call, "an answer, or an error", answer > 0 || error > 0);
    bool is_same = after.session == (has_joined ? answer : before.session);
    bool is_lost = call->is_anew && (before.session < 0 || after.session < 0);
    check_of(call, "the session", is_same || is_lost);
    check_of(call, "the variable", has_joined || strcmp(before.variable, after.variable) == 0);
    check_of(call, "more than one connection", count_sockets() <= 1);
    check_of(call, "open descriptors", after.open == before.open + (call->is_anew && has_joined));
    if (call->is_anew) check_of(call, "all contexts but two are free", are_free());
    return failed;
}

static void try_call(const struct call *call) {
    for (nth = 1; nth < MOST && try_nth(call); nth++) continue;
    check_of(call, "there are as many", (nth > 1 || *kind == 'm') && nth < MOST);
    check_of(call, "all contexts but two are free", are_free());
}

int main(void) {
    static const char *const kinds[] = { "ask", "memory", "system call" };
    setlinebuf(stdout);
    kind = *kinds;
    try_call(&(const struct call){ "the first join", join, true, true });
    check("a session before", have_ring() > 0);
    for (size_t of = 0; of < sizeof kinds / sizeof *kinds; of++) {
        kind = kinds[of];
        for (size_t at = 0; at < sizeof calls / sizeof *calls; at++) try_call(&calls[at]);
    }
    check("a session afterwards", join_own() > 0);
    return conclude("failing");
}
