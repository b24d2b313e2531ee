/* life: what libkeyutils.so.1 does where threads, forks, exec, closed descriptors and other identities come in. Wants a
 * daemon with some ten lanes. Run again by itself as `life after SESSION KEY`. */
#define _GNU_SOURCE
#include "check.h"
#include "keyutils/keyutils.h"

enum { AT_ONCE = 300, ALIVE = 1000, STACK = 1 << 16, CONTEXTS = 64, IN_TURN = 200, FORKS = 30, HAMMERS = 4, FILES = 300,
      OTHER_UID = 1001 };
enum { LONG = 5000 };

static key_serial_t process_key, thread_ring;
static const char *scratch_file;

/* ---- Threads ---- */

static bool has_no_key(const char *description) { return refused(request_key("user", description, NULL, 0), ENOKEY); }

static void *see_from_thread(void *unused) {
    char buffer[8];
    check("a thread finds the process's key",
          request_key("user", "of process", NULL, 0) == process_key && keyctl_read(process_key, buffer, 8) == 2);
    check("a thread doesn't find another's key", has_no_key("of thread"));
    check("a thread makes a keyring of its own", add_key("user", "own", "x", 1, KEY_SPEC_THREAD_KEYRING) > 0 &&
          keyctl_get_keyring_ID(KEY_SPEC_THREAD_KEYRING, 0) != thread_ring);
    return unused;
}

static void try_keyrings(void) {
    process_key = add_key("user", "of process", "s3", 2, KEY_SPEC_PROCESS_KEYRING);
    thread_ring = keyctl_get_keyring_ID(KEY_SPEC_THREAD_KEYRING, 1);
    check("keys of the process and the thread",
          process_key > 0 && thread_ring > 0 && add_key("user", "of thread", "s3", 2, KEY_SPEC_THREAD_KEYRING) > 0);
    in_thread(see_from_thread, NULL);
    check("the key of a thread that has ended is gone", has_no_key("own"));
}

static pthread_barrier_t all_have_asked;
static int with_context, over_quota;

static void *ask_once(void *barrier) {
    long key = add_key("user", "mine", "x", 1, KEY_SPEC_THREAD_KEYRING);
    if (key > 0) __atomic_add_fetch(&with_context, 1, __ATOMIC_SEQ_CST);
    if (refused(key, EDQUOT)) __atomic_add_fetch(&over_quota, 1, __ATOMIC_SEQ_CST);
    if (barrier) pthread_barrier_wait(barrier);
    return NULL;
}

static int answered;

static void *ask_beside(void *unused) {
    if (keyctl_get_keyring_ID(KEY_SPEC_USER_KEYRING, 0) > 0) __atomic_add_fetch(&answered, 1, __ATOMIC_SEQ_CST);
    pthread_barrier_wait(&all_have_asked);
    return unused;
}

/* Threads that have no keyring of their own share a context. */
static void try_living_threads(void) {
    static pthread_t threads[ALIVE];
    pthread_attr_t small;
    pthread_attr_init(&small);
    pthread_attr_setstacksize(&small, STACK);
    pthread_barrier_init(&all_have_asked, NULL, ALIVE);
    for (int i = 0; i < ALIVE; i++) pthread_create(&threads[i], &small, ask_beside, NULL);
    for (int i = 0; i < ALIVE; i++) pthread_join(threads[i], NULL);
    check("1000 threads that live at one time are all answered", answered == ALIVE);
    pthread_barrier_destroy(&all_have_asked);
}

static void try_many_threads(void) {
    pthread_t threads[AT_ONCE];
    pthread_barrier_init(&all_have_asked, NULL, AT_ONCE);
    for (int i = 0; i < AT_ONCE; i++) pthread_create(&threads[i], NULL, ask_once, &all_have_asked);
    for (int i = 0; i < AT_ONCE; i++) pthread_join(threads[i], NULL);
    check("300 threads at once: as many have a keyring as have contexts beside this thread's and the shared one",
          with_context == CONTEXTS - 2 && over_quota == AT_ONCE - with_context);
    with_context = 0;
    for (int i = 0; i < IN_TURN; i++) in_thread(ask_once, NULL);
    check("200 threads one after the other all have one", with_context == IN_TURN);
    pthread_barrier_destroy(&all_have_asked);
}

/* Sessions of a thread's own, one after the other: more than contexts. */
static void *join_often(void *unused) {
    char name[32];
    int joined = 0;
    for (int i = 0; i < CONTEXTS + 6; i++) {
        snprintf(name, sizeof name, "of a thread, %d", i);
        joined += keyctl_join_session_keyring(name) > 0;
    }
    check("a thread joins 70 sessions", joined == CONTEXTS + 6);
    return unused;
}

/* ---- Forks ---- */

static int is_stopped;

static void *hammer(void *unused) {
    long asks = 0;
    while (!__atomic_load_n(&is_stopped, __ATOMIC_SEQ_CST) && keyctl_get_keyring_ID(KEY_SPEC_PROCESS_KEYRING, 0) > 0)
        asks++;
    return (void *)asks;
}

/* The status of a child that runs this. */
static int in_child(bool (*run)(key_serial_t, key_serial_t), key_serial_t session, key_serial_t key) {
    int status;
    pid_t child = fork();
    if (child == 0) {
        alarm(60);
        _exit(run(session, key) ? 0 : 1);
    }
    return waitpid(child, &status, 0) == child ? status : -1;
}

static bool sees_session(key_serial_t session, key_serial_t key) {
    char buffer[8];
    return keyctl_get_keyring_ID(KEY_SPEC_SESSION_KEYRING, 0) == session && keyctl_read(key, buffer, 8) == 3 &&
           refused(keyctl_get_keyring_ID(KEY_SPEC_PROCESS_KEYRING, 0), ENOKEY) &&
           add_key("user", "of child", "x", 1, KEY_SPEC_PROCESS_KEYRING) > 0;
}

static bool forks_again(key_serial_t session, key_serial_t key) { return in_child(sees_session, session, key) == 0; }

static void try_forks(key_serial_t session, key_serial_t key) {
    pthread_t threads[HAMMERS];
    char buffer[8];
    int fine = 0;
    for (int i = 0; i < HAMMERS; i++) pthread_create(&threads[i], NULL, hammer, NULL);
    for (int i = 0; i < FORKS; i++) fine += in_child(sees_session, session, key) == 0;
    check("forks while threads ask: a connection of its own, the same session, no process keyring", fine == FORKS);
    __atomic_store_n(&is_stopped, 1, __ATOMIC_SEQ_CST);
    for (int i = 0; i < HAMMERS; i++) {
        void *asks;
        pthread_join(threads[i], &asks);
        check("a thread that asks while others fork", (long)asks > 0);
    }
    check("the parent's process keyring is as it was", keyctl_read(process_key, buffer, 8) == 2);
    check("a child of a child that never asked", in_child(forks_again, session, key) == 0);
}

/* ---- Descriptors ---- */

static int open_descriptors(void) {
    int count = 0;
    for (int i = 3; i < FILES; i++) count += fcntl(i, F_GETFD) >= 0;
    return count;
}

/* Whether a program that closes all its descriptors, and opens files under their numbers, finds them as they were. */
static bool leaves_files_alone(void) {
    for (int i = 3; i < FILES; i++) close(i);
    for (int i = 3; i < FILES; i++) open(scratch_file, O_RDWR | O_CREAT, 0600);
    bool asks = keyctl_get_keyring_ID(KEY_SPEC_USER_KEYRING, 0) > 0;
    for (int i = 3; i < FILES; i++) close(i);
    int file = open(scratch_file, O_RDONLY);
    return asks && lseek(file, 0, SEEK_END) == 0;
}

static int descriptors_of_parent;

/* The parent's connection would else stay as long as its child. */
static bool has_no_connection(key_serial_t session, key_serial_t key) {
    return open_descriptors() == descriptors_of_parent - 1;
}

static bool closes_all(key_serial_t session, key_serial_t key) { return leaves_files_alone(); }

static bool asks_and_closes_all(key_serial_t session, key_serial_t key) {
    return sees_session(session, key) && leaves_files_alone();
}

/* How many sockets a program that is executed would have. */
static int inherited_sockets(void) {
    struct stat status;
    int count = 0;
    for (int i = 0; i < FILES; i++)
        count += fstat(i, &status) == 0 && S_ISSOCK(status.st_mode) && !(fcntl(i, F_GETFD) & FD_CLOEXEC);
    return count;
}

/* What a program writes to a standard output that it has closed must not go to the daemon; nor is the daemon's
 * connection for what the program executes. */
static bool closes_from(int first, key_serial_t key) {
    char buffer[8];
    for (int i = first; i <= STDERR_FILENO; i++) close(i);
    int before = inherited_sockets();
    bool asks = keyctl_read(key, buffer, sizeof buffer) == 3 &&
                add_key("user", "kept", "x", 1, KEY_SPEC_PROCESS_KEYRING) > 0; /* with it the connection */
    for (int i = first; i <= STDERR_FILENO; i++) asks = asks && fcntl(i, F_GETFD) < 0;
    return asks && inherited_sockets() == before;
}

static bool closes_standard(key_serial_t session, key_serial_t key) { return closes_from(STDIN_FILENO, key); }

static bool closes_error(key_serial_t session, key_serial_t key) { return closes_from(STDERR_FILENO, key); }

static void try_descriptors(key_serial_t session, key_serial_t key) {
    descriptors_of_parent = open_descriptors();
    check("a child hasn't its parent's connection open", in_child(has_no_connection, session, key) == 0);
    check("numbers that are used for something else: the files are untouched", in_child(closes_all, session, key) == 0);
    check("closed standard descriptors are not used", in_child(closes_standard, session, key) == 0);
    check("nor is one of them alone", in_child(closes_error, session, key) == 0);
    check("the same after the child has asked", in_child(asks_and_closes_all, session, key) == 0);
}

/* ---- Buffers ---- */

/* keyctl_describe(3): nothing is put where there is no room for all of it, nor behind the buffer. */
static void try_room(key_serial_t key) {
    char text[256];
    long length = keyctl_describe(key, NULL, 0);
    memset(text, 'x', sizeof text);
    check("describe with a byte less than it takes", keyctl_describe(key, text, (size_t)length - 1) == length);
    check("puts nothing behind that", text[length - 1] == 'x' && text[length] == 'x');
    check("describe with room", keyctl_describe(key, text, (size_t)length) == length);
    check("puts a null byte at its end", text[length - 1] == '\0' && text[length] == 'x');
    memset(text, 'x', sizeof text);
    length = keyctl_read(key, text, sizeof text);
    check("read puts nothing behind a payload", length > 0 && text[length - 1] != 'x' && text[length] == 'x');
}

/* keyctl_read_alloc(3): all of a payload, whatever its length. */
static void try_long_payload(void) {
    static char payload[LONG];
    void *read = NULL;
    for (size_t i = 0; i < LONG; i++) payload[i] = (char)(i * 7);
    key_serial_t key = add_key("user", "long", payload, LONG, KEY_SPEC_SESSION_KEYRING);
    int length = keyctl_read_alloc(key, &read);
    check("a long payload is read whole", length == LONG && memcmp(read, payload, LONG) == 0);
    free(read);
}

/* ---- Identities ---- */

static void try_identities(void) {
    char buffer[8];
    key_serial_t before = keyctl_get_keyring_ID(KEY_SPEC_USER_KEYRING, 0);
    if (geteuid() != 0) {
        puts("skipped: other identities: not run by root");
        return;
    }
    for (int i = 0; i < 100; i++) { /* more than contexts: each that is forgotten has ended */
        check("seteuid", seteuid((uid_t)(OTHER_UID + i)) == 0);
        key_serial_t other = keyctl_get_keyring_ID(KEY_SPEC_USER_KEYRING, 0);
        check("another user has another user keyring", other > 0 && other != before);
        check("and not the first one's rights", refused(keyctl_read(process_key, buffer, 8), EACCES));
        check("nor its session", refused(keyctl_get_keyring_ID(KEY_SPEC_SESSION_KEYRING, 0), EKEYREVOKED));
        check("seteuid back", seteuid(0) == 0);
        if (i > 0) continue;
        check("back again the process keyring is there", keyctl_read(process_key, buffer, 8) == 2);
        check("and the user keyring", keyctl_get_keyring_ID(KEY_SPEC_USER_KEYRING, 0) == before);
    }
}

/* ---- Exec ---- */

static int after_exec(key_serial_t session, key_serial_t key) {
    char buffer[8];
    check("exec: the same session", keyctl_get_keyring_ID(KEY_SPEC_SESSION_KEYRING, 0) == session);
    check("exec: a key of the session", keyctl_read(key, buffer, 8) == 3);
    check("exec: no process keyring", refused(keyctl_get_keyring_ID(KEY_SPEC_PROCESS_KEYRING, 0), ENOKEY));
    check("revoke the session", keyctl_revoke(KEY_SPEC_SESSION_KEYRING) == 0);
    check("a revoked session", refused(keyctl_get_keyring_ID(KEY_SPEC_SESSION_KEYRING, 0), EKEYREVOKED));
    return conclude("life after exec");
}

int main(int count, char **words) {
    char session_word[16], key_word[16];
    if (count == 4 && strcmp(words[1], "after") == 0) return after_exec(atoi(words[2]), atoi(words[3]));
    if (count != 2) return 2;
    scratch_file = words[1];
    int before = open_descriptors();
    try_keyrings();
    check("a process has one descriptor", open_descriptors() == before + 1);
    try_many_threads();
    try_living_threads();
    in_thread(join_often, NULL);
    key_serial_t session = keyctl_join_session_keyring("life");
    key_serial_t key = add_key("user", "of session", "abc", 3, KEY_SPEC_SESSION_KEYRING);
    check("a session", session > 0 && key > 0);
#ifdef __SANITIZE_THREAD__ /* it has a thread of its own: so the library leaves the environment alone */
    char named[32];
    snprintf(named, sizeof named, "%d:life", session);
    setenv("KEYRETAIN_SESSION", named, 1);
#endif
    try_forks(session, key);
    try_descriptors(session, key);
    try_room(key);
    try_long_payload();
    try_identities();
    if (conclude("life") != 0) return 1;
    snprintf(session_word, sizeof session_word, "%d", session);
    snprintf(key_word, sizeof key_word, "%d", key);
    execl("/proc/self/exe", words[0], "after", session_word, key_word, (char *)NULL);
    return 9;
}
