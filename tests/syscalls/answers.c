/* answers [executed SERIAL]: calls whose answers are known, a line each: on the kernel's keyrings and on keyretaind
 * they must be those of answers.text. It needs no library, and is linked statically too. */
#define _GNU_SOURCE
#include <sys/mman.h>

#include "calls.h"

enum { PAGE = 4096, MOST = 32767, THREADS = 8, LOOKS = 2000 };

static const char *const user = "user";
static char *page, *read_only, *large; /* a page with none behind it; one that can't be written */
static char *half_written;             /* two pages, of which the first can be written */
static char buffer[256];

/* ---- Lines ---- */

static const char *error_name(int error) {
    static const struct {
        int error;
        const char *name;
    } names[] = { { EFAULT, "EFAULT" }, { EINVAL, "EINVAL" }, { ENOKEY, "ENOKEY" }, { EPERM, "EPERM" },
                  { EACCES, "EACCES" }, { EDQUOT, "EDQUOT" }, { ENODEV, "ENODEV" }, { EINTR, "EINTR" },
                  { EOPNOTSUPP, "EOPNOTSUPP" }, { EKEYREVOKED, "EKEYREVOKED" }, { ENOSYS, "ENOSYS" } };
    for (size_t i = 0; i < sizeof names / sizeof *names; i++)
        if (names[i].error == error) return names[i].name;
    return strerror(error);
}

/* What was answered as a number, or the error. */
static void number(const char *what, long answer) {
    if (answer < 0)
        printf("%s: %s\n", what, error_name(errno));
    else
        printf("%s: %ld\n", what, answer);
}

/* The same of what answers a serial, which is another one each time. */
static void serial(const char *what, long answer) {
    if (answer > 0)
        printf("%s: a serial\n", what);
    else
        number(what, answer);
}

static void holds(const char *what, bool holds) { printf("%s: %s\n", what, holds ? "yes" : "no"); }

/* ---- Pointers and lengths ---- */

static void make_memory(void) {
    char *two = mmap(NULL, 2 * PAGE, PROT_READ | PROT_WRITE, MAP_PRIVATE | MAP_ANONYMOUS, -1, 0);
    read_only = mmap(NULL, PAGE, PROT_READ, MAP_PRIVATE | MAP_ANONYMOUS, -1, 0);
    half_written = mmap(NULL, 2 * PAGE, PROT_READ | PROT_WRITE, MAP_PRIVATE | MAP_ANONYMOUS, -1, 0);
    if (half_written == MAP_FAILED || mprotect(half_written + PAGE, PAGE, PROT_READ) < 0) exit(2);
    large = malloc(2 * 1024 * 1024);
    if (two == MAP_FAILED || read_only == MAP_FAILED || !large || munmap(two + PAGE, PAGE) < 0) exit(2);
    page = two;
    memset(page, 'd', PAGE);
    memset(large, 'x', 2 * 1024 * 1024);
}

static void try_reading(long key) {
    number("read", read_key(key, buffer, sizeof buffer));
    holds("what was read is the payload", memcmp(buffer, "payload", 7) == 0);
    memset(buffer, '#', sizeof buffer);
    number("read with too little room", read_key(key, buffer, 3));
    holds("then nothing is put there", memcmp(buffer, "########", 8) == 0);
    number("read without a buffer", read_key(key, NULL, 0));
    number("read to an address that isn't there", read_key(key, (void *)16, 100));
    number("read to a page that can't be written", read_key(key, read_only, 100));
    number("read over the end of what can be written", read_key(key, half_written + PAGE - 3, 7));
    number("read over the end of a page", read_key(key, page + PAGE - 3, 7));
    number("read up to the end of a page", read_key(key, page + PAGE - 7, 7));
    memset(page, 'd', PAGE);
    number("read of no key", read_key(0x7ffffff0, buffer, sizeof buffer));
}

static void try_adding(void) {
    const int ring = KEY_SPEC_PROCESS_KEYRING;
    number("a type that isn't there", add_key((void *)1, "k", "p", 1, ring));
    number("no type", add_key(NULL, "k", "p", 1, ring));
    number("an empty type", add_key("", "k", "p", 1, ring));
    number("a type of the kernel's own", add_key(".x", "k", "p", 1, ring));
    number("a type that nobody has", add_key("nobody", "k", "p", 1, ring));
    number("a type of 31 bytes", add_key("userxxxxxxxxxxxxxxxxxxxxxxxxxxx", "k", "p", 1, ring));
    number("a type of 32 bytes", add_key("userxxxxxxxxxxxxxxxxxxxxxxxxxxxx", "k", "p", 1, ring));
    number("a payload that isn't there", add_key(user, "k", (void *)1, 10, ring));
    number("a payload over the end of a page", add_key(user, "k", page + PAGE - 5, 10, ring));
    serial("a payload up to the end of a page", add_key(user, "k", page + PAGE - 5, 5, ring));
    number("no payload", add_key(user, "k", NULL, 0, ring));
    number("a payload of no length", add_key(user, "k", "p", 0, ring));
    number("a payload at no address", add_key(user, "k", NULL, 5, ring));
    number("an empty description", add_key(user, "", "p", 1, ring));
    number("a keyring with a payload", add_key("keyring", "k", "p", 1, ring));
    number("a ring that isn't there", add_key(user, "k", "p", 1, 0x7ffffff0));
    number("a ring with no meaning", add_key(user, "k", "p", 1, -77));
}

static void try_lengths(void) {
    const int ring = KEY_SPEC_PROCESS_KEYRING;
    page[PAGE - 1] = '\0';
    serial("a description that ends with its page", add_key(user, page, "p", 1, ring));
    page[PAGE - 1] = 'd';
    number("a description that fills its page", add_key(user, page, "p", 1, ring));
    number("a description over the end of its page", add_key(user, page + 9, "p", 1, ring));
    number("a description that has no end", add_key(user, large, "p", 1, ring));
    long most = add_key(user, "most", large, MOST, ring);
    serial("a payload of 32767 bytes", most);
    memset(large, 0, 40000);
    number("read it", read_key(most, large, 100000));
    holds("all of it", large[0] == 'x' && large[MOST - 1] == 'x' && large[MOST] == 0);
    number("a payload of 32768 bytes", add_key(user, "more", large, MOST + 1, ring));
    number("a payload of 65536 bytes", add_key(user, "more", large, 65536, ring));
    number("a payload of 100000 bytes", add_key(user, "more", large, 100000, ring));
    number("a payload of a mebibyte less one", add_key(user, "more", large, 1024 * 1024 - 1, ring));
    number("a payload of a mebibyte", add_key(user, "more", large, 1024 * 1024, ring));
    number("a payload that is as long as memory", add_key(user, "more", large, ~0ul, ring));
    number("a longer one, and a type that isn't there", add_key((void *)1, "more", large, 1024 * 1024, ring));
}

static void try_update(long key) {
    number("update with a page", keyctl(KEYCTL_UPDATE, (unsigned long)key, (unsigned long)page, PAGE, 0));
    number("update", keyctl(KEYCTL_UPDATE, (unsigned long)key, (unsigned long)"payload", 7, 0));
    number("update with what isn't there", keyctl(KEYCTL_UPDATE, (unsigned long)key, 1, 7, 0));
    number("update at no address", keyctl(KEYCTL_UPDATE, (unsigned long)key, 0, 7, 0));
    number("update with more than a page", keyctl(KEYCTL_UPDATE, (unsigned long)key, 1, PAGE + 1, 0));
}

static void try_finding(long key) {
    const unsigned long ring = (unsigned long)(long)KEY_SPEC_PROCESS_KEYRING;
    holds("request_key finds it", request_key(user, "key", NULL, 0) == key);
    number("request_key of none", request_key(user, "none", NULL, 0));
    number("request_key with what isn't there", request_key(user, (void *)1, NULL, 0));
    number("request_key without a description", request_key(user, NULL, NULL, 0));
    number("request_key with call-out information that isn't there", request_key(user, "none", (void *)1, 0));
    holds("search finds it", keyctl(KEYCTL_SEARCH, ring, (unsigned long)user, (unsigned long)"key", 0) == key);
    number("search of none", keyctl(KEYCTL_SEARCH, ring, (unsigned long)user, (unsigned long)"none", 0));
    number("search with what isn't there", keyctl(KEYCTL_SEARCH, ring, 1, (unsigned long)"none", 0));
    number("a command that isn't there", keyctl(77, 0, 0, 0, 0));
    number("a command below 0", keyctl(-1, 0, 0, 0, 0));
    number("capabilities", keyctl(KEYCTL_CAPABILITIES, (unsigned long)buffer, 8, 0, 0));
    holds("with those", (buffer[0] & 0x80) != 0);
    memset(buffer, 0x55, 8);
    number("capabilities with room for more", keyctl(KEYCTL_CAPABILITIES, (unsigned long)buffer, 6, 0, 0));
    holds("zeros behind them", buffer[2] == 0 && buffer[5] == 0 && buffer[6] == 0x55);
    number("capabilities to an address that isn't there", keyctl(KEYCTL_CAPABILITIES, 16, 8, 0, 0));
    number("capabilities with room for more than there is",
           keyctl(KEYCTL_CAPABILITIES, (unsigned long)page, ~0ul / 4, 0, 0));
}

static void try_describing(long key) {
    char *mask;
    memset(buffer, 0, sizeof buffer);
    long length = keyctl(KEYCTL_DESCRIBE, (unsigned long)key, (unsigned long)buffer, sizeof buffer, 0);
    holds("describe counts the null byte", length > 0 && strlen(buffer) + 1 == (size_t)length);
    mask = strstr(buffer, "3f");
    printf("describe: user, %s\n", strncmp(buffer, "user;", 5) == 0 && mask ? mask : buffer);
    number("describe to an address that isn't there", keyctl(KEYCTL_DESCRIBE, (unsigned long)key, 16, 100, 0));
    number("a choice of keyring", keyctl(KEYCTL_SET_REQKEY_KEYRING, KEY_REQKEY_DEFL_USER_KEYRING, 0, 0, 0));
    number("and which that was", keyctl(KEYCTL_SET_REQKEY_KEYRING, (unsigned long)-1L, 0, 0, 0));
    number("a choice that can't be", keyctl(KEYCTL_SET_REQKEY_KEYRING, KEY_REQKEY_DEFL_GROUP_KEYRING, 0, 0, 0));
    number("one below all", keyctl(KEYCTL_SET_REQKEY_KEYRING, (unsigned long)-2L, 0, 0, 0));
    number("another that can't be", keyctl(KEYCTL_SET_REQKEY_KEYRING, 99, 0, 0, 0));
    number("the choice goes back", keyctl(KEYCTL_SET_REQKEY_KEYRING, 0, 0, 0, 0));
}

/* ---- Threads and processes ---- */

struct rings {
    long thread, process;
};

static void *ask_in_thread(void *data) {
    struct rings *rings = data;
    rings->thread = ring_of(KEY_SPEC_THREAD_KEYRING, 1);
    rings->process = ring_of(KEY_SPEC_PROCESS_KEYRING, 0);
    return NULL;
}

/* A thread keyring is gone a while after its thread. */
static bool is_gone(long ring) {
    for (int look = 0; look < LOOKS; look++) {
        if (keyctl(KEYCTL_DESCRIBE, (unsigned long)ring, 0, 0, 0) < 0) return true;
        usleep(5000);
    }
    return false;
}

static void try_threads(void) {
    pthread_t threads[THREADS];
    struct rings rings[THREADS];
    bool own = true, shared = true;
    long process = ring_of(KEY_SPEC_PROCESS_KEYRING, 0);
    for (int i = 0; i < THREADS; i++)
        if (pthread_create(&threads[i], NULL, ask_in_thread, &rings[i]) != 0) exit(2);
    for (int i = 0; i < THREADS; i++) {
        pthread_join(threads[i], NULL);
        shared = shared && rings[i].process == process;
        for (int j = 0; j <= i; j++) own = own && (j == i ? rings[i].thread > 0 : rings[i].thread != rings[j].thread);
    }
    holds("each thread has a keyring of its own", own);
    holds("they share that of the process", shared);
    holds("a thread keyring ends with its thread", is_gone(rings[0].thread));
}

static bool has_no_process_keyring(long unused) {
    return ring_of(KEY_SPEC_PROCESS_KEYRING, 0) == -1 && errno == ENOKEY;
}

static bool joins_its_own(long session) {
    long joined = join(NULL);
    return joined > 0 && joined != session && ring_of(KEY_SPEC_SESSION_KEYRING, 0) == joined;
}

/* Its parent's is another one from the parent's next return from the kernel on. */
static bool gives_its_own(long unused) { return join(NULL) > 0 && keyctl(KEYCTL_SESSION_TO_PARENT, 0, 0, 0, 0) == 0; }

/* A child that was forked before its parent joins has the session of before. */
static void try_order(long before, long *after) {
    int turn[2];
    char byte;
    if (pipe(turn) < 0) exit(2);
    pid_t child = fork();
    if (child == 0) _exit(read(turn[0], &byte, 1) == 1 && has_session(before) ? 0 : 1);
    *after = join(NULL);
    holds("another session is joined", *after > 0 && *after != before);
    holds("the child goes on", write(turn[1], "", 1) == 1);
    holds("a child that was forked before a join has the session of before", status_of(child) == 0);
    holds("one that was forked after it has the new one", child_says(has_session, *after));
}

/* Forks twice, so that its parent is gone when it asks. */
static long orphan_session(void) {
    int answer[2];
    long session = -1;
    if (pipe(answer) < 0) exit(2);
    pid_t child = fork();
    if (child == 0) {
        pid_t between = getpid();
        if (fork() != 0) _exit(0);
        while (getppid() == between) usleep(1000);
        session = ring_of(KEY_SPEC_SESSION_KEYRING, 0);
        _exit(write(answer[1], &session, sizeof session) == sizeof session ? 0 : 1);
    }
    status_of(child);
    return read(answer[0], &session, sizeof session) == sizeof session ? session : -1;
}

static void try_processes(char *program) {
    char text[32];
    long session = ring_of(KEY_SPEC_SESSION_KEYRING, 0), joined;
    holds("a child has no process keyring", child_says(has_no_process_keyring, 0));
    holds("a child has the session", child_says(has_session, session));
    holds("a child joins one of its own", child_says(joins_its_own, session));
    holds("and the parent's stays", has_session(session));
    try_order(session, &joined);
    holds("an orphan has the session", orphan_session() == joined);
    number("a name that is too long", join(large + 100000));
    number("a name that isn't there", join((char *)1));
    holds("a refused one changes nothing", has_session(joined));
    holds("a child gives its parent a session", child_says(gives_its_own, 0));
    holds("then the parent's is another", !has_session(joined));
    snprintf(text, sizeof text, "%ld", ring_of(KEY_SPEC_SESSION_KEYRING, 0));
    fflush(stdout);
    execl("/proc/self/exe", program, "executed", text, (char *)NULL);
    exit(2);
}

int main(int count, char **words) {
    if (count == 3) {
        holds("what is executed has no process keyring", has_no_process_keyring(0));
        holds("what is executed has the session", has_session(atol(words[2])));
        return 0;
    }
    make_memory();
    if (join(NULL) < 0) perror("join");
    long key = add_key(user, "key", "payload", 7, KEY_SPEC_PROCESS_KEYRING);
    serial("add_key", key);
    holds("the same again is the same key", add_key(user, "key", "payload", 7, KEY_SPEC_PROCESS_KEYRING) == key);
    try_reading(key);
    try_adding();
    try_lengths();
    try_update(key);
    try_finding(key);
    try_describing(key);
    try_threads();
    try_processes(words[0]);
}
