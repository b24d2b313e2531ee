/* tree-many.c: of the program tree: processes and threads that ask at one time, and one after the other. */
#define _GNU_SOURCE
#include "tree.h"

int answers[2], gates[2];

/* ---- Many that live at one time ---- */

void give(long value) {
    const struct answer answer = { value, errno };
    if (write(answers[1], &answer, sizeof answer) != sizeof answer) _exit(2);
}

void wait_at_gate(void) {
    char byte;
    close(gates[1]);
    if (read(gates[0], &byte, 1) < 0) _exit(2);
}

/* The last that a child does: behind the second it lives until the gate is opened. */
void end_with(long value) {
    give(value);
    _exit(0);
}

void live_on(long value) {
    give(value);
    wait_at_gate();
    _exit(0);
}

/* As one whose mode is told where to give its answers. */
void execute_to_give(const char *file, const char *mode) {
    char number[16];
    snprintf(number, sizeof number, "%d", answers[1]);
    execl(file, "tree", mode, number, (char *)NULL);
    _exit(2);
}

struct answer take(void) {
    struct answer answer;
    if (read(answers[0], &answer, sizeof answer) != sizeof answer) exit(2);
    return answer;
}

void begin(void) {
    if (pipe(answers) < 0 || pipe(gates) < 0) exit(2);
}

/* Children that answer the serial of a keyring, and live until all have; then once more. */
static int ask_in_processes(int count, int id) {
    int served = 0, refused = 0, kept = 0;
    long first[MOST];
    begin();
    for (int i = 0; i < count; i++)
        if (fork() == 0) {
            give(ring_of(id, 1));
            wait_at_gate();
            end_with(ring_of(id, 0));
        }
    for (int i = 0; i < count; i++) {
        struct answer answer = take();
        if (answer.value > 0) first[served++] = answer.value;
        if (answer.value < 0 && answer.error == EDQUOT) refused++;
    }
    close(gates[1]);
    for (int i = 0; i < count; i++) {
        struct answer answer = take();
        bool is_kept = false;
        for (int j = 0; j < served; j++) is_kept = is_kept || answer.value == first[j];
        kept += is_kept;
    }
    while (wait(NULL) > 0) continue;
    printf("served %s, refused %s, kept %s, then %s\n", served == count ? "all" : served >= 40 ? "40 or more" : "few",
           served + refused == count ? "the others by EDQUOT" : "otherwise", kept == served ? "all" : "not all",
           ring_of(id, 1) > 0 ? "served" : "refused");
    return 0;
}

/* ---- Many of another user that ask in a loop ---- */

enum { CALLS = 9 };

static int compare(const void *one, const void *other) {
    unsigned long left = *(const unsigned long *)one, right = *(const unsigned long *)other;
    return (left > right) - (left < right);
}

/* How many of their calls are answered while one of this process is: in the middle of some. */
static int ask_beside(int count, bool joins) {
    unsigned long *answered = mmap(NULL, sizeof *answered, PROT_READ | PROT_WRITE, MAP_SHARED | MAP_ANONYMOUS, -1, 0);
    unsigned long between[CALLS];
    begin();
    for (int i = 0; i < count; i++)
        if (fork() == 0) {
            become_nobody();
            give(0);
            close(gates[1]);
            for (struct pollfd gate = { .fd = gates[0], .events = POLLIN }; poll(&gate, 1, 0) == 0;) {
                if (joins)
                    join(NULL);
                else
                    ring_of(KEY_SPEC_PROCESS_KEYRING, 0);
                __atomic_add_fetch(answered, 1, __ATOMIC_RELAXED);
            }
            _exit(0);
        }
    for (int i = 0; i < count; i++) take();
    while (__atomic_load_n(answered, __ATOMIC_RELAXED) < (unsigned long)count / 10) usleep(LOOK_MICROSECONDS);
    for (int i = 0; i < CALLS; i++) {
        unsigned long before = __atomic_load_n(answered, __ATOMIC_RELAXED);
        if (ring_of(KEY_SPEC_SESSION_KEYRING, 0) <= 0) return 2;
        between[i] = __atomic_load_n(answered, __ATOMIC_RELAXED) - before;
    }
    close(gates[1]);
    while (wait(NULL) > 0) continue;
    qsort(between, CALLS, sizeof *between, compare);
    if (between[CALLS / 2] > (unsigned long)count / 10) printf("%lu: ", between[CALLS / 2]);
    puts(between[CALLS / 2] <= (unsigned long)count / 10 ? "few" : "many");
    return 0;
}

static int read_often(int count) {
    static const char payload[] = "a secret as long as eight links.";
    char room[sizeof payload];
    int fine = 0;
    long key = add_key("user", "read", payload, sizeof payload - 1, KEY_SPEC_SESSION_KEYRING);
    for (int i = 0; i < count; i++) fine += read_key(key, room, sizeof room) == sizeof payload - 1;
    return puts(fine == count ? "read" : "not read") < 0;
}

/* ---- Threads ---- */

static pthread_barrier_t barrier;
static int thread_id, create = 1;

static void *ask_in_thread(void *data) {
    struct answer *answer = data;
    answer->value = ring_of(thread_id, create);
    answer->error = errno;
    pthread_barrier_wait(&barrier);
    return NULL;
}

static int ask_in_threads(int count, int id) {
    pthread_t threads[MOST];
    struct answer given[MOST];
    int served = 0, refused = 0, twice = 0;
    thread_id = id;
    pthread_barrier_init(&barrier, NULL, (unsigned)count);
    for (int i = 0; i < count; i++)
        if (pthread_create(&threads[i], NULL, ask_in_thread, &given[i]) != 0) return 2;
    for (int i = 0; i < count; i++) pthread_join(threads[i], NULL);
    for (int i = 0; i < count; i++) {
        if (given[i].value > 0) served++;
        if (given[i].value < 0 && given[i].error == EDQUOT) refused++;
        for (int j = 0; j < i; j++) twice += given[i].value > 0 && given[i].value == given[j].value;
    }
    printf("served %s, refused %s, %s\n", served == count ? "all" : served >= 40 ? "40 or more" : "few",
           served + refused == count ? "the others by EDQUOT" : "otherwise",
           twice == 0 ? "each its own" : "one for all");
    return 0;
}

/* Each names its thread keyring, which isn't there: all can have a context one after the other. */
static int name_in_threads(int count) {
    pthread_t threads[MOST];
    struct answer given[MOST];
    int none = 0, refused = 0;
    thread_id = KEY_SPEC_THREAD_KEYRING;
    create = 0;
    pthread_barrier_init(&barrier, NULL, (unsigned)count);
    for (int i = 0; i < count; i++)
        if (pthread_create(&threads[i], NULL, ask_in_thread, &given[i]) != 0) return 2;
    for (int i = 0; i < count; i++) {
        pthread_join(threads[i], NULL);
        none += given[i].error == ENOKEY;
        refused += given[i].error == EDQUOT;
    }
    printf("%s, others by EDQUOT: %d\n", none + refused == count ? "none there" : "something else", refused);
    return 0;
}

static void *join_in_thread(void *data) {
    struct answer *answer = data;
    answer->value = join(NULL);
    answer->error = ring_of(KEY_SPEC_SESSION_KEYRING, 0) != answer->value;
    return NULL;
}

/* A thread joins a session: the first one, and what it forks, are in the old one still. */
static int join_in_thread_alone(void) {
    long before = ring_of(KEY_SPEC_SESSION_KEYRING, 0);
    struct answer joined;
    pthread_t thread;
    if (pthread_create(&thread, NULL, join_in_thread, &joined) != 0 || pthread_join(thread, NULL) != 0) return 2;
    bool is_alone = has_session(before), is_inherited = child_says(has_session, before);
    printf("%s, the first thread %s, its child %s\n",
           joined.value > 0 && joined.value != before && !joined.error ? "joined" : "not joined",
           is_alone ? "as before" : "elsewhere", is_inherited ? "as before" : "elsewhere");
    return 0;
}

/* ---- One after the other ---- */

static bool has_ring(long id) { return ring_of((int)id, 1) > 0; }

static int ask_in_sequence(int count) {
    int wrong = 0;
    for (int i = 0; i < count; i++) wrong += !child_says(has_ring, KEY_SPEC_PROCESS_KEYRING);
    return printf("%d wrong\n", wrong) < 0;
}

static bool joins(long unused) { return join(NULL) > 0; }

/* Sessions that end at once: of processes that end, and of one that joins others. */
static int join_in_sequence(int count) {
    int wrong = 0;
    for (int i = 0; i < count / 2; i++) wrong += !child_says(joins, 0);
    for (int i = 0; i < count / 2; i++) wrong += join(NULL) < 0;
    return printf("%d wrong\n", wrong) < 0;
}

/* A chain of children, of which none has asked. The last says which session it has after its first ancestor has joined
 * another, which gets no tag, as its hard limit is too low for that: then the nearest above tells. */
static void fork_chain(int count) {
    while (count > 0 && fork() == 0) count--;
    if (count == 0) {
        give(0);
        wait_at_gate();
        give(ring_of(KEY_SPEC_SESSION_KEYRING, 0));
    }
    close(gates[1]);
    wait(NULL);
    _exit(0);
}

/* Whether a process keyring that may not be searched is kept beside others. */
static int hide_keyring(int count) {
    const unsigned long own = (unsigned long)(long)KEY_SPEC_PROCESS_KEYRING;
    long kept = ring_of(KEY_SPEC_PROCESS_KEYRING, 1);
    begin();
    keyctl(KEYCTL_SETPERM, own, 0x37010000, 0, 0);
    for (int i = 0; i < count; i++)
        if (fork() == 0) live_on(ring_of(KEY_SPEC_PROCESS_KEYRING, 1));
    for (int i = 0; i < count; i++) take();
    keyctl(KEYCTL_SETPERM, own, 0x3f010000, 0, 0);
    puts(ring_of(KEY_SPEC_PROCESS_KEYRING, 0) == kept ? "kept" : "gone");
    close(gates[1]);
    while (wait(NULL) > 0) continue;
    return 0;
}

static int fork_deep(int count) {
    const struct rlimit none = { 0, 0 };
    long session = ring_of(KEY_SPEC_SESSION_KEYRING, 0);
    if (setrlimit(RLIMIT_LOCKS, &none) < 0) return 2;
    begin();
    pid_t child = fork();
    if (child == 0) {
        if (fork() == 0) fork_chain(count);
        take();
        long joined = join(NULL);
        close(gates[1]);
        _exit(joined > 0 && joined != session && take().value == joined ? 0 : 1);
    }
    close(gates[1]);
    puts(status_of(child) == 0 ? "that of the nearest above" : "another session");
    return 0;
}

/* A process whose hard limit is its tag joins one session after another. Not each has a tag that it may bear. */
static int join_with_low_limit(int count) {
    struct rlimit limit;
    int wrong = getrlimit(RLIMIT_LOCKS, &limit) < 0;
    limit.rlim_max = limit.rlim_cur;
    wrong += setrlimit(RLIMIT_LOCKS, &limit) < 0;
    for (int i = 0; i < count; i++) {
        long joined = join(NULL);
        wrong += joined < 0 || !child_says(has_session, joined);
    }
    return printf("%d wrong\n", wrong) < 0;
}

int many_modes(const char *mode, int many, int count, char **words) {
    if (strcmp(mode, "processes") == 0) return ask_in_processes(many, KEY_SPEC_SESSION_KEYRING);
    if (strcmp(mode, "keyrings") == 0) return ask_in_processes(many, KEY_SPEC_PROCESS_KEYRING);
    if (strcmp(mode, "threads") == 0) return ask_in_threads(many, KEY_SPEC_SESSION_KEYRING);
    if (strcmp(mode, "reads") == 0) return read_often(many);
    if (strcmp(mode, "beside") == 0) return ask_beside(many, count > 3);
    if (strcmp(mode, "thread-keyrings") == 0) return ask_in_threads(many, KEY_SPEC_THREAD_KEYRING);
    if (strcmp(mode, "sequence") == 0) return ask_in_sequence(many);
    if (strcmp(mode, "naming") == 0) return name_in_threads(many);
    if (strcmp(mode, "sessions") == 0) return join_in_sequence(many);
    if (strcmp(mode, "thread-joins") == 0) return join_in_thread_alone();
    if (strcmp(mode, "deep") == 0) return fork_deep(many);
    if (strcmp(mode, "unsearched") == 0) return hide_keyring(many);
    if (strcmp(mode, "low-limit") == 0) return join_with_low_limit(many);
    return -1;
}
