/* tree-users.c: of the program tree: processes that become another user's, and those below them. */
#define _GNU_SOURCE
#include <linux/securebits.h>
#include <pthread.h>

#include "tree.h"

enum { EVERYBODY_ALL = 0x3f3f3f3f };

/* ---- Other users, whose limits a supervisor may not read ---- */

void become_nobody(void) {
    if (setgroups(0, NULL) < 0 || setresgid(NOBODY, NOBODY, NOBODY) < 0 || setresuid(NOBODY, NOBODY, NOBODY) < 0)
        _exit(2);
}

/* The serial of the session, or 0 where the user-session keyring is in its place. */
long own_session(void) {
    long session = ring_of(KEY_SPEC_SESSION_KEYRING, 0);
    return session > 0 && session == ring_of(KEY_SPEC_USER_SESSION_KEYRING, 0) ? 0 : session;
}

/* Whether a session is this one, or none, or is none that can be used. */
static int tell_session(struct answer found, long wanted) {
    return puts(found.value == wanted                              ? "the same"
                : found.value == 0                                 ? "the user's"
                : found.value < 0 && found.error == EKEYREVOKED ? "lost"
                                                                   : "another") < 0;
}

/* A process that has not asked yet and is another user's; then its parent joins a session of its own. */
static int join_late(void) {
    long before = ring_of(KEY_SPEC_SESSION_KEYRING, 0);
    begin();
    if (fork() == 0) {
        become_nobody();
        give(0);
        wait_at_gate();
        end_with(own_session());
    }
    take();
    if (join(NULL) < 0) return 2;
    close(gates[1]);
    return tell_session(take(), before);
}

/* A process joins a session and leaves a child behind that has not asked yet and is another user's. That is given to
 * an ancestor who has a session of its own. */
static int leave_to_other(void) {
    if (prctl(PR_SET_CHILD_SUBREAPER, 1, 0, 0, 0) < 0 || join(NULL) < 0) return 2;
    begin();
    pid_t child = fork();
    if (child == 0) {
        long joined = join(NULL);
        pid_t parent = getpid();
        if (fork() == 0) {
            become_nobody();
            while (getppid() == parent) usleep(LOOK_MICROSECONDS);
            give(own_session());
        } else {
            give(joined);
        }
        _exit(0);
    }
    long joined = take().value;
    status_of(child);
    return tell_session(take(), joined);
}

/* Two other users' processes have all process keyrings that they get, and each a session too where it joins one. Then
 * new processes of this one ask, whose user keyring has a key. */
static int crowd(int count, bool joins) {
    int served = 0, refused = 0;
    if (add_key("user", "own", "x", 1, KEY_SPEC_USER_KEYRING) < 0) return 2;
    begin();
    for (int i = 0; i < count; i++) {
        if (fork() == 0) {
            if (setuid(NOBODY + (uid_t)(i > count - 20)) < 0) _exit(2);
            live_on(joins && join(NULL) < 0 ? -1 : ring_of(KEY_SPEC_PROCESS_KEYRING, 1));
        }
        served += take().value > 0;
    }
    for (int i = 0; i < 10; i++) {
        pid_t child = fork();
        if (child == 0) _exit(ring_of(KEY_SPEC_USER_KEYRING, 0) < 0);
        refused += status_of(child) != 0;
    }
    close(gates[1]);
    while (wait(NULL) > 0) continue;
    return printf("%s served, %d refused\n", served == count ? "all" : served > 0 ? "some" : "none", refused) < 0;
}

/* Whether another user's key is there still, which it has left in its user keyring, or leaves there. */
static bool is_left(bool leaves) {
    pid_t child = fork();
    if (child > 0) return status_of(child) == 0;
    become_nobody();
    if (leaves) _exit(add_key("user", "left", "x", 1, KEY_SPEC_USER_KEYRING) < 0);
    _exit(find(KEY_SPEC_USER_KEYRING, "left") < 0);
}

/* It ends, and this user has many processes that ask: each in another group where they differ. */
static int leave_key(int count, bool differ) {
    if (!is_left(true)) return 2;
    begin();
    for (int i = 0; i < count; i++)
        if (fork() == 0) live_on(differ && setgid(NOBODY + (gid_t)i) < 0 ? -1 : ring_of(KEY_SPEC_PROCESS_KEYRING, 0));
    for (int i = 0; i < count; i++) take();
    puts(is_left(false) ? "kept" : "gone");
    close(gates[1]);
    return 0;
}

/* Whether a session stays that a tag alone holds, while another user leaves the supervisor no descriptors. */
static int outlast(void) {
    begin();
    pid_t child = fork();
    if (child == 0) {
        become_nobody();
        prctl(PR_SET_DUMPABLE, 1); /* as behind an execve(2) */
        if (join(NULL) < 0 || add_key("user", "kept", "x", 1, KEY_SPEC_SESSION_KEYRING) < 0) _exit(2);
        if (fork() != 0) _exit(0);
        sleep(6); /* some sweeps */
        end_with(find(KEY_SPEC_SESSION_KEYRING, "kept") > 0);
    }
    if (status_of(child) != 0) return 2;
    for (int i = 0; i < 200; i++)
        if (fork() == 0) {
            if (setuid(NOBODY + 1) < 0 || keyctl(KEYCTL_SET_REQKEY_KEYRING, 1, 0, 0, 0) < 0) _exit(0);
            sleep(4);
            _exit(0);
        }
    puts(take().value ? "kept" : "gone");
    return 0;
}

static long add_numbered(long number) {
    char name[24];
    snprintf(name, sizeof name, "%ld", number);
    return add_key("user", name, "x", 1, KEY_SPEC_USER_KEYRING);
}

static int add_many(long count) {
    for (long at = 0; at < count; at++)
        if (add_numbered(at) < 0) return 2;
    return 0;
}

/* Waits until what is to happen meanwhile has happened. */
static void meet(const char *ready, const char *go) {
    close(open(ready, O_WRONLY));
    close(open(go, O_RDONLY));
}

/* Adds keys, and waits until the daemon is another one. The last one's serial. */
static long outlast_daemon(long keys, const char *ready, const char *go) {
    long made = -1;
    for (long at = 0; at < keys || (made < 0 && at < MOST); at++) made = add_numbered(at);
    meet(ready, go);
    return made;
}

/* The highest serial in the user keyring, where another supervisor has put keys. */
static long outlast_with_link(const char *ready, const char *go) {
    int32_t links[MOST] = { 0 };
    long highest = -1, length;
    meet(ready, go);
    length = keyctl(KEYCTL_READ, (unsigned long)(long)KEY_SPEC_USER_KEYRING, (unsigned long)links, sizeof links, 0);
    for (long at = 0; at < length / 4; at++) highest = links[at] > highest ? links[at] : highest;
    meet(ready, go);
    return highest;
}

/* A program of two uids begins sessions, and waits so. The last one's serial. */
static long outlast_with_session(const char *ready, const char *go) {
    long joined = -1;
    if (setresuid(NOBODY, NOBODY + 1, NOBODY + 1) < 0) _exit(2);
    for (int i = 0; i < 9; i++) joined = join(NULL);
    meet(ready, go);
    return joined;
}

/* A user keeps a serial of the second of three daemons, the first of which has told the most. Then another user has it
 * told: what it names is that user's, and open to all. Or a program of two uids keeps the serial of the session that it
 * had, of the first of two daemons, and its real user has it told. Or root has only read it in a keyring. */
static int keep_serial(const char *ready, const char *go, const char *what) {
    bool is_session = strcmp(what, "session") == 0, is_link = strcmp(what, "link") == 0;
    begin();
    pid_t keeper = fork();
    if (keeper == 0) {
        if (!is_session && !is_link) become_nobody();
        if (!is_session && !is_link) outlast_daemon(9, ready, go);
        long kept = is_session ? outlast_with_session(ready, go)
                    : is_link  ? outlast_with_link(ready, go) : outlast_daemon(1, ready, go);
        give(kept);
        wait_at_gate();
        bool is_told = keyctl(KEYCTL_UPDATE, (unsigned long)kept, (unsigned long)"y", 1, 0) == 0;
        _exit(puts(is_told ? "told" : strerrorname_np(errno)) < 0 || fflush(stdout) != 0);
    }
    long kept = take().value;
    pid_t child = fork();
    if (child == 0 && setuid(is_session ? NOBODY : NOBODY + 1) == 0)
        for (long made = 0, at = 0; made < kept && at < MOST; at++) {
            made = add_numbered(at);
            keyctl(KEYCTL_SETPERM, (unsigned long)made, EVERYBODY_ALL, 0, 0);
        }
    if (child == 0) _exit(0);
    status_of(child);
    close(gates[1]);
    return status_of(keeper);
}

/* Whether a key that is all that the user-session keyring has is kept, when no process that has asked is left. */
static int keep_in_session(void) {
    pid_t child = fork();
    if (child == 0) {
        become_nobody();
        keyctl(KEYCTL_UNLINK, (unsigned long)(long)KEY_SPEC_USER_KEYRING,
               (unsigned long)(long)KEY_SPEC_USER_SESSION_KEYRING, 0, 0);
        _exit(add_key("user", "kept", "x", 1, KEY_SPEC_USER_SESSION_KEYRING) < 0);
    }
    if (status_of(child) != 0) return 2;
    sleep(8); /* some sweeps */
    if ((child = fork()) == 0) {
        become_nobody();
        _exit(find(KEY_SPEC_USER_SESSION_KEYRING, "kept") < 0);
    }
    return puts(status_of(child) == 0 ? "kept" : "gone") < 0;
}

static void *live_as_nobody(void *unused) {
    (void)unused;
    live_on(syscall(SYS_setresuid, NOBODY, NOBODY, NOBODY)); /* for this thread alone */
    return NULL;
}

/* A key is left, and a process of its user lives that asks nothing, or a thread of another's process. So many
 * identities leave a key each and end: one after another, or all at the end. */
static int flood(int count, bool stays, bool is_thread) {
    pthread_t thread;
    begin();
    if (fork() == 0) {
        if (is_thread && pthread_create(&thread, NULL, live_as_nobody, NULL) == 0) pthread_join(thread, NULL);
        become_nobody();
        live_on(0);
    }
    if (take().value != 0 || !is_left(true)) return 2;
    for (int i = 0; i < count; i++) {
        pid_t child = fork();
        bool is_other = child == 0 && setuid(NOBODY + 1 + (uid_t)i) == 0;
        if (child == 0) {
            give(is_other ? add_key("user", "a", "x", 1, KEY_SPEC_USER_KEYRING) : -1);
            if (stays) wait_at_gate();
            _exit(0);
        }
        take();
        if (!stays) status_of(child);
    }
    puts(is_left(false) ? "kept" : "gone");
    close(gates[1]);
    while (wait(NULL) > 0) {}
    return 0;
}

/* What was judged of a process holds no more once it has another saved uid, or a user namespace of its own. */
static int judge_anew(void) {
    long before = ring_of(KEY_SPEC_SESSION_KEYRING, 0);
    if (before <= 0 || setresuid((uid_t)-1, (uid_t)-1, NOBODY) < 0) return 2;
    bool is_lost = ring_of(KEY_SPEC_SESSION_KEYRING, 0) < 0 && errno == EKEYREVOKED;
    if (setresuid((uid_t)-1, (uid_t)-1, 0) < 0) return 2;
    printf("%s, then %s, ", is_lost ? "lost" : "kept", has_session(before) ? "back" : "gone");
    become_nobody();
    bool has_own = ring_of(KEY_SPEC_SESSION_KEYRING, 0) > 0;
    if (unshare(CLONE_NEWUSER) < 0) return 2;
    is_lost = ring_of(KEY_SPEC_SESSION_KEYRING, 0) < 0 && errno == EKEYREVOKED;
    return puts(has_own && is_lost ? "lost" : "kept") < 0;
}

/* A payload in a page of this file, and once more; then a call without one. */
static int ask_of_page(const char *path) {
    int file = open(path, O_RDONLY);
    const void *page = mmap(NULL, PAGE, PROT_READ, MAP_PRIVATE, file, 0);
    for (int i = 0; i < 2; i++)
        printf("%s, then ", add_key("user", "a", page, PAGE, KEY_SPEC_PROCESS_KEYRING) < 0 ? strerror(errno) : "added");
    puts(ring_of(KEY_SPEC_PROCESS_KEYRING, 1) > 0 ? "served" : "refused");
    return 0;
}

/* One who logs another user in joins a session for it; then many processes of a third user ask. */
static int log_in_beside(int count) {
    long joined = setresuid(NOBODY, 0, 0) < 0 ? -1 : join(NULL);
    begin();
    for (int i = 0; i < count; i++)
        if (fork() == 0) {
            live_on(setresuid(NOBODY + 1, NOBODY + 1, NOBODY + 1) < 0 ? -1 : ring_of(KEY_SPEC_PROCESS_KEYRING, 0));
        }
    for (int i = 0; i < count; i++) take();
    bool is_in = ring_of(KEY_SPEC_SESSION_KEYRING, 0) == joined;
    bool revokes = keyctl(KEYCTL_REVOKE, (unsigned long)joined, 0, 0, 0) == 0;
    puts(is_in && revokes ? "revoked" : is_in ? "not revoked" : "lost");
    close(gates[1]);
    return 0;
}

/* A process joins a session, and a child of it becomes another user. */
static int become_other(void) {
    begin();
    long joined = join(NULL);
    if (joined < 0) return 2;
    if (fork() == 0) {
        become_nobody();
        end_with(own_session());
    }
    return tell_session(take(), joined);
}

static bool set_soft_limit(rlim_t soft) {
    struct rlimit limit;
    if (getrlimit(RLIMIT_LOCKS, &limit) < 0) return false;
    limit.rlim_cur = soft;
    return setrlimit(RLIMIT_LOCKS, &limit) == 0;
}

/* Takes the tag that another process has, of which everybody is told. */
void copy_tag(pid_t process) {
    char path[64], line[256];
    unsigned long long soft = 0;
    snprintf(path, sizeof path, "/proc/%d/limits", (int)process);
    FILE *limits = fopen(path, "r");
    while (limits && fgets(line, sizeof line, limits) && sscanf(line, "Max file locks %llu", &soft) != 1) continue;
    if (limits) fclose(limits);
    if (soft == 0 || !set_soft_limit(soft)) _exit(2);
}

/* Another user's process takes the tag of one that has joined a session, for a child. */
static void take_tag(pid_t other) {
    become_nobody();
    give(0);
    wait_at_gate();
    copy_tag(other);
    if (fork() == 0) end_with(ring_of(KEY_SPEC_SESSION_KEYRING, 0));
    wait(NULL);
    _exit(0);
}

static int take_others_tag(void) {
    pid_t other = getpid();
    begin();
    if (fork() == 0) take_tag(other);
    take();
    long joined = join(NULL);
    if (joined < 0) return 2;
    close(gates[1]);
    return puts(take().value == joined ? "let in" : "kept out") < 0;
}

/* The same of a program that runs set-uid, which that user has started. */
static int take_set_uid_tag(const char *file) {
    begin();
    pid_t program = fork();
    if (program == 0) {
        close(gates[1]);
        become_nobody();
        execute_to_give(file, "joins");
    }
    long joined = take().value;
    if (fork() == 0) take_tag(program);
    take();
    close(gates[1]);
    int status = joined <= 0 ? 2 : puts(take().value == joined ? "let in" : "kept out") < 0;
    kill(program, SIGKILL);
    return status;
}

/* ---- What a process finds below it that it hasn't forked since ---- */

/* Another user's child makes one more child of its own parent, or leaves one to it. */
static void leave_to_parent(pid_t parent, bool is_orphan) {
    const unsigned long flags = is_orphan ? SIGCHLD : CLONE_PARENT | SIGCHLD;
    if (syscall(SYS_clone, flags, 0, 0, 0, 0) != 0) _exit(0);
    while (getppid() != parent) usleep(LOOK_MICROSECONDS);
}

/* That takes the tag of the parent, or of nobody, and says which session it has. */
static void follow(pid_t parent, bool is_orphan, bool copies) {
    if (fork() != 0) return;
    if (geteuid() == 0) become_nobody();
    wait_at_gate();
    leave_to_parent(parent, is_orphan);
    if (copies)
        copy_tag(parent);
    else if (!set_soft_limit(0))
        _exit(2);
    end_with(ring_of(KEY_SPEC_SESSION_KEYRING, 0));
}

static int tell_followers(long joined) {
    int in = 0;
    close(gates[1]);
    for (int i = 0; i < 2; i++) in += take().value == joined;
    return puts(in == 0 ? "kept out" : "let in") < 0;
}

/* Below root, which then joins a session of its own. */
static int follow_root(bool is_orphan) {
    pid_t parent = getpid();
    begin();
    if (prctl(PR_SET_CHILD_SUBREAPER, is_orphan, 0, 0, 0) < 0) return 2;
    for (int copies = 0; copies < 2; copies++) follow(parent, is_orphan, copies);
    return tell_followers(join(NULL));
}

/* Below a program that runs set-uid, which the same process has executed then. */
static int follow_set_uid(const char *file, bool is_orphan) {
    begin();
    pid_t child = fork();
    if (child == 0) {
        become_nobody();
        if (prctl(PR_SET_CHILD_SUBREAPER, is_orphan, 0, 0, 0) < 0) _exit(2);
        for (int copies = 0; copies < 2; copies++) follow(getpid(), is_orphan, copies);
        close(gates[1]);
        execute_to_give(file, "joins");
    }
    long joined = take().value;
    int status = joined > 0 ? tell_followers(joined) : 2;
    kill(child, SIGKILL);
    return status;
}

static int join_and_give(int to) {
    answers[1] = to;
    give(geteuid() == 0 ? join(NULL) : -1);
    return pause();
}

/* Many children of another user, of which every other one ends while their parent joins a session: lists of children
 * leave some out then. */
static int join_among(int count) {
    pid_t parent = getpid();
    int in = 0;
    begin();
    signal(SIGCHLD, SIG_IGN);
    for (int i = 0; i < count; i++) {
        if (fork() != 0) continue;
        become_nobody();
        if (i % 2 == 0) {
            usleep((useconds_t)(500 + i) * 1000);
            _exit(0);
        }
        wait_at_gate();
        copy_tag(parent);
        end_with(ring_of(KEY_SPEC_SESSION_KEYRING, 0));
    }
    usleep(550000);
    long joined = join(NULL);
    close(gates[1]);
    for (int i = 0; i < count / 2; i++) in += take().value == joined && joined > 0;
    return printf("%s, %d let in\n", joined > 0 ? "joined" : "refused", in) < 0;
}

/* As a login does: root joins a session as the user, or with that one's uid as its real one, is root again, and starts
 * the user's program. */
static int log_in(bool is_real) {
    begin();
    if (fork() == 0) {
        uid_t same = (uid_t)-1;
        long joined = (is_real ? setreuid(NOBODY, same) : seteuid(NOBODY)) == 0 ? join(NULL) : -1;
        if (joined < 0 || (is_real ? setreuid(0, same) : seteuid(0)) < 0) _exit(2);
        if (fork() == 0) {
            become_nobody();
            give(joined);
            give(own_session());
        }
        wait(NULL);
        _exit(0);
    }
    long joined = take().value;
    return tell_session(take(), joined);
}

/* Another user, who may become this one again. */
static void change_to(uid_t uid) {
    if (prctl(PR_SET_SECUREBITS, SECBIT_NO_SETUID_FIXUP, 0, 0, 0) < 0 || setresuid(uid, uid, uid) < 0 ||
        prctl(PR_SET_DUMPABLE, 1, 0, 0, 0) < 0)
        _exit(2);
}

/* Asks as root, as another user, and as root again, who gives the session to the parent. */
static void ask_as_two(void) {
    give(ring_of(KEY_SPEC_SESSION_KEYRING, 0));
    wait_at_gate();
    change_to(NOBODY);
    give(ring_of(KEY_SPEC_SESSION_KEYRING, 0));
    wait_at_gate();
    change_to(0);
    end_with(keyctl(KEYCTL_SESSION_TO_PARENT, 0, 0, 0, 0));
}

/* A child asks in two sessions of two users, of which each is the only one to have the first meanwhile. */
static int come_back(void) {
    long first = join(NULL), second;
    begin();
    if (fork() == 0) ask_as_two();
    bool was_in = take().value == first;
    change_to(NOBODY);
    second = join(NULL);
    if (first < 0 || second < 0 || write(gates[1], "", 1) != 1) return 2;
    was_in = was_in && take().value == second;
    sleep(4); /* a session ends some seconds after its last process */
    change_to(0);
    if (join(NULL) < 0 || write(gates[1], "", 1) != 1) return 2;
    struct answer given = take();
    bool is_same = ring_of(KEY_SPEC_SESSION_KEYRING, 0) == first;
    return printf("%s, %s\n", !was_in ? "in others" : given.value == 0 ? "given" : strerror(given.error),
                  is_same ? "the first one" : "another") < 0;
}

/* A user takes the name of a session first, and opens that to all; then words are executed. */
static int take_name(const char *name, uid_t uid, char **words) {
    begin();
    if (fork() == 0) {
        if (uid != geteuid()) become_nobody();
        long joined = join(name);
        live_on(joined < 0 ? -1 : keyctl(KEYCTL_SETPERM, (unsigned long)joined, EVERYBODY_ALL, 0, 0));
    }
    if (take().value != 0) return 2; /* it has the name as long as the words have the gate */
    execvp(*words, words);
    return 2;
}

/* The name and the owner of the session's keyring. */
static int print_whose(void) {
    char name[64] = "";
    unsigned owner = 0;
    if (sscanf(text_of(KEY_SPEC_SESSION_KEYRING), "keyring;%u;%*u;%*x;%63s", &owner, name) != 2)
        return puts(strerror(errno)) < 0;
    return printf("%s %u\n", name, owner) < 0;
}

static long give_key(uid_t uid) {
    long key = add_key("user", "given", "x", 1, KEY_SPEC_THREAD_KEYRING);
    return keyctl(KEYCTL_CHOWN, (unsigned long)key, uid, (unsigned long)-1, 0);
}

/* Joins a session that isn't joined in time, and tells whether it is in another user's then. */
static int join_too_late(const char *name) {
    unsigned owner = getuid();
    const char *refusal = join(name) < 0 ? strerrorname_np(errno) : "joined";
    sleep(3);
    sscanf(text_of(KEY_SPEC_SESSION_KEYRING), "keyring;%u", &owner);
    return printf("%s, %s\n", refusal, owner == getuid() ? "in no other" : "in another user's") < 0;
}

/* Executes words in a session of its own. */
static int execute_in_session(char **words) {
    if (join(NULL) > 0) execvp(*words, words);
    return 2;
}

static int print_mask(void) {
    unsigned owner, mask;
    describe(KEY_SPEC_SESSION_KEYRING, &owner, &mask);
    return printf("%08x\n", mask) < 0;
}

int users_modes(const char *mode, int many, int count, char **words) {
    if (strcmp(mode, "late") == 0) return join_late();
    if (strcmp(mode, "left-to-other") == 0) return leave_to_other();
    if (strcmp(mode, "login") == 0) return log_in(count == 3 && strcmp(words[2], "real") == 0);
    if (strcmp(mode, "becomes-other") == 0) return become_other();
    if (strcmp(mode, "comes-back") == 0) return come_back();
    if (strcmp(mode, "crowd") == 0) return crowd(many, count == 4);
    if (strcmp(mode, "login-beside") == 0) return log_in_beside(many);
    if (strcmp(mode, "left-key") == 0) return leave_key(many, count == 4);
    if (strcmp(mode, "flood") == 0) return flood(many, count > 3, count > 4);
    if (strcmp(mode, "judged-anew") == 0) return judge_anew();
    if (strcmp(mode, "page") == 0 && count > 2) return ask_of_page(words[2]);
    if (strcmp(mode, "kept-in-session") == 0) return keep_in_session();
    if (strcmp(mode, "outlast") == 0) return outlast();
    if (strcmp(mode, "kept-serial") == 0 && count > 3)
        return keep_serial(words[2], words[3], count > 4 ? words[4] : "");
    if (strcmp(mode, "numbered") == 0) return add_many(many);
    if (strcmp(mode, "copied") == 0) return take_others_tag();
    if (strcmp(mode, "copied-set-uid") == 0 && count == 3) return take_set_uid_tag(words[2]);
    if (strcmp(mode, "follows") == 0 && count == 3) return follow_root(strcmp(words[2], "orphan") == 0);
    if (strcmp(mode, "follows") == 0 && count == 4) return follow_set_uid(words[3], strcmp(words[2], "orphan") == 0);
    if (strcmp(mode, "joins") == 0) return join_and_give(many);
    if (strcmp(mode, "among") == 0) return join_among(many);
    if (strcmp(mode, "taken") == 0 && count > 4) return take_name(words[2], (uid_t)atol(words[3]), words + 4);
    if (strcmp(mode, "mask") == 0) return print_mask();
    if (strcmp(mode, "whose") == 0) return print_whose();
    if (strcmp(mode, "whose-joined") == 0) return join(count > 2 ? words[2] : NULL) < 0 ? 2 : print_whose();
    if (strcmp(mode, "gives") == 0) return puts(give_key((uid_t)many) < 0 ? strerror(errno) : "given") < 0;
    if (strcmp(mode, "joins-late") == 0 && count == 3) return join_too_late(words[2]);
    if (strcmp(mode, "joining") == 0 && count > 2) return execute_in_session(words + 2);
    return -1;
}
