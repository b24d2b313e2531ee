/* acts MODE [WORD ..]: what programs do whose descriptors, identity or session the tests look at. */
#define _GNU_SOURCE
#include <grp.h>
#include <limits.h>
#include <linux/capability.h>
#include <sched.h>
#include <sys/fsuid.h>
#include <sys/prctl.h>
#include <sys/syscall.h>

#include "check.h"
#include "library/keyretain.h"
#include "keyutils/keyutils.h"

enum { OTHER = 65533, GROUP_MAY_READ = 0x3f3f0200, POSSESSOR_MAY_READ = 0x02000000, FILES = 300 };
enum { HANDED_ON = 200 };

static char **words; /* behind the mode */

static const char *word_of(bool holds) { return holds ? "ok" : strerrorname_np(errno); }

/* The end of its input. */
static void wait_for_end(void) {
    char byte;
    while (read(STDIN_FILENO, &byte, 1) > 0) continue;
}

/* sockets: how many are open. */
static void see_sockets(void) { printf("%d\n", count_sockets()); }

/* identities: asks as another user first, then as root, then as a third one. */
static void take_identities(void) {
    (void)!seteuid(OTHER);
    keyctl_get_keyring_ID(KEY_SPEC_USER_KEYRING, 0);
    (void)!seteuid(0);
    add_key("user", "root-secret", "hunter2", 7, KEY_SPEC_USER_KEYRING);
    (void)!seteuid(OTHER - 1);
    add_key("user", "ticket", "ticket", 6, KEY_SPEC_USER_KEYRING);
}

/* As if another thread took another identity in the midst of root's first call: where the library looks whether it runs
 * set-uid, before it looks for a daemon; where it connects to one; or where it receives an answer. */
static enum { NEVER, LOOKING, CONNECTING, RECEIVING } taken;

static void take_identity(bool is_now) {
    if (is_now) (void)!seteuid(OTHER);
}

unsigned long getauxval(unsigned long type) {
    take_identity(taken == LOOKING);
    return OURS(getauxval)(type);
}

int connect(int end, __CONST_SOCKADDR_ARG address, socklen_t length) {
    take_identity(taken == CONNECTING);
    return OURS(connect)(end, address, length);
}

ssize_t recv(int end, void *room, size_t length, int flags) {
    take_identity(taken == RECEIVING);
    return OURS(recv)(end, room, length, flags);
}

/* meanwhile: a first call in which that is so, and another one. */
static void take_identity_meanwhile(void) {
    taken = LOOKING;
    add_key("user", "root-secret", "hunter2", 7, KEY_SPEC_USER_KEYRING);
    taken = NEVER;
    (void)!seteuid(0);
    add_key("user", "root-secret", "hunter2", 7, KEY_SPEC_USER_KEYRING);
}

/* entered: the same where it receives what the daemon says of the session that its environment names. What is answered
 * then, and what later. */
static void take_identity_entering(void) {
    taken = RECEIVING;
    printf("%s ", word_of(keyctl_get_keyring_ID(KEY_SPEC_SESSION_KEYRING, 0) > 0));
    taken = NEVER;
    (void)!seteuid(0);
    puts(word_of(keyctl_get_keyring_ID(KEY_SPEC_SESSION_KEYRING, 0) > 0));
}

/* held-up: a thread is another user, whose daemon doesn't answer. Meanwhile this one is others, one after the other, as
 * in a server each of whose threads is a client of its own: more than a process remembers. */
static void *ask_as_other(void *unused) {
    (void)!syscall(SYS_setresuid, -1, OTHER, -1);
    keyctl_get_keyring_ID(KEY_SPEC_USER_KEYRING, 0);
    return unused;
}

static void hold_up(void) {
    pthread_t thread;
    time_t begun = time(NULL);
    bool fine = keyctl_get_keyring_ID(KEY_SPEC_USER_KEYRING, 0) > 0;
    pthread_create(&thread, NULL, ask_as_other, NULL);
    usleep(300000);
    for (int i = 1; i <= 8; i++) {
        fine = fine && syscall(SYS_setresuid, -1, 0, -1) == 0 && syscall(SYS_setresuid, -1, OTHER - 1 - i % 4, -1) == 0;
        fine = fine && keyctl_get_keyring_ID(KEY_SPEC_USER_KEYRING, 0) > 0;
    }
    puts(fine && time(NULL) - begun < 5 ? "all are answered" : "held up");
    _exit(0);
}

/* drop: asks as root, is another user for good, and asks again, which no daemon answers. How many sockets are open. */
static void drop_identity(void) {
    bool fine = add_key("user", "root-only", "root-only", 9, KEY_SPEC_USER_KEYRING) > 0 && count_sockets() == 1;
    fine = fine && setgroups(0, NULL) == 0 && setresgid(OTHER, OTHER, OTHER) == 0;
    fine = fine && setresuid(OTHER, OTHER, OTHER) == 0;
    fine = fine && keyctl_get_keyring_ID(KEY_SPEC_USER_KEYRING, 0) < 0;
    printf("%s %d\n", fine ? "dropped" : "not dropped", count_sockets());
}

/* Takes the capability CAP_SETGID anew, which a process loses that is no root any more, but may have. */
static bool have_set_gid(void) {
    struct __user_cap_header_struct head = { .version = _LINUX_CAPABILITY_VERSION_3 };
    struct __user_cap_data_struct sets[_LINUX_CAPABILITY_U32S_3] = {
        { .effective = 1u << CAP_SETGID, .permitted = 1u << CAP_SETGID } };
    return syscall(SYS_capset, &head, sets) == 0;
}

/* drop-groups: asks, has another gid for good, and asks again; then the same with other groups. How many sockets are
 * open after each: what was asked as who one can't be again has ended. */
static void drop_groups(void) {
    const gid_t some[] = { OTHER - 2 };
    bool fine = prctl(PR_SET_KEEPCAPS, 1) == 0 && setgroups(0, NULL) == 0 &&
                setresgid(OTHER, OTHER, OTHER - 1) == 0 && setresuid(OTHER, OTHER, OTHER) == 0;
    fine = fine && keyctl_get_keyring_ID(KEY_SPEC_USER_KEYRING, 0) > 0;
    fine = fine && setresgid(OTHER - 1, OTHER - 1, OTHER - 1) == 0;
    fine = fine && keyctl_get_keyring_ID(KEY_SPEC_USER_KEYRING, 0) > 0;
    printf("%s %d", fine ? "another gid" : "failed", count_sockets());
    fine = fine && have_set_gid() && setgroups(1, some) == 0 && keyctl_get_keyring_ID(KEY_SPEC_USER_KEYRING, 0) > 0;
    printf(", %s %d\n", fine ? "other groups" : "failed", count_sockets());
}

/* The first of 64 groups: of large numbers, where the user namespace has them. */
static gid_t first_group(void) {
    setfsgid(1000000063);
    return setfsgid(0) == 1000000063 ? 1000000000 : 60000;
}

/* group N ALL: root makes a key that a group may read; another user reads it, who has so many groups, of which that is
 * the Nth. */
static void read_by_group(void) {
    gid_t groups[64], first = first_group();
    char byte;
    int nth = atoi(words[0]), count = atoi(words[1]);
    key_serial_t key = add_key("user", "of a group", "x", 1, KEY_SPEC_USER_KEYRING);
    for (int i = 0; i < 64; i++) groups[i] = first + (gid_t)i;
    bool fine = nth <= count && count <= 64 && keyctl_chown(key, (uid_t)-1, groups[nth - 1]) == 0 &&
                keyctl_setperm(key, GROUP_MAY_READ) == 0;
    pid_t child = fork();
    if (child == 0) {
        fine = fine && setgroups((size_t)count, groups) == 0 && setresgid(OTHER, OTHER, OTHER) == 0 &&
               setresuid(OTHER, OTHER, OTHER) == 0;
        puts(fine ? word_of(keyctl_read(key, &byte, 1) == 1) : "failed");
        _exit(0);
    }
    waitpid(child, NULL, 0);
}

/* effective-group: the same by the effective gid alone, while the real one is root's; then by a group, as a server has
 * those of a client, and by none, as it has of the next. */
static void read_by_effective_group(void) {
    const gid_t group = OTHER - 3;
    char byte;
    key_serial_t key = add_key("user", "of a group", "x", 1, KEY_SPEC_USER_KEYRING);
    bool fine = keyctl_chown(key, (uid_t)-1, group) == 0 && keyctl_setperm(key, GROUP_MAY_READ) == 0;
    for (int way = 0; way < 3; way++) {
        fine = fine && seteuid(0) == 0 && setgroups(way == 1, &group) == 0 && setegid(way == 0 ? group : 0) == 0;
        fine = fine && seteuid(OTHER) == 0;
        printf("%s ", fine ? word_of(keyctl_read(key, &byte, 1) == 1) : "failed");
    }
    puts("");
}

/* saved: one user with a process keyring, then another, for whom root's uid is but saved, and the first one again. */
static void come_back_by_saved(void) {
    bool fine = seteuid(OTHER - 1) == 0;
    key_serial_t ring = keyctl_get_keyring_ID(KEY_SPEC_PROCESS_KEYRING, 1);
    fine = fine && ring > 0 && seteuid(0) == 0 && setresuid(OTHER, OTHER, 0) == 0;
    fine = fine && keyctl_get_keyring_ID(KEY_SPEC_USER_KEYRING, 0) > 0 && seteuid(0) == 0 && seteuid(OTHER - 1) == 0;
    puts(fine && keyctl_get_keyring_ID(KEY_SPEC_PROCESS_KEYRING, 0) == ring ? "the same" : "another");
}

/* each: root, and one user after the other, more than a process remembers. The first has a daemon of its own. */
static void ask_as_each(void) {
    bool fine = keyctl_get_keyring_ID(KEY_SPEC_USER_KEYRING, 0) > 0;
    for (int i = 0; i < 6; i++) {
        fine = fine && seteuid(0) == 0 && seteuid((uid_t)(OTHER - i)) == 0;
        fine = fine && keyctl_get_keyring_ID(KEY_SPEC_USER_KEYRING, 0) > 0;
    }
    puts(word_of(fine));
}

/* back: as another user and back: the thread keyring of a second thread is the same. */
static void *see_thread_ring(void *unused) {
    key_serial_t ring = keyctl_get_keyring_ID(KEY_SPEC_THREAD_KEYRING, 1);
    (void)!seteuid(OTHER);
    keyctl_get_keyring_ID(KEY_SPEC_THREAD_KEYRING, 1);
    (void)!seteuid(0);
    puts(ring > 0 && keyctl_get_keyring_ID(KEY_SPEC_THREAD_KEYRING, 0) == ring ? "the same" : "another");
    return unused;
}

static void go_and_come_back(void) { in_thread(see_thread_ring, NULL); }

/* process-one: a connection of process 1 in a child that is process 1 of another namespace. */
static void be_process_one(void) {
    struct kr *connection = kr_open(words[0]);
    int64_t context = connection ? kr_hello(connection, 0, 0, 0, NULL) : -1;
    if (context < 0 || unshare(CLONE_NEWPID) < 0) exit(2);
    pid_t child = fork();
    if (child == 0) {
        printf("%d %s\n", getpid(), word_of(kr_get_id(connection, (uint32_t)context, -4, 0) > 0));
        _exit(0);
    }
    waitpid(child, NULL, 0);
}

/* open NAME MASK: joins a session, gives it this mask, and waits for the end of its input. */
static void open_session(void) {
    bool is_open = keyctl_join_session_keyring(words[0]) > 0 &&
                   keyctl_setperm(KEY_SPEC_SESSION_KEYRING, (key_perm_t)strtoul(words[1], NULL, 16)) == 0;
    puts(word_of(is_open));
    wait_for_end();
}

/* hold NAME: joins a session, tells its serial and that of a key in it, and waits for the end of its input. */
static void hold_session(void) {
    key_serial_t session = keyctl_join_session_keyring(words[0]);
    printf("%d %d\n", session, add_key("user", "held", "s3", 2, KEY_SPEC_SESSION_KEYRING));
    wait_for_end();
}

/* read KEY: reads a key, which only who possesses it may. */
static void read_possessed(void) {
    char buffer[8];
    puts(word_of(keyctl_read(atoi(words[0]), buffer, sizeof buffer) == 2));
}

/* join NAME: joins a session, from a second thread where there is another word. Before that it has one of its own. */
static void *join_now(void *name) {
    key_serial_t before = keyctl_get_keyring_ID(KEY_SPEC_SESSION_KEYRING, 0);
    bool is_joined = keyctl_join_session_keyring(name) > 0;
    printf("%s", word_of(is_joined));
    if (!is_joined && keyctl_get_keyring_ID(KEY_SPEC_SESSION_KEYRING, 0) != before) printf(", and another session");
    puts("");
    return NULL;
}

static void join(void) {
    keyctl_join_session_keyring("before");
    if (words[1])
        in_thread(join_now, words[0]);
    else
        join_now(words[0]);
}

/* refused NAME: enters a session by libkeyretain, which is refused, and goes on. Whose the session keyring is that the
 * context has then. */
static void go_on_refused(void) {
    char text[64] = "";
    unsigned owner = 0;
    struct kr *connection = kr_open(NULL);
    int64_t context = connection ? kr_hello(connection, geteuid(), getegid(), 0, NULL) : -1;
    bool is_refused = context > 0 && kr_enter_session(connection, (uint32_t)context, words[0]) < 0;
    printf("%s, then ", word_of(!is_refused));
    if (kr_describe(connection, (uint32_t)context, KEY_SPEC_SESSION_KEYRING, text, sizeof text - 1) < 0 ||
        sscanf(text, "keyring;%u;", &owner) != 1)
        puts(word_of(false));
    else
        puts(owner == geteuid() ? "its own" : "another's");
    kr_close(connection);
}

/* interrupted NAME: joins a session while a signal comes each two milliseconds. */
static void join_interrupted(void) {
    interrupt_after(2000, 2000);
    bool is_joined = keyctl_join_session_keyring(words[0]) > 0;
    int error = errno;
    interrupt_after(0, 0);
    errno = error;
    printf("%s, %s\n", word_of(is_joined), waitpid(-1, NULL, WNOHANG) < 0 ? "no child" : "a child is left");
}

/* no-memory: joins a session while there is no memory for the environment. Whether the one before is still joined. */
static bool is_environment_full;

int setenv(const char *name, const char *value, int overwrite) {
    if (!is_environment_full) return OURS(setenv)(name, value, overwrite);
    errno = ENOMEM;
    return -1;
}

static void join_without_memory(void) {
    key_serial_t before = keyctl_join_session_keyring("before");
    is_environment_full = true;
    bool is_joined = keyctl_join_session_keyring("after") > 0;
    printf("%s, ", word_of(is_joined));
    puts(keyctl_get_keyring_ID(KEY_SPEC_SESSION_KEYRING, 0) == before ? "the same session" : "another session");
}

/* left: joins a session, then another one, which fails, and a third, and waits for the end of its input. */
static void leave_sessions(void) {
    bool fine = keyctl_join_session_keyring("first") > 0;
    is_environment_full = true;
    fine = fine && keyctl_join_session_keyring("second") < 0;
    is_environment_full = false;
    puts(word_of(fine && keyctl_join_session_keyring("third") > 0));
    wait_for_end();
}

/* later: asks, and again when an hour has passed. */
static time_t passed;

int clock_gettime(clockid_t clock, struct timespec *moment) {
    int told = OURS(clock_gettime)(clock, moment);
    moment->tv_sec += passed;
    return told;
}

static void ask_later(void) {
    printf("%s ", word_of(keyctl_get_keyring_ID(KEY_SPEC_USER_KEYRING, 0) > 0));
    passed = 3600;
    puts(word_of(keyctl_get_keyring_ID(KEY_SPEC_USER_KEYRING, 0) > 0));
}

/* blind: asks while the kernel tells nothing of descriptors. How many sockets are open then. */
static int blind_from = INT_MAX;

int fstat(int descriptor, struct stat *status) {
    if (descriptor < blind_from) return OURS(fstat)(descriptor, status);
    errno = EACCES;
    return -1;
}

static void ask_blindly(void) {
    blind_from = 0;
    bool is_answered = keyctl_get_keyring_ID(KEY_SPEC_USER_KEYRING, 0) > 0;
    printf("%s ", word_of(is_answered));
    blind_from = INT_MAX;
    printf("%d\n", count_sockets());
}

static int count_handed_on(void) {
    int count = 0;
    for (int i = HANDED_ON; i < FILES; i++) count += fcntl(i, F_GETFD) >= 0;
    return count;
}

/* blind-join: joins a session while it tells nothing of those that are handed on. How many more of these are open
 * then. */
static void join_blindly(void) {
    int before = count_handed_on();
    blind_from = HANDED_ON;
    printf("%s ", word_of(keyctl_join_session_keyring("blind") > 0));
    printf("%d\n", count_handed_on() - before);
}

/* again: joins a session, closes all descriptors and has files under their numbers, and joins another one. */
static void join_again(void) {
    struct stat status, each;
    int left = 0;
    bool is_joined = keyctl_join_session_keyring("one") > 0;
    for (int i = STDERR_FILENO + 1; i < FILES; i++) dup2(STDIN_FILENO, i);
    is_joined = is_joined && keyctl_join_session_keyring("two") > 0;
    fstat(STDIN_FILENO, &status);
    for (int i = STDERR_FILENO + 1; i < FILES; i++)
        left += fstat(i, &each) == 0 && each.st_ino == status.st_ino && each.st_dev == status.st_dev;
    printf("%s, %d of %d files left\n", word_of(is_joined), left, FILES - STDERR_FILENO - 1);
}

/* twice: asks, and at the end of its input twice more: the first of these may find that the daemon has gone. */
static void ask_twice(void) {
    puts(word_of(keyctl_get_keyring_ID(KEY_SPEC_USER_KEYRING, 0) > 0));
    wait_for_end();
    for (int i = 0; i < 2; i++) puts(word_of(keyctl_get_keyring_ID(KEY_SPEC_USER_KEYRING, 0) > 0));
}

/* as-other NAME: a root process that is another user for now joins a session, and waits for the end of its input. It
 * holds a signal back and ignores another. */
static void join_as_other(void) {
    hold_back(SIGUSR1);
    signal(SIGUSR2, SIG_IGN);
    (void)!seteuid(OTHER);
    puts(word_of(keyctl_join_session_keyring(words[0]) > 0));
    wait_for_end();
}

/* execute NAME COMMAND ..: joins a session, and executes. */
static void execute(void) {
    if (keyctl_join_session_keyring(words[0]) > 0) execvp(words[1], words + 1);
    puts(word_of(false));
}

/* own COMMAND ..: has a process keyring, and executes. */
static void execute_with_keyring(void) {
    if (add_key("user", "own", "s3", 2, KEY_SPEC_PROCESS_KEYRING) > 0) execvp(words[0], words);
    puts(word_of(false));
}

/* put RING SECONDS: puts a key that expires into a keyring of the user keyring. */
static void put_key(void) {
    key_serial_t ring = (key_serial_t)keyctl_search(KEY_SPEC_USER_KEYRING, "keyring", words[0], 0);
    key_serial_t key = ring > 0 ? add_key("user", "held", "s3", 2, ring) : -1;
    puts(word_of(key > 0 && keyctl_set_timeout(key, (unsigned)atoi(words[1])) == 0));
}

/* hide RING: puts a key there that nobody may look at, its maker neither. */
static void hide_key(void) {
    key_serial_t ring = (key_serial_t)keyctl_search(KEY_SPEC_USER_KEYRING, "keyring", words[0], 0);
    key_serial_t key = ring > 0 ? add_key("user", "hidden", "s3", 2, ring) : -1;
    puts(word_of(key > 0 && keyctl_setperm(key, POSSESSOR_MAY_READ) == 0));
}

/* links RING: how many keys a keyring of the user keyring links. */
static void count_links(void) {
    key_serial_t ring = (key_serial_t)keyctl_search(KEY_SPEC_USER_KEYRING, "keyring", words[0], 0);
    long length = ring > 0 ? keyctl_read(ring, NULL, 0) : -1;
    printf("%ld\n", length < 0 ? -1 : length / 4);
}

/* session: the serial of the session keyring. */
static void see_session(void) {
    key_serial_t ring = keyctl_get_keyring_ID(KEY_SPEC_SESSION_KEYRING, 0);
    if (ring > 0)
        printf("%d\n", ring);
    else
        puts(word_of(false));
}

/* peer PATH: who listens there. */
static void see_peer(void) {
    uint32_t uid, gid;
    int32_t pid;
    struct kr *connection = kr_open_with(words[0], KR_ANY_SERVER, 1000);
    if (connection) {
        kr_peer(connection, &uid, &gid, &pid);
        printf("%u %u %d\n", (unsigned)uid, (unsigned)gid, (int)pid);
    } else {
        puts(word_of(false));
    }
    kr_close(connection);
}

/* ask PATH: one ask of a program that names the path itself. */
static void ask_there(void) {
    struct kr *connection = kr_open(words[0]);
    puts(word_of(connection && kr_hello(connection, geteuid(), getegid(), 0, NULL) >= 0));
    kr_close(connection);
}

/* where: the path of the daemon. */
static void see_path(void) {
    char path[108];
    puts(kr_default_path(path, sizeof path) > 0 ? path : word_of(false));
}

int main(int count, char **given) {
    static const struct {
        const char *name;
        void (*run)(void);
    } modes[] = { { "sockets", see_sockets }, { "identities", take_identities }, { "drop", drop_identity },
                  { "drop-groups", drop_groups }, { "held-up", hold_up }, { "entered", take_identity_entering },
                  { "meanwhile", take_identity_meanwhile }, { "group", read_by_group }, { "back", go_and_come_back },
                  { "effective-group", read_by_effective_group }, { "each", ask_as_each },
                  { "saved", come_back_by_saved }, { "process-one", be_process_one }, { "open", open_session },
                  { "hold", hold_session }, { "read", read_possessed }, { "join", join }, { "refused", go_on_refused },
                  { "interrupted", join_interrupted }, { "no-memory", join_without_memory }, { "blind", ask_blindly },
                  { "blind-join", join_blindly }, { "left", leave_sessions }, { "later", ask_later },
                  { "again", join_again }, { "twice", ask_twice }, { "as-other", join_as_other },
                  { "execute", execute },
                  { "own", execute_with_keyring }, { "put", put_key }, { "hide", hide_key }, { "links", count_links },
                  { "session", see_session }, { "peer", see_peer }, { "ask", ask_there }, { "where", see_path } };
    if (count < 2) return 2;
    words = given + 2;
    setlinebuf(stdout);
    for (size_t i = 0; i < sizeof modes / sizeof *modes; i++)
        if (strcmp(given[1], modes[i].name) == 0) modes[i].run();
    return 0;
}
