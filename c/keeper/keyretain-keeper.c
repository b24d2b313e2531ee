/* keyretain-keeper: makes a session of keyretaind and holds it as long as a pipe is open. See keyretain-keeper(8).
 *
 * It is executed by who has a session, with the ids of the session's user and nothing else: so its memory and its
 * descriptors have nothing of the program that started it, and what that program hands on is a pipe and no
 * connection. */
#include "library/session.h"

#include "common/listener.h"

enum { REFUSED = 1, USAGE = 2, NO_CONNECTION = 3 };
enum { PATIENCE_MILLISECONDS = 10000, LONGEST_PATIENCE = 999999, LOOK_MILLISECONDS = 1000 };
enum { RESTART_MILLISECONDS = 2000, STEP_MILLISECONDS = 100 };
enum { SERIAL_WIDTH = 4, DECIMAL = 10 };

static const char usage[] =
    "usage: keyretain-keeper [--name NAME] [--socket PATH] [--patience MILLISECONDS]\n"
    "                        [--no-link] [--deaf]\n"
    "       keyretain-keeper --hold RING [--socket PATH] [--patience MILLISECONDS]\n";
static const char help[] =
    "\nMakes a session of keyretaind and holds it until descriptor 0, a pipe, ends.\n"
    "It says which on descriptor 1.\n\n"
    "  --name NAME              the session of this name; without it a new one\n"
    "  --hold RING              no session, but this keyring of the user keyring,\n"
    "                           while it has keys\n"
    "  --socket PATH            the daemon's socket\n"
    "  --patience MILLISECONDS  how long the daemon may take, 1 to 999999; else 10000\n"
    "  --no-link                doesn't link the user keyring\n"
    "  --deaf                   reads nothing of the pipe\n"
    "  -h, --help               prints this\n"
    "  --version                prints the version\n";

struct options {
    const char *name, *ring, *socket, *patience;
    int milliseconds;
    bool is_deaf, links_user;
};

/* ---- Words ---- */

static void refuse_words(const char *why, const char *word) {
    fprintf(stderr, "%skeyretain-keeper: %s: %s\n", usage, why, word);
    exit(USAGE);
}

/* A line of the answer holds a name, so none may have an end of line in it. */
static struct options read_options(char **words) {
    struct options options = { .milliseconds = PATIENCE_MILLISECONDS, .links_user = true };
    for (; *words; words++) {
        const char **value = NULL;
        if (strcmp(*words, "--deaf") == 0)
            options.is_deaf = true;
        else if (strcmp(*words, "--no-link") == 0)
            options.links_user = false;
        else
            value = strcmp(*words, "--name") == 0       ? &options.name
                    : strcmp(*words, "--hold") == 0     ? &options.ring
                    : strcmp(*words, "--patience") == 0 ? &options.patience
                    : strcmp(*words, "--socket") == 0   ? &options.socket
                                                        : (refuse_words("no option", *words), NULL);
        if (!value) continue;
        if (!words[1] || !*words[1] || strchr(words[1], '\n')) refuse_words("a value of one line must follow", *words);
        *value = *++words;
    }
    if (options.name && options.ring) refuse_words("either --name or --hold", options.name);
    if (options.patience) options.milliseconds = (int)number_in(options.patience, DECIMAL, 1, LONGEST_PATIENCE);
    if (options.milliseconds < 0) refuse_words("--patience is 1 to 999999", options.patience);
    return options;
}

/* ---- What is said on descriptor 1 ---- */

static struct kr_where where; /* the daemon is */

static void say(int status, const char *kind, const char *what) {
    bool is_daemons = *where.path && (status == NO_CONNECTION || errno == EDQUOT);
    const char *next = is_daemons ? kr_advise(&where, errno) : NULL;
    const char *between = next ? ": " : "";
    dprintf(STDOUT_FILENO, "%s %d %s: %s%s%s\n", kind, errno, what, strerror(errno), between, next ? next : "");
    exit(status);
}

static void fail(const char *what) { say(NO_CONNECTION, "failed", what); }

/* What the daemon refused, or that it went. */
static void fail_ask(const struct kr *connection, const char *what) {
    if (kr_is_broken(connection) || errno == ETIMEDOUT) fail(what);
    say(REFUSED, "refused", what);
}

/* ---- A process of its own ---- */

/* Whatever it was, it isn't held open here. */
static void let_go_of(int descriptor) {
    int nothing = open("/dev/null", O_RDWR | O_CLOEXEC);
    if (nothing < 0 || dup2(nothing, descriptor) < 0) fail("/dev/null");
    if (nothing != descriptor) close(nothing);
}

/* Nothing of whoever started it stays: no descriptor but the two, no terminal, no signals that are ignored or held
 * back, no other ids. */
static void stand_alone(void) {
    sigset_t none;
    sigemptyset(&none);
    for (int number = 1; number < NSIG; number++) signal(number, number == SIGPIPE ? SIG_IGN : SIG_DFL);
    sigprocmask(SIG_SETMASK, &none, NULL);
    closefrom(STDERR_FILENO + 1);
    let_go_of(STDERR_FILENO);
    if (setresgid(getegid(), getegid(), getegid()) < 0 || setresuid(geteuid(), geteuid(), geteuid()) < 0 ||
        prctl(PR_SET_DUMPABLE, 0) < 0)
        fail("standing alone");
    pid_t child = fork();
    if (child < 0) fail("a process");
    if (child > 0) _exit(0);
    setsid();
}

/* ---- A session ---- */

/* A context of this user, on a connection to the daemon, whose calls all end within the patience until it has answered.
 * A path may be relative, and no folder is kept in use. keyretain-guard ends those that come while its daemon is
 * started anew: then another is tried for a while. */
static struct kr *connect_to(const struct options *options, uint32_t *context) {
    const int64_t end = kr_now() + options->milliseconds, restart = kr_now() + RESTART_MILLISECONDS;
    const int64_t last = (end < restart ? end : restart) - 2 * STEP_MILLISECONDS;
    struct kr_identity identity;
    struct kr *connection = NULL;
    int64_t made;
    if (kr_locate(&where, options->socket) < 0) fail("the socket's path");
    kr_own_identity(&identity);
    do {
        if (connection) kr_close(connection);
        connection = kr_open_with(options->socket, 0, (int)(end - kr_now()));
        if (connection) connection->until = end;
        made = connection ? kr_hello_as(connection, &identity) : -1;
    } while (made < 0 && errno == ECONNRESET && kr_now() < last && poll(NULL, 0, STEP_MILLISECONDS) == 0);
    if (!connection || chdir("/") < 0) fail(where.path);
    if (made < 0) fail_ask(connection, where.path);
    *context = (uint32_t)made;
    return connection;
}

/* What was made. From now on each call has a time of its own. */
static void answer(struct kr *connection, int32_t serial, const char *name, const char *path) {
    dprintf(STDOUT_FILENO, "%d:%s\n%s\n", (int)serial, name, path);
    connection->until = KR_NEVER;
    kr_set_patience(connection, PATIENCE_MILLISECONDS);
}

/* Waits for the end of the pipe, or unless it is deaf for a byte; or for the end of the connection. Answers the byte,
 * or 0. What is deaf reads nothing: whoever inherits the pipe may write to it. */
static char wait_for_end(const struct kr *connection, bool is_deaf) {
    struct pollfd wait[] = { { .fd = STDIN_FILENO, .events = is_deaf ? 0 : POLLIN },
                             { .fd = kr_descriptor(connection), .events = POLLRDHUP } };
    char byte = 0;
    while (poll(wait, 2, -1) < 0 && errno == EINTR) continue;
    if (is_deaf || wait[1].revents || read(STDIN_FILENO, &byte, 1) != 1) return 0;
    return byte;
}

static void hold_session(const struct options *options) {
    static struct kr_session session;
    uint32_t context;
    char byte;
    bool revokes = false;
    struct kr *connection = connect_to(options, &context);
    if (kr_name_session(&session, options->name) < 0) say(REFUSED, "refused", "the name");
    session.serial = kr_begin_session(connection, context, session.name, geteuid());
    if (session.serial < 0) fail_ask(connection, session.name);
    if (options->links_user && kr_link_user_keyring(connection, context) < 0)
        fail_ask(connection, "linking the user keyring");
    answer(connection, session.serial, session.name, where.path);
    while ((byte = wait_for_end(connection, options->is_deaf)) == 'R') {
        revokes = true; /* also where all processes of the login are told to end */
        signal(SIGTERM, SIG_IGN);
        signal(SIGHUP, SIG_IGN);
    }
    if (revokes || byte == 'r') kr_revoke(connection, context, KEY_SPEC_SESSION_KEYRING);
    kr_close(connection);
}

/* ---- A keyring that is held as long as it has keys ---- */

/* The user's key of this type and name in the user keyring, or -1. Where there is none it is made beside the user
 * keyring and moved there: of two keepers that do so at once the second finds what the first has made. */
static int32_t have_key(struct kr *connection, uint32_t context, const char *type, const char *name,
                        const char *payload) {
    const int32_t beside = KEY_SPEC_THREAD_KEYRING, user = KEY_SPEC_USER_KEYRING;
    int32_t key = kr_find_own(connection, context, user, type, name);
    if (key >= 0 || !kr_found_none()) return key;
    key = kr_add(connection, context, type, name, payload, strlen(payload), beside);
    if (key < 0 || kr_move(connection, context, key, beside, user, KEYCTL_MOVE_EXCL) == 0) return key;
    return errno == EEXIST ? kr_find_own(connection, context, user, type, name) : -1;
}

/* Unlinks the keys that can't be used any more, and answers whether one is left that can: there may be one where the
 * daemon has no memory to say so, or no time. */
static bool sweep(struct kr *connection, uint32_t context, int32_t ring) {
    static uint8_t links[KR_REPLY_ROOM];
    int64_t length = kr_read(connection, context, ring, links, sizeof links);
    bool has_key = length < 0 && (errno == ENOMEM || errno == ETIMEDOUT);
    for (int64_t at = 0; at + SERIAL_WIDTH <= length; at += SERIAL_WIDTH) {
        int32_t key = (int32_t)kr_get_u32(links + at);
        bool is_dead = kr_describe(connection, context, key, NULL, 0) < 0 &&
                       (errno == EKEYEXPIRED || errno == EKEYREVOKED || errno == ENOKEY);
        if (is_dead) kr_unlink(connection, context, key, ring);
        has_key = has_key || !is_dead;
    }
    return has_key && !kr_is_broken(connection);
}

enum { IS_HELD = -1, UNCLAIMED = 0 };

/* The name of the session by which the keepers of this keyring know one another: the first has made it up, and put it
 * into the user keyring. So no other user knows it. */
static bool have_name(struct kr *connection, uint32_t context, const char *ring, struct kr_session *session) {
    char key[KR_SESSION_NAME_ROOM];
    snprintf(key, sizeof key, "keyretain-keeper:%s", ring);
    if (kr_name_session(session, NULL) < 0) return false;
    int32_t serial = have_key(connection, context, "user", key, session->name);
    int64_t length = serial < 0 ? -1 : kr_read(connection, context, serial, session->name, sizeof session->name);
    if (length <= 0 || length >= (int64_t)sizeof session->name) return false;
    session->name[length] = '\0';
    return true;
}

/* Whether no other keeper holds this keyring: it would have the session of that name, which its user may search. One
 * that was made just now may not be searched. The session is a second context's, as the first one's possesses the user
 * keyring: that context is answered, or UNCLAIMED where the daemon refuses it. */
static int64_t claim(struct kr *connection, uint32_t context, const char *ring) {
    static struct kr_session known;
    struct kr_attributes attributes;
    if (!have_name(connection, context, ring, &known)) return UNCLAIMED;
    int64_t second = kr_thread(connection, context);
    if (second < 0) return UNCLAIMED;
    int32_t session = kr_join(connection, (uint32_t)second, known.name);
    bool is_own = session >= 0 && kr_read_attributes(connection, (uint32_t)second, session, &attributes) == 0 &&
                  attributes.owner == geteuid();
    if (is_own && attributes.mask & KR_USER_MAY_SEARCH) return IS_HELD;
    if (is_own && kr_setperm(connection, (uint32_t)second, session, attributes.mask | KR_USER_MAY_SEARCH) == 0)
        return second;
    kr_exit(connection, (uint32_t)second);
    return UNCLAIMED;
}

/* Until there is no key, or unless another keeper is there. The name is given up before the last look: so a key that
 * was put there while another keeper still found this one is seen by it. */
static void hold_keys(struct kr *connection, uint32_t context, int32_t ring, const char *name) {
    while (sweep(connection, context, ring)) {
        int64_t second = claim(connection, context, name);
        if (second == IS_HELD) return;
        while (sweep(connection, context, ring)) poll(NULL, 0, LOOK_MILLISECONDS);
        if (second != UNCLAIMED) kr_exit(connection, (uint32_t)second);
    }
}

/* As long as the pipe is open, so that whoever started it can put a key there; then until it has none. */
static void hold_ring(const struct options *options) {
    uint32_t context;
    struct kr *connection = connect_to(options, &context);
    int32_t ring = have_key(connection, context, "keyring", options->ring, "");
    if (ring < 0) fail_ask(connection, options->ring);
    answer(connection, ring, options->ring, where.path);
    let_go_of(STDOUT_FILENO);
    wait_for_end(connection, true);
    let_go_of(STDIN_FILENO);
    hold_keys(connection, context, ring, options->ring);
    kr_close(connection);
}

static bool is_open(int descriptor) { return fcntl(descriptor, F_GETFD) >= 0; }

int main(int count, char **words) {
    bool has_pipes = is_open(STDIN_FILENO) && is_open(STDOUT_FILENO);
    if (!fill_standard_descriptors()) exit(NO_CONNECTION); /* a connection would get their number */
    if (count == 2) answer_option(words[1], usage, help, "keyretain-keeper " KEYRETAIN_VERSION);
    struct options options = read_options(words + 1);
    if (!has_pipes) {
        fputs("keyretain-keeper: descriptors 0, a pipe, and 1, on which it answers, must be open\n", stderr);
        exit(REFUSED);
    }
    stand_alone();
    if (options.ring)
        hold_ring(&options);
    else
        hold_session(&options);
    return 0;
}
