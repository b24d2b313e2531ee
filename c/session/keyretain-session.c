/* keyretain-session [--env VARIABLE=KEY].. [--join | [--syscalls] [NAME]] [-- CMD [ARG ..]]: runs a command in a
 * session of keyretaind. See keyretain-session(1).
 *
 * A keeper makes the session and holds it. The command, which doesn't know it, inherits the writing end of the pipe
 * on which the keeper waits: so the session lasts as long as the command and what it has started. With --syscalls a
 * supervisor holds it: launch.c. */
#include "library/session.h"

#include "common/listener.h"
#include "launch.h"

enum { PATIENCE_MILLISECONDS = 10000, VARIABLES_MAX = 16, PAYLOAD_MAX = 32767, DECIMAL = 10 };

enum way { BY_LIBRARY, BY_SYSTEM_CALLS, JOINING };

static const char usage[] = "usage: keyretain-session [--env VARIABLE=KEY].. [NAME] [-- CMD [ARG ..]]\n"
                            "       keyretain-session [--env VARIABLE=KEY].. --join [-- CMD [ARG ..]]\n"
                            "       keyretain-session --syscalls [NAME] [-- CMD [ARG ..]]\n";
static const char help[] =
    "\nRuns a command, or a shell, in a session of keyretaind, where keyctl(1) and the\n"
    "like find its keys.\n\n"
    "  NAME         the session of this name, made if there is none; else a new one\n"
    "  --env V=KEY  gives the command what a key holds, in the variable V; KEY is a\n"
    "               serial or %user:DESCRIPTION\n"
    "  --join       the session that KEYRETAIN_SESSION names, as a login has it\n"
    "  --syscalls   serves the system calls themselves: static programs, Go, Rust\n"
    "  -- CMD ARG   what is run; without it the shell that SHELL names\n"
    "  -h, --help   prints this\n"
    "  --version    prints the version\n\n"
    "The daemon's socket is KEYRETAIN_SOCKET, or is looked for where\n"
    "keyretain-session(1) says.\n";

static struct kr_where where; /* the daemon is */
static const char *session_name; /* NULL: none was given */
static char *variables[VARIABLES_MAX + 1]; /* what --env says: VARIABLE=KEY */

/* Why a session can't have the name that was given; NULL where it can. */
static const char *name_fault(void) {
    if (!session_name) return NULL;
    if (*session_name == '.') return "a name begins with no dot";
    if (strchr(session_name, '\n')) return "a name has no end of line";
    return strlen(session_name) >= KR_SESSION_NAME_ROOM ? "a name has at most 4095 bytes" : NULL;
}

/* What to do about it, where that is known. */
static const char *advice(int status, int error, const char *what) {
    const char *exported = getenv("KEYRETAIN_SOCKET");
    bool is_socket = strcmp(what, where.path) == 0 || (exported && strcmp(what, exported) == 0);
    if (status == NO_CONNECTION && error == EPERM)
        return "another filter refuses the key calls, as that of a container does: its profile must allow them";
    if (status == REFUSED && error == EKEYREVOKED)
        return "the daemon was started anew, nothing holds it, or it is another user's: begin one by keyretain-session "
               "or a new login";
    if (status == REFUSED && error == ENOKEY && *variables)
        return "the session reaches no such key of yours: keyctl show tells which it has";
    bool is_lost = status == NO_CONNECTION && (is_socket || error == ETIMEDOUT || error == ECONNRESET);
    return is_lost || error == EDQUOT ? kr_advise(&where, error) : NULL;
}

void fail(int status, const char *what) {
    const char *wrong = status == REFUSED ? name_fault() : NULL, *next = wrong ? wrong : advice(status, errno, what);
    fprintf(stderr, "keyretain-session: %s: %s\n", wrong ? "the name" : what, strerror(errno));
    if (next) fprintf(stderr, "keyretain-session: %s\n", next);
    exit(status);
}

/* What the daemon refused, or that it went. */
static void fail_ask(const struct kr *connection, const char *what) {
    fail(kr_is_broken(connection) || errno == ETIMEDOUT ? NO_CONNECTION : REFUSED, what);
}

/* ---- Words ---- */

static void refuse_words(const char *why, const char *word) {
    fprintf(stderr, "%skeyretain-session: %s: %s\n", usage, why, word ? word : "none is given");
    exit(USAGE);
}

/* VARIABLE is a name of the shell's, and KEY a serial or `%user:DESCRIPTION`. */
static bool is_variable(const char *word) {
    static const char first[] = "ABCDEFGHIJKLMNOPQRSTUVWXYZabcdefghijklmnopqrstuvwxyz_";
    size_t length = strspn(word, "ABCDEFGHIJKLMNOPQRSTUVWXYZabcdefghijklmnopqrstuvwxyz_0123456789");
    if (length == 0 || !strchr(first, *word) || word[length] != '=') return false;
    const char *key = word + length + 1;
    size_t digits = strspn(key, "0123456789");
    return strncmp(key, "%user:", 6) == 0 ? key[6] != '\0' : digits > 0 && digits < 11 && !key[digits];
}

static void read_variables(char ***arguments) {
    for (int i = 0; **arguments && strcmp(**arguments, "--env") == 0; i++, *arguments += 2) {
        char *word = (*arguments)[1];
        if (i == VARIABLES_MAX) refuse_words("more than 16 times --env", word);
        if (!word || !is_variable(word)) refuse_words("--env is VARIABLE=SERIAL or VARIABLE=%user:DESCRIPTION", word);
        variables[i] = word;
    }
}

static enum way read_way(char ***arguments) {
    read_variables(arguments);
    if (!**arguments) return BY_LIBRARY;
    enum way way = strcmp(**arguments, "--join") == 0       ? JOINING
                   : strcmp(**arguments, "--syscalls") == 0 ? BY_SYSTEM_CALLS
                                                            : BY_LIBRARY;
    if (way == BY_SYSTEM_CALLS && *variables) refuse_words("--env is not for --syscalls", *variables);
    if (way != BY_LIBRARY) ++*arguments;
    return way;
}

/* The name, or NULL, and the command, or NULL for a shell. */
static char **read_arguments(char **arguments, const char **name, enum way *way) {
    *way = read_way(&arguments);
    *name = NULL;
    if (*way != BY_LIBRARY && *arguments && strcmp(*arguments, "--env") == 0)
        refuse_words(*way == JOINING ? "--env stands before --join" : "--env is not for --syscalls", arguments[1]);
    if (*way != JOINING && *arguments && strcmp(*arguments, "--") != 0) *name = *arguments++;
    if (*name && (**name == '-' || **name == '\0')) refuse_words("no option, and no name of a session", *name);
    if (!*arguments) return NULL;
    if (strcmp(*arguments, "--") != 0)
        refuse_words(*way == JOINING ? "--join takes no name, and a command stands behind --"
                                     : "-- is missing before the command",
                     *arguments);
    if (!arguments[1]) refuse_words("a command stands behind --", NULL);
    return arguments + 1;
}

/* ---- What the command is given ---- */

static void set_variable(const char *name, const char *value) {
    if (setenv(name, value, 1) < 0) fail(REFUSED, name);
}

/* What is run finds the same daemon, wherever it runs. */
static void export_socket(const char *path) {
    char whole[PATH_MAX + KR_PATH_ROOM], folder[PATH_MAX];
    if (*path != '/' && getcwd(folder, sizeof folder)) {
        snprintf(whole, sizeof whole, "%s/%s", folder, path);
        path = whole;
    }
    set_variable("KEYRETAIN_SOCKET", path);
}

/* Programs are to find our libkeyutils.so.1 before the system's, wherever they run. Without it they would use the
 * kernel's keys, and nothing would say so. */
static void export_library(void) {
    static const char library[] = KEYRETAIN_LIBRARY_FOLDER "/libkeyutils.so.1";
    const char *others = getenv("LD_LIBRARY_PATH");
    char *folders;
    if (access(library, R_OK) < 0) fail(NO_CONNECTION, library);
    if (!others) others = "";
    if (asprintf(&folders, "%s%s%s", KEYRETAIN_LIBRARY_FOLDER, *others ? ":" : "", others) < 0)
        fail(REFUSED, "LD_LIBRARY_PATH");
    set_variable("LD_LIBRARY_PATH", folders);
    free(folders);
}

/* A program that found our library would have two sessions: that of its system calls, and that of the library's. So
 * what a keyretain-session around this one has set is taken away. */
static void hide_library(void) {
    const size_t length = strlen(KEYRETAIN_LIBRARY_FOLDER);
    const char *folders = getenv("LD_LIBRARY_PATH");
    unsetenv(KR_SESSION_VARIABLE);
    if (!folders || strncmp(folders, KEYRETAIN_LIBRARY_FOLDER, length) != 0) return;
    if (folders[length] == ':')
        set_variable("LD_LIBRARY_PATH", folders + length + 1);
    else if (folders[length] == '\0')
        unsetenv("LD_LIBRARY_PATH");
}

/* ---- Sessions ---- */

/* A new session, or the one of this name. */
static void begin(const char *name, const char *path, struct kr_session *session) {
    struct kr_file holder;
    enum kr_refusal why;
    if (name && kr_name_session(session, name) < 0) fail(REFUSED, "the name");
    if (kr_start_keeper(&holder, session, path, true, kr_now() + PATIENCE_MILLISECONDS, &why) == 0) {
        if (kr_export_holder(&holder, session) < 0) fail(REFUSED, "the environment");
        return;
    }
    if (why == KR_REFUSED) fail(REFUSED, name ? name : "the session");
    fail(NO_CONNECTION, why == KR_NO_KEEPER && errno != ETIMEDOUT ? "keyretain-keeper" : path);
}

/* A login without a session has the variable too, and empty. */
static void find_session(struct kr_session *session) {
    const char *text = getenv(KR_SESSION_VARIABLE);
    if (text && kr_parse_session(session, text) && session->serial > 0) return;
    fputs("keyretain-session: there is no session to join: " KR_SESSION_VARIABLE " names none\n"
          "keyretain-session: logins have one by pam_keyretain(8); keyretain-session without --join begins one\n",
          stderr);
    exit(REFUSED);
}

/* What a key holds, for the command alone: neither it nor what it is found by has a null byte. */
static void give_variable(struct kr *connection, uint32_t context, char *word) {
    static char secret[PAYLOAD_MAX + 1];
    char *key = strchr(word, '=');
    *key++ = '\0';
    int64_t id = *key == '%' ? kr_find_own(connection, context, KEY_SPEC_SESSION_KEYRING, "user", key + 6)
                             : strtoll(key, NULL, DECIMAL);
    if (id > INT32_MAX) errno = ENOKEY;
    int64_t length = id < 0 || id > INT32_MAX ? -1 : kr_read(connection, context, (int32_t)id, secret, PAYLOAD_MAX);
    if (length > PAYLOAD_MAX) errno = EMSGSIZE;
    if (length < 0 || length > PAYLOAD_MAX) fail_ask(connection, key);
    secret[length] = '\0';
    errno = EINVAL;
    if (strlen(secret) != (size_t)length) fail(REFUSED, key);
    set_variable(word, secret);
    explicit_bzero(secret, sizeof secret);
}

/* Sees that the session is there, and gives the command what it has. Who began the session holds it. */
static void enter(const char *path, const struct kr_session *session) {
    struct kr_identity identity;
    struct kr *connection = kr_open_with(path, 0, PATIENCE_MILLISECONDS);
    if (!connection) fail(NO_CONNECTION, path);
    connection->until = kr_now() + PATIENCE_MILLISECONDS;
    kr_own_identity(&identity);
    int64_t context = kr_hello_as(connection, &identity);
    int entered = context < 0 ? -1 : kr_enter_named(connection, (uint32_t)context, session, identity.uid);
    if (entered == 1) errno = EKEYREVOKED;
    if (entered == 1) fail(REFUSED, session->name);
    if (entered < 0) fail_ask(connection, session->name);
    for (char **word = variables; *word; word++) give_variable(connection, (uint32_t)context, *word);
    kr_close(connection);
}

int main(int count, char **arguments) {
    static struct kr_session session;
    char *shell = getenv("SHELL"), *shell_command[] = { shell && *shell ? shell : "/bin/sh", NULL };
    enum way way;
    if (!fill_standard_descriptors()) exit(NO_CONNECTION); /* a connection would get their number */
    if (count == 2) answer_option(arguments[1], usage, help, "keyretain-session " KEYRETAIN_VERSION);
    char **given = read_arguments(arguments + 1, &session_name, &way), **command = given ? given : shell_command;
    if (session_name && !given && isatty(STDERR_FILENO))
        fprintf(stderr, "keyretain-session: a shell in the session %s; a command stands behind --\n", session_name);
    if (kr_locate(&where, NULL) < 0) fail(NO_CONNECTION, "the socket's path");
    if (way == BY_SYSTEM_CALLS)
        hide_library();
    else
        export_library();
    export_socket(where.path);
    if (way == BY_SYSTEM_CALLS) launch(getenv("KEYRETAIN_SOCKET"), session_name, command);
    if (way == JOINING)
        find_session(&session);
    else
        begin(session_name, getenv("KEYRETAIN_SOCKET"), &session);
    if (way == JOINING || *variables) enter(where.path, &session);
    if (kr_export_session(&session) < 0) fail(REFUSED, KR_SESSION_VARIABLE);
    execvp(*command, command);
    fail(errno == ENOENT ? NOT_FOUND : NOT_EXECUTABLE, *command);
}
