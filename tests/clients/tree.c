/* tree: libkeyutils.so.1, a second copy of it, and libkeyretain side by side in a process and its children. */
#define _GNU_SOURCE
#include "check.h"
#include "library/keyretain.h"
#include "keyutils/keyutils.h"

typedef long reader(key_serial_t id, char *buffer, size_t room);
typedef key_serial_t adder(const char *type, const char *description, const void *payload, size_t length,
                           key_serial_t ring);

static key_serial_t session, key;
static struct kr *connection;
static uint32_t context;

/* The session's name behind its serial, as keyretain-session(1) says. */
static const char *session_name(void) {
    const char *text = getenv("KEYRETAIN_SESSION");
    const char *colon = text ? strchr(text, ':') : NULL;
    return colon ? colon + 1 : "";
}

static void see_by_connection(void) {
    char buffer[8];
    connection = kr_open(NULL);
    if (!check("a connection of one's own", connection != NULL)) return;
    context = (uint32_t)kr_hello(connection, geteuid(), getegid(), 0, NULL);
    check("JOIN of the session's name", kr_join(connection, context, session_name()) == session);
    check("the key that libkeyutils added", kr_read(connection, context, key, buffer, sizeof buffer) == 2);
    key_serial_t added = kr_add(connection, context, "user", "by connection", "abc", 3, KEY_SPEC_SESSION_KEYRING);
    check("libkeyutils reads what the connection added", keyctl_read(added, buffer, sizeof buffer) == 3);
}

static void see_by_copy(const char *path) {
    char buffer[8];
    void *copy = dlmopen(LM_ID_NEWLM, path, RTLD_NOW | RTLD_LOCAL);
    if (!check("a second copy of the library", copy != NULL)) return;
    reader *copy_read = (reader *)dlsym(copy, "keyctl_read");
    adder *copy_add = (adder *)dlsym(copy, "add_key");
    check("a second copy has another function", copy_read != keyctl_read);
    check("a second copy has a connection of its own", copy_add("user", "own", "x", 1, KEY_SPEC_PROCESS_KEYRING) > 0 &&
          refused(request_key("user", "own", NULL, 0), ENOKEY));
    check("and is in the session", copy_read(key, buffer, sizeof buffer) == 2);
    check("a copy can be unloaded", dlclose(copy) == 0);
    check("and the first one goes on", keyctl_read(key, buffer, sizeof buffer) == 2);
}

static int run_child(void) {
    char buffer[8];
    check("child: the parent's connection is not its own", refused(kr_read(connection, context, key, buffer, 8),
          ECONNRESET) && kr_is_broken(connection));
    kr_close(connection);
    check("child: libkeyutils goes on", keyctl_read(key, buffer, sizeof buffer) == 2);
    see_by_connection();
    kr_close(connection);
    return failed_checks;
}

static void try_child(void) {
    char buffer[8];
    int status;
    pid_t child = fork();
    if (child == 0) _exit(run_child());
    check("a child", waitpid(child, &status, 0) == child && status == 0);
    check("the parent's connection is as it was", kr_read(connection, context, key, buffer, sizeof buffer) == 2);
    check("and its library's", keyctl_read(key, buffer, sizeof buffer) == 2);
}

/* Other programs of the tree find the key by its description. */
static void run_program(const char *command) { check(command, system(command) == 0); }

int main(int count, char **words) {
    if (count < 2) return 2;
    session = keyctl_join_session_keyring("tree");
    key = add_key("user", "by libkeyutils", "s3", 2, KEY_SPEC_SESSION_KEYRING);
    check("a session and a key", session > 0 && key > 0);
    see_by_connection();
    see_by_copy(words[1]);
    try_child();
    for (int i = 2; i < count; i++) run_program(words[i]);
    kr_close(connection);
    return conclude("tree");
}
