/* forks NUMBER: so many children of a process that has asked, some side by side, each of which asks and is in the
 * session; then whether the parent is as it was. */
#include "check.h"
#include "keyutils/keyutils.h"

enum { SIDE_BY_SIDE = 8 };

static key_serial_t key;

static int ask_in_child(void) {
    char buffer[8];
    alarm(60);
    bool fine = keyctl_read(key, buffer, sizeof buffer) == 2 &&
                add_key("user", "of child", "x", 1, KEY_SPEC_PROCESS_KEYRING) > 0;
    return fine ? 0 : 1;
}

static int wait_for_child(void) {
    int status;
    return wait(&status) > 0 && status == 0;
}

int main(int count, char **words) {
    int number = count == 2 ? atoi(words[1]) : 0, fine = 0;
    char buffer[8];
    check("a session", keyctl_join_session_keyring("forks") > 0);
    key = add_key("user", "of session", "s3", 2, KEY_SPEC_SESSION_KEYRING);
    check("a key", key > 0 && add_key("user", "of process", "abc", 3, KEY_SPEC_PROCESS_KEYRING) > 0);
    for (int i = 0; i < number; i++) {
        if (i >= SIDE_BY_SIDE) fine += wait_for_child();
        pid_t child = fork();
        if (child == 0) _exit(ask_in_child());
        check("fork", child > 0);
    }
    for (int i = 0; i < SIDE_BY_SIDE && i < number; i++) fine += wait_for_child();
    check("each child has what is its own", fine == number);
    check("the parent is as it was", keyctl_read(key, buffer, sizeof buffer) == 2 &&
          keyctl_read(request_key("user", "of process", NULL, 0), buffer, sizeof buffer) == 3);
    return conclude("forks");
}
