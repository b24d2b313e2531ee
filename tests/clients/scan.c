/* scan DAEMON: a keyring is scanned, and the daemon is killed meanwhile. */
#define _GNU_SOURCE
#include "check.h"
#include "keyutils/keyutils.h"

enum { KEYS = 8 };

static pid_t daemon_process;
static int seen;

/* The first key that is seen is the last: the daemon ends here. */
static int kill_daemon(key_serial_t parent, key_serial_t key, char *description, int length, void *data) {
    char buffer[64];
    if (seen++ == 0 && kill(daemon_process, SIGKILL) == 0)
        while (keyctl_describe(key, buffer, sizeof buffer) >= 0) usleep(1000); /* its threads may run on for a little */
    return length > 0;
}

int main(int count, char **words) {
    char name[2] = "a";
    if (count != 2) return 2;
    daemon_process = atoi(words[1]);
    key_serial_t ring = add_key("keyring", "scanned", NULL, 0, KEY_SPEC_PROCESS_KEYRING);
    for (int i = 0; i < KEYS; i++, name[0]++) add_key("user", name, "x", 1, ring);
    check("what was found until then", recursive_key_scan(ring, kill_daemon, NULL) == 1);
    check("a scan ends with its daemon", seen == 1);
    return conclude("scan");
}
