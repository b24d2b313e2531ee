/* vfork: a child that has its parent's memory asks, and executes something else. */
#define _GNU_SOURCE
#include "calls.h"

int main(int count, char **words) {
    if (count == 2) {
        bool has_none = ring_of(KEY_SPEC_PROCESS_KEYRING, 0) == -1 && errno == ENOKEY;
        printf("executed: %s\n", has_none ? "none" : "there is one");
        return 0;
    }
    long before = ring_of(KEY_SPEC_PROCESS_KEYRING, 1);
    volatile long of_child = 0;
    pid_t child = vfork();
    if (child == 0) {
        of_child = ring_of(KEY_SPEC_PROCESS_KEYRING, 1);
        execl("/proc/self/exe", words[0], "executed", (char *)NULL);
        _exit(1);
    }
    printf("child: %s\n", status_of(child) == 0 && of_child > 0 && of_child != before ? "its own" : "none of its own");
    printf("parent: %s\n", ring_of(KEY_SPEC_PROCESS_KEYRING, 0) == before ? "the same" : "another");
    return 0;
}
