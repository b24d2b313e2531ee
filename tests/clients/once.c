/* once [signals]: one call, the name of its error, and how many whole seconds it took; with signals meanwhile. */
#define _GNU_SOURCE
#include "check.h"
#include "keyutils/keyutils.h"

int main(int count, char **words) {
    struct timespec before, after;
    if (count == 2 && strcmp(words[1], "signals") == 0) interrupt_after(300000, 300000);
    clock_gettime(CLOCK_MONOTONIC, &before);
    key_serial_t ring = keyctl_get_keyring_ID(KEY_SPEC_USER_KEYRING, 0);
    int error = ring < 0 ? errno : 0;
    clock_gettime(CLOCK_MONOTONIC, &after);
    double seconds = (double)(after.tv_sec - before.tv_sec) + (double)(after.tv_nsec - before.tv_nsec) / 1e9;
    printf("%s %d\n", error ? strerrorname_np(error) : "answered", (int)(seconds + 0.2));
    return 0;
}
