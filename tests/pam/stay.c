/* stay [FILE]: a program of a login. It says which session it is in; with a file it waits until that is there, and says
 * what its session keyring has come to. */
#define _GNU_SOURCE
#include "check.h"
#include "keyutils/keyutils.h"

enum { LOOK_MICROSECONDS = 20000, LOOKS = 3000 };

int main(int count, char **words) {
    char text[256];
    key_serial_t ring = keyctl_get_keyring_ID(KEY_SPEC_SESSION_KEYRING, 0);
    if (ring > 0)
        printf("%d\n", ring);
    else
        puts(strerrorname_np(errno));
    fflush(stdout);
    if (count < 2) return 0;
    for (int i = 0; i < LOOKS && access(words[1], F_OK) < 0; i++) usleep(LOOK_MICROSECONDS);
    puts(keyctl_describe(KEY_SPEC_SESSION_KEYRING, text, sizeof text) < 0 ? strerrorname_np(errno) : "still there");
    return 0;
}
