/* whose: of each call of libkeyutils, whether the kernel answers it, or somebody else: what the system call itself
 * answers is compared. The kernel's session keyring has the key `ours` for that, and keyretaind's has not. */
#define _GNU_SOURCE
#include <linux/keyctl.h>
#include <sys/syscall.h>

#include "check.h"
#include "keyutils/keyutils.h"

static int kernel_answers, others_answer;

/* Whether both calls came to the same, with the same error. */
static void compare(long answered, int error, long kernel) {
    int kernel_error = kernel < 0 ? errno : 0;
    if (answered == kernel && (answered >= 0 || error == kernel_error))
        kernel_answers++;
    else
        others_answer++;
}

#define COMPARE(call, ...)                                                      \
    do {                                                                        \
        long answered = (call);                                                 \
        int error = errno;                                                      \
        compare(answered, error, syscall(__VA_ARGS__));                         \
    } while (0)

int main(void) {
    const key_serial_t session = KEY_SPEC_SESSION_KEYRING;
    char own[512], kernels[512];
    void *links = NULL;
    long ring = syscall(SYS_keyctl, KEYCTL_JOIN_SESSION_KEYRING, NULL);
    if (ring < 0 || syscall(SYS_add_key, "user", "ours", "s3", 2, ring) < 0) {
        puts("no keys of the kernel");
        return 0;
    }
    COMPARE(keyctl_get_keyring_ID(session, 0), SYS_keyctl, KEYCTL_GET_KEYRING_ID, session, 0);
    COMPARE(keyctl_describe(session, own, sizeof own), SYS_keyctl, KEYCTL_DESCRIBE, session, kernels, sizeof kernels);
    COMPARE(keyctl_search(session, "user", "ours", 0), SYS_keyctl, KEYCTL_SEARCH, session, "user", "ours", 0);
    COMPARE(request_key("user", "ours", NULL, session), SYS_request_key, "user", "ours", NULL, session);
    COMPARE(add_key("user", "ours", "s4", 2, session), SYS_add_key, "user", "ours", "s4", 2, session);
    COMPARE(keyctl_read_alloc(session, &links), SYS_keyctl, KEYCTL_READ, session, kernels, sizeof kernels);
    printf("kernel %d, keyretaind %d\n", kernel_answers, others_answer);
    return 0;
}
