/* able: whether a filter with user notification may be installed here, and no other filter answers keyctl(2). Prints
 * why not. */
#define _GNU_SOURCE
#include <linux/filter.h>
#include <linux/seccomp.h>
#include <sys/prctl.h>

#include "calls.h"

int main(void) {
    struct sock_filter code[] = { BPF_STMT(BPF_RET | BPF_K, SECCOMP_RET_ALLOW) };
    struct sock_fprog program = { 1, code };
    if (ring_of(KEY_SPEC_SESSION_KEYRING, 0) < 0 && errno == EPERM) {
        puts("a filter around this refuses keyctl(2)");
        return 1;
    }
    prctl(PR_SET_NO_NEW_PRIVS, 1, 0, 0, 0);
    if (syscall(SYS_seccomp, SECCOMP_SET_MODE_FILTER, SECCOMP_FILTER_FLAG_NEW_LISTENER, &program) >= 0) return 0;
    perror("a filter with user notification");
    return errno == EBUSY || errno == EPERM ? 1 : 2;
}
