/* filter.c: the seccomp filter, and what its notifications mean. Only the three key calls are ever handed over, and
 * what of pipe2(2) and ioctl(2) is for pipes of notes: without a supervisor a call that is handed over is ENOSYS, and a
 * process that could not exit or fork then would be lost. */
#include "notes.h"
#include "serve.h"

#include <linux/audit.h>
#include <linux/filter.h>

#ifndef SECCOMP_FILTER_FLAG_WAIT_KILLABLE_RECV
#define SECCOMP_FILTER_FLAG_WAIT_KILLABLE_RECV (1UL << 5)
#endif

/* add_key, request_key and keyctl have consecutive numbers in each ABI. */
#if defined __x86_64__
enum { NATIVE = AUDIT_ARCH_X86_64, FIRST = 248, OTHER = AUDIT_ARCH_I386, OTHER_FIRST = 286 };
#define X32_BIT 0x40000000u
#elif defined __aarch64__
enum { NATIVE = AUDIT_ARCH_AARCH64, FIRST = 217, OTHER = AUDIT_ARCH_ARM, OTHER_FIRST = 309 };
#define X32_BIT 0u
#else
#error "which numbers the calls have is not known here"
#endif

enum { CALLS = 3 };

/* Where each instruction stands, so that a jump says where to. */
enum place {
    ARCH, IF_NATIVE, NUMBER, IF_PIPE2, IF_IOCTL, WITHOUT_X32, IF_FIRST, IF_BEHIND, IF_OTHER, OTHER_NUMBER,
    IF_OTHER_FIRST, IF_OTHER_BEHIND, FLAGS, IF_OF_NOTES, REQUEST, IF_SIZE, IF_FILTER, HAND_OVER, ALLOW
};

#define LOAD(field) BPF_STMT(BPF_LD | BPF_W | BPF_ABS, offsetof(struct seccomp_data, field))
#define IF(place, test, value, yes, no) \
    [place] = BPF_JUMP(BPF_JMP | (test) | BPF_K, (value), (yes) - (place) - 1, (no) - (place) - 1)
#define ANSWER(action) BPF_STMT(BPF_RET | BPF_K, (action))

/* What is answered depends on the number alone, so that the kernel remembers it for each that is allowed: but for
 * pipe2(2) and ioctl(2), of which it depends on the lower half of their second argument, which stands first. */
static const struct sock_filter code[] = {
    [ARCH] = LOAD(arch),
    IF(IF_NATIVE, BPF_JEQ, NATIVE, NUMBER, IF_OTHER),
    [NUMBER] = LOAD(nr),
    IF(IF_PIPE2, BPF_JEQ, SYS_pipe2, FLAGS, IF_IOCTL),
    IF(IF_IOCTL, BPF_JEQ, SYS_ioctl, REQUEST, WITHOUT_X32),
    [WITHOUT_X32] = BPF_STMT(BPF_ALU | BPF_AND | BPF_K, ~X32_BIT),
    IF(IF_FIRST, BPF_JGE, FIRST, IF_BEHIND, ALLOW),
    IF(IF_BEHIND, BPF_JGE, FIRST + CALLS, ALLOW, HAND_OVER),
    IF(IF_OTHER, BPF_JEQ, OTHER, OTHER_NUMBER, ALLOW),
    [OTHER_NUMBER] = LOAD(nr),
    IF(IF_OTHER_FIRST, BPF_JGE, OTHER_FIRST, IF_OTHER_BEHIND, ALLOW),
    IF(IF_OTHER_BEHIND, BPF_JGE, OTHER_FIRST + CALLS, ALLOW, HAND_OVER),
    [FLAGS] = LOAD(args[1]),
    IF(IF_OF_NOTES, BPF_JSET, O_NOTIFICATION_PIPE, HAND_OVER, ALLOW),
    [REQUEST] = LOAD(args[1]),
    IF(IF_SIZE, BPF_JEQ, IOC_WATCH_QUEUE_SET_SIZE, HAND_OVER, IF_FILTER),
    IF(IF_FILTER, BPF_JEQ, IOC_WATCH_QUEUE_SET_FILTER, HAND_OVER, ALLOW),
    [HAND_OVER] = ANSWER(SECCOMP_RET_USER_NOTIF),
    [ALLOW] = ANSWER(SECCOMP_RET_ALLOW),
};

static int install(unsigned long flags) {
    const struct sock_fprog program = { sizeof code / sizeof *code, (struct sock_filter *)code };
    return (int)syscall(SYS_seccomp, SECCOMP_SET_MODE_FILTER, SECCOMP_FILTER_FLAG_NEW_LISTENER | flags, &program);
}

/* With WAIT_KILLABLE_RECV, which kernels before 5.19 lack, no signal but a fatal one ends a call that is carried
 * out. */
static int install_for_kernel(void) {
    int listener = install(KEYRETAIN_OLD_KERNEL ? 0 : SECCOMP_FILTER_FLAG_WAIT_KILLABLE_RECV);
    return listener < 0 && errno == EINVAL ? install(0) : listener;
}

int filter_install(void) {
    int listener = install_for_kernel();
    if (listener >= 0 || errno != EACCES) return listener;
    if (prctl(PR_SET_NO_NEW_PRIVS, 1, 0, 0, 0) < 0) return -1;
    return install_for_kernel();
}

/* Of 32 bits and of x32 there are none. A container's filter, which isn't ours, may hand over more. */
static int decode_pipe(const struct seccomp_data *data, unsigned long at[5]) {
    unsigned second = (unsigned)data->args[1];
    memset(at, 0, 5 * sizeof *at);
    at[0] = data->args[0];
    at[1] = data->nr == SYS_pipe2 ? second : data->args[2];
    if (data->nr == SYS_pipe2) return second & O_NOTIFICATION_PIPE ? CALL_PIPE2 : -1;
    if (second == IOC_WATCH_QUEUE_SET_SIZE) return CALL_SET_SIZE;
    return second == IOC_WATCH_QUEUE_SET_FILTER ? CALL_SET_FILTER : -1;
}

/* Commands are 32 bits wide; what no command can be is one that isn't there. */
int filter_decode(const struct seccomp_data *data, unsigned long at[5]) {
    bool is_native = data->arch == (unsigned)NATIVE;
    unsigned number = (unsigned)data->nr & (is_native ? ~X32_BIT : ~0u);
    unsigned long mask = is_native ? ~0ul : 0xfffffffful, args[6];
    for (int i = 0; i < 6; i++) args[i] = data->args[i] & mask;
    at[4] = 0;
    if (is_native && (data->nr == SYS_pipe2 || data->nr == SYS_ioctl)) return decode_pipe(data, at);
    switch (number - (is_native ? (unsigned)FIRST : (unsigned)OTHER_FIRST)) {
    case 0:
        for (int i = 0; i < 5; i++) at[i] = args[i];
        return CALL_ADD_KEY;
    case 1: /* rows.c has the call-out information last */
        at[0] = args[0], at[1] = args[1], at[2] = args[3], at[3] = args[2];
        return CALL_REQUEST_KEY;
    case 2:
        for (int i = 0; i < 4; i++) at[i] = args[i + 1];
        return (unsigned)args[0] < CALL_ADD_KEY ? (int)args[0] : CALL_ADD_KEY - 1;
    default: return -1;
    }
}
