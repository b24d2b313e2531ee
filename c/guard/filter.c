/* filter.c: see guard.h. Any other call ends the process. */
#include "guard.h"

#include <linux/audit.h>
#include <linux/filter.h>
#include <linux/seccomp.h>

#ifndef __x86_64__
#error "the numbers are those of x86-64"
#endif

/* No memory is asked for, no file is opened, and no thread is started any more. */
static const uint16_t ALLOWED[] = {
    SYS_recvfrom, SYS_sendto, SYS_futex, SYS_poll, SYS_accept4, SYS_connect, SYS_getsockopt, SYS_shutdown,
    SYS_close, SYS_read, SYS_write, SYS_clock_gettime, SYS_unlink, SYS_exit_group, SYS_restart_syscall,
};

/* These with this value of one argument alone. */
static const struct {
    uint16_t call;
    uint8_t argument;
    uint32_t value;
} PARTLY[] = { { SYS_socket, 0, AF_UNIX }, { SYS_fcntl, 1, F_SETFL }, { SYS_setsockopt, 2, SO_SNDBUF } };

enum {
    COUNT = sizeof ALLOWED / sizeof *ALLOWED,
    PARTS = sizeof PARTLY / sizeof *PARTLY,
    HEAD = 4,
    PART = 4,
    TAIL = 2,
};

static const struct sock_filter KILL = BPF_STMT(BPF_RET | BPF_K, SECCOMP_RET_KILL_PROCESS);
static const struct sock_filter ALLOW = BPF_STMT(BPF_RET | BPF_K, SECCOMP_RET_ALLOW);

static struct sock_filter load(size_t offset) {
    return (struct sock_filter)BPF_STMT(BPF_LD | BPF_W | BPF_ABS, (uint32_t)offset);
}

/* Skips so many instructions where the word that was loaded is this, or isn't. */
static struct sock_filter skip_if(uint32_t value, long same, long other) {
    return (struct sock_filter)BPF_JUMP(BPF_JMP | BPF_JEQ | BPF_K, value, (uint8_t)same, (uint8_t)other);
}

bool filter_system_calls(void) {
    struct sock_filter code[HEAD + COUNT + PARTS * PART + TAIL], *next = code;
    struct sock_filter *last = code + sizeof code / sizeof *code - 1;
    *next++ = load(offsetof(struct seccomp_data, arch));
    *next++ = skip_if(AUDIT_ARCH_X86_64, 1, 0);
    *next++ = KILL;
    *next++ = load(offsetof(struct seccomp_data, nr));
    for (unsigned i = 0; i < COUNT; i++, next++) *next = skip_if(ALLOWED[i], last - next - 1, 0);
    for (unsigned i = 0; i < PARTS; i++, next += PART) {
        next[0] = skip_if(PARTLY[i].call, 0, PART - 1);
        next[1] = load(offsetof(struct seccomp_data, args) + sizeof(uint64_t) * PARTLY[i].argument);
        next[2] = skip_if(PARTLY[i].value, last - &next[2] - 1, 0);
        next[3] = KILL;
    }
    *next++ = KILL;
    *next++ = ALLOW;
    struct sock_fprog program = { .len = (unsigned short)(next - code), .filter = code };
    return prctl(PR_SET_NO_NEW_PRIVS, 1, 0, 0, 0) == 0 &&
           syscall(SYS_seccomp, SECCOMP_SET_MODE_FILTER, SECCOMP_FILTER_FLAG_TSYNC, &program) == 0;
}
