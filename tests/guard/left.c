/* left.c: which system calls are left under the guard's filter. Each is made by a child that has the filter: what isn't
 * left ends it by SIGSYS. */
#define _GNU_SOURCE
#include <netinet/in.h>
#include <poll.h>
#include <sched.h>
#include <sys/mman.h>
#include <sys/syscall.h>

#include "check.h"
#include "guard/guard.h"

enum { X32_BIT = 0x40000000, EXIT_OF_I386 = 1 };

static const struct {
    const char *name;
    long number, arguments[3];
    bool is_left;
} calls[] = {
    { "poll", SYS_poll, { 0 }, true },
    { "read", SYS_read, { -1 }, true },
    { "close", SYS_close, { -1 }, true },
    { "a socket of unix(7)", SYS_socket, { AF_UNIX, SOCK_STREAM }, true },
    { "flags of a descriptor's file", SYS_fcntl, { -1, F_SETFL }, true },
    { "how much a socket keeps", SYS_setsockopt, { -1, SOL_SOCKET, SO_SNDBUF }, true },
    { "another option of a socket", SYS_setsockopt, { -1, SOL_SOCKET, SO_RCVBUF }, false },
    { "a socket of the network", SYS_socket, { AF_INET, SOCK_STREAM }, false },
    { "a socket of the network by IPv6", SYS_socket, { AF_INET6, SOCK_STREAM }, false },
    { "a socket of the kernel's", SYS_socket, { AF_NETLINK, SOCK_RAW }, false },
    { "another descriptor", SYS_fcntl, { -1, F_DUPFD }, false },
    { "flags of a descriptor", SYS_fcntl, { -1, F_SETFD, F_SETFL }, false },
    { "openat", SYS_openat, { AT_FDCWD }, false },
    { "open", SYS_open, { 0 }, false },
    { "execve", SYS_execve, { 0 }, false },
    { "fork", SYS_fork, { 0 }, false },
    { "clone", SYS_clone, { SIGCHLD }, false },
    { "clone3", SYS_clone3, { 0 }, false },
    { "mmap", SYS_mmap, { 0 }, false },
    { "mprotect", SYS_mprotect, { 0, 0, PROT_EXEC }, false },
    { "ptrace", SYS_ptrace, { -1 }, false },
    { "process_vm_readv", SYS_process_vm_readv, { 0 }, false },
    { "kill", SYS_kill, { 0 }, false },
    { "setuid", SYS_setuid, { -1 }, false },
    { "add_key", SYS_add_key, { 0 }, false },
    { "bind", SYS_bind, { -1 }, false },
    { "a descriptor of another process", SYS_pidfd_getfd, { -1 }, false },
    { "read, by its number of x32", X32_BIT | SYS_read, { -1 }, false },
};

/* How a child ends that has the filter, and does this. */
static int status_of(void (*act)(const long *), const long *words) {
    int status = -1;
    fflush(stdout);
    pid_t child = fork();
    if (child == 0) {
        if (!filter_system_calls()) _exit(2);
        act(words);
        syscall(SYS_exit_group, 0);
    }
    return waitpid(child, &status, 0) == child ? status : -1;
}

static bool is_ended_by(int status, int number) { return WIFSIGNALED(status) && WTERMSIG(status) == number; }

static void call(const long *words) { syscall(words[0], words[1], words[2], words[3]); }

/* The number of exit(2) there is that of write(2) here, which is left. */
static void call_i386(const long *words) {
    long answer = words[0];
    __asm__ volatile("int $0x80" : "+a"(answer) : "b"(0L) : "memory", "r8", "r9", "r10", "r11");
}

int main(void) {
    for (size_t i = 0; i < sizeof calls / sizeof *calls; i++) {
        const long words[] = { calls[i].number, calls[i].arguments[0], calls[i].arguments[1], calls[i].arguments[2] };
        int status = status_of(call, words);
        check(calls[i].name, calls[i].is_left ? status == 0 : is_ended_by(status, SIGSYS));
    }
    const long end[] = { EXIT_OF_I386 };
    int status = status_of(call_i386, end);
    check("int 0x80", is_ended_by(status, SIGSYS) || is_ended_by(status, SIGSEGV)); /* that kernel has it not */
    return conclude("left");
}
