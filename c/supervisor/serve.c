/* serve.c: the loop of a supervisor: notifications, ends of processes, further listeners, its children. */
#include "notes.h"
#include "serve.h"

#include <linux/kcmp.h>
#include <sys/epoll.h>
#include <sys/ioctl.h>
#include <sys/ptrace.h>
#include <sys/signalfd.h>

#ifndef SECCOMP_IOCTL_NOTIF_SET_FLAGS
#define SECCOMP_IOCTL_NOTIF_SET_FLAGS _IOW('!', 4, __u64)
#define SECCOMP_USER_NOTIF_FD_SYNC_WAKE_UP 1ul
#endif

enum { EVENTS = 16, SWEEP_MILLISECONDS = 1000, TAKEN_A_TURN = 256 };

struct listener {
    int descriptor;
    struct listener *next;
};

static struct {
    const struct serve_settings *settings;
    int epoll, signals, pipes, more;
    struct listener *listeners;
    bool has_told; /* how the child ended */
    bool is_sweeping;
    int64_t next_sweep;
} all;

/* ---- Listeners ---- */

int serve_send_listener(int socket, int listener) {
    char byte = 0, room[CMSG_SPACE(sizeof listener)] = "";
    struct iovec bytes = { &byte, 1 };
    struct msghdr message = { .msg_iov = &bytes, .msg_iovlen = 1, .msg_control = room, .msg_controllen = sizeof room };
    struct cmsghdr *head = CMSG_FIRSTHDR(&message);
    head->cmsg_level = SOL_SOCKET;
    head->cmsg_type = SCM_RIGHTS;
    head->cmsg_len = CMSG_LEN(sizeof listener);
    memcpy(CMSG_DATA(head), &listener, sizeof listener);
    return TEMP_FAILURE_RETRY(sendmsg(socket, &message, MSG_NOSIGNAL)) == 1 ? 0 : -1;
}

int serve_receive_listener(int socket) {
    char byte, room[CMSG_SPACE(sizeof(int))] = "";
    struct iovec bytes = { &byte, 1 };
    struct msghdr message = { .msg_iov = &bytes, .msg_iovlen = 1, .msg_control = room, .msg_controllen = sizeof room };
    int listener;
    ssize_t got = TEMP_FAILURE_RETRY(recvmsg(socket, &message, MSG_CMSG_CLOEXEC));
    if (got == 0) errno = ECONNRESET;
    if (got <= 0) return -1;
    const struct cmsghdr *head = CMSG_FIRSTHDR(&message);
    if (!head || head->cmsg_type != SCM_RIGHTS || head->cmsg_len != CMSG_LEN(sizeof listener)) return fail_as(EPROTO);
    memcpy(&listener, CMSG_DATA(head), sizeof listener);
    return listener;
}

static int watch(int descriptor, void *source) {
    struct epoll_event event = { .events = EPOLLIN, .data.ptr = source };
    return epoll_ctl(all.epoll, EPOLL_CTL_ADD, descriptor, &event);
}

/* It owns the descriptor. What a listener that is there twice has told would be waited for once more. Linux 6.6 wakes
 * the caller on the processor that has its answer; others don't know that. */
static int add_listener(int descriptor) {
    const pid_t self = getpid();
    bool is_new = !FIND(all.listeners, at, syscall(SYS_kcmp, self, self, KCMP_FILE, descriptor, at->descriptor) == 0);
    struct listener *listener = is_new ? calloc(1, sizeof *listener) : NULL;
    if (!listener || watch(descriptor, listener) < 0) {
        free(listener);
        close_one(&descriptor);
        return is_new ? -1 : 0;
    }
    ioctl(descriptor, SECCOMP_IOCTL_NOTIF_SET_FLAGS, SECCOMP_USER_NOTIF_FD_SYNC_WAKE_UP);
    *listener = (struct listener){ descriptor, all.listeners };
    all.listeners = listener;
    return 0;
}

static void take_listener(void) {
    int descriptor = serve_receive_listener(all.more);
    if (descriptor >= 0 && add_listener(descriptor) == 0)
        send(all.more, "", 1, MSG_NOSIGNAL | MSG_DONTWAIT);
    else if (descriptor < 0 && errno == ECONNRESET)
        epoll_ctl(all.epoll, EPOLL_CTL_DEL, all.more, NULL);
}

/* ---- Children ---- */

static void note_end(pid_t process, int status) {
    if (process != all.settings->tracees.child || all.has_told) return;
    all.has_told = true;
    if (all.settings->has_ended) all.settings->has_ended(status);
}

/* A child may ask for its parent to trace it (PTRACE_TRACEME), and is stopped then: it goes on with its signal. */
static void reap(void) {
    struct signalfd_siginfo info;
    int status;
    pid_t process;
    while (read(all.signals, &info, sizeof info) == (ssize_t)sizeof info) continue;
    while ((process = waitpid(-1, &status, WNOHANG)) > 0) {
        if (WIFSTOPPED(status))
            ptrace(PTRACE_DETACH, process, NULL, WSTOPSIG(status));
        else
            turns_reaped(process), note_end(process, status);
    }
}

/* ---- The loop ---- */

/* A runtime, or the agent, may have a listener that ends for a moment longer: then epoll(7) doesn't forget it by
 * itself, and would go on to tell of an entry that is freed. */
static void end_listener(struct listener *listener) {
    TAKE_OUT(all.listeners, listener);
    epoll_ctl(all.epoll, EPOLL_CTL_DEL, listener->descriptor, NULL);
    turns_forget(listener->descriptor);
    close_one(&listener->descriptor);
    free(listener);
}

/* Whether a call was received. */
static bool take_event(const struct epoll_event *event) {
    struct listener *listener = event->data.ptr;
    if (event->data.ptr == &all.signals)
        reap();
    else if (event->data.ptr == &all.more)
        take_listener();
    else if (event->data.ptr == &all.pipes)
        pipes_take();
    else if (turns_have(event->data.ptr))
        turns_go_on(event->data.ptr);
    else if (event->events & EPOLLIN)
        return turns_take(listener->descriptor);
    else
        end_listener(listener);
    return false;
}

static bool is_end(const void *source) {
    return source != &all.signals && source != &all.more && source != &all.pipes && !turns_have(source) &&
           !FIND(all.listeners, at, at == source);
}

/* Ends of processes come first, and one at a time: what else is ready may go with it. How many calls were received. */
static unsigned take_events(const struct epoll_event *events, int count) {
    unsigned received = 0;
    for (int i = 0; i < count; i++) {
        if (!is_end(events[i].data.ptr)) continue;
        entries_ended(events[i].data.ptr);
        return 0;
    }
    for (int i = 0; i < count; i++) received += take_event(&events[i]);
    return received;
}

/* How long to wait for events; -1 for ever. */
static int milliseconds_to_wait(void) {
    int64_t next = all.is_sweeping ? 0 : turns_next();
    bool wants_sweep = next > 0 && tracees_want_sweep();
    if (next > 0 && !wants_sweep) all.next_sweep = kr_now() + SWEEP_MILLISECONDS;
    if (wants_sweep && all.next_sweep < next) next = all.next_sweep;
    int64_t poll = queues_milliseconds(), left = next > 0 ? next - kr_now() : 0;
    if (next == KR_NEVER) return (int)poll;
    if (poll >= 0 && poll < left) left = poll;
    return left > 0 ? (int)left : 0;
}

/* A part of it, so that nobody waits for all. */
static void sweep(void) {
    if (!all.is_sweeping && kr_now() < all.next_sweep && !turns_want_sweep()) return;
    all.is_sweeping = (all.is_sweeping || tracees_want_sweep()) && tracees_sweep();
    if (!all.is_sweeping) all.next_sweep = kr_now() + SWEEP_MILLISECONDS;
}

/* All calls that wait are received before one of each user is served, but for a flood of them. */
static void run(void) {
    struct epoll_event events[EVENTS];
    unsigned received = 0;
    while (all.listeners) {
        int count = epoll_wait(all.epoll, events, EVENTS, milliseconds_to_wait());
        unsigned before = received;
        received += take_events(events, count);
        if (received > before && received < TAKEN_A_TURN) continue;
        received = 0;
        turns_serve();
        queues_poll();
        sweep();
    }
}

/* ---- Beginning ---- */

int serve_protect(void) {
    struct rlimit none = { 0 }, descriptors;
    if (prctl(PR_SET_DUMPABLE, 0, 0, 0, 0) < 0 || setrlimit(RLIMIT_CORE, &none) < 0) return -1;
    if (signal(SIGPIPE, SIG_IGN) == SIG_ERR || getrlimit(RLIMIT_NOFILE, &descriptors) < 0) return -1;
    descriptors.rlim_cur = descriptors.rlim_max;
    return setrlimit(RLIMIT_NOFILE, &descriptors);
}

static int watch_children(void) {
    sigset_t set;
    sigemptyset(&set);
    sigaddset(&set, SIGCHLD);
    if (sigprocmask(SIG_BLOCK, &set, NULL) < 0) return -1;
    all.signals = signalfd(-1, &set, SFD_CLOEXEC | SFD_NONBLOCK);
    return all.signals < 0 ? -1 : watch(all.signals, &all.signals);
}

static int begin(int listener) {
    all.more = all.settings->more;
    all.epoll = epoll_create1(EPOLL_CLOEXEC);
    if (all.epoll < 0 || turns_begin(all.epoll) < 0 || watch_children() < 0) return -1;
    if ((all.pipes = pipes_begin()) < 0 || watch(all.pipes, &all.pipes) < 0) return -1;
    if (all.more >= 0 && watch(all.more, &all.more) < 0) return -1;
    return add_listener(listener);
}

enum serve_result serve(int listener, const struct serve_settings *settings) {
    const pid_t child = settings->tracees.child;
    int status;
    all.settings = settings;
    if (begin(listener) < 0) return SERVE_REFUSED;
    if (tracees_begin(&settings->tracees, all.epoll) < 0) {
        bool is_there = contexts_have_daemon() || errno == EDQUOT || errno == EPERM || errno == ENOMEM;
        return is_there && errno != ETIMEDOUT ? SERVE_REFUSED : SERVE_NO_DAEMON;
    }
    if (settings->is_ready) settings->is_ready();
    run();
    /* the child loses the filter before it can be waited for */
    bool is_left = child > 0 && !all.has_told && TEMP_FAILURE_RETRY(waitpid(child, &status, 0)) == child;
    if (is_left) note_end(child, status);
    return SERVE_DONE;
}
