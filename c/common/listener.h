/* listener.h: a socket that listens at a path: the guard's, and that of keyretain-agent. All programs there
 * have their closed descriptors filled by it. */
#ifndef KEYRETAIN_GUARD_LISTENER_H
#define KEYRETAIN_GUARD_LISTENER_H

#include <stdbool.h>
#include <sys/un.h>

/* Opens those of the three standard descriptors that are closed: a socket would get their number, and what is told
 * there. False where that can't be done. */
bool fill_standard_descriptors(void);

/* False where the path is too long, or empty. */
bool put_address(struct sockaddr_un *address, const char *path);

/* The socket that systemd has passed (sd_listen_fds(3)), at which root or the effective user listens; or -1. */
int take_passed_listener(void);

/* Whether clients may send descriptors (SCM_RIGHTS). Those that nobody takes are closed by whoever reads or closes
 * their socket, which may wait for as long as their sender likes: for what a socket has still to send (SO_LINGER), or
 * for a file system that the sender serves. */
enum descriptors { DESCRIPTORS_REFUSED, DESCRIPTORS_TAKEN };

/* From now on clients that connect can send none: EPERM. Linux before 6.16 can't do that. */
void refuse_descriptors(int listener);

/* A socket that listens at a path. A socket that nobody listens to is removed there first. -1 where there is none. */
int open_listener(const char *path, unsigned mode, enum descriptors descriptors);

/* Whether the other end of a connection is a process of the effective user's, by what the kernel says. */
bool is_own_peer(int connection);

#endif
