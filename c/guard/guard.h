/* guard.h: the parts of keyretain-guard. */
#ifndef KEYRETAIN_GUARD_H
#define KEYRETAIN_GUARD_H

#include "common/common.h"

#include <pthread.h>
#include <semaphore.h>

#include "krs_screen.h"
#include "common/listener.h"

enum { PAUSE = 20 }; /* milliseconds, before what lacked something is tried again */

/* ---- options.c: what the guard was told on its command line ---- */

enum {
    TRUSTED_MAX = 16,
    CONNECTIONS_MAX = 256, /* lanes of a daemon */
};

enum status { USAGE = 2, NO_SOCKET = 3 };

extern struct options {
    const char *listen_path; /* NULL: the socket is passed */
    struct sockaddr_un daemon;
    unsigned connections, per_uid, hello_seconds, mode;
    uint32_t trusted[TRUSTED_MAX];
    unsigned trusted_count;
    bool has_filter;
} options;

/* Prints why, and ends the process. */
_Noreturn void fail(const char *why, enum status status);
_Noreturn void fail_usage(void);

void read_options(int count, char **words);
bool is_trusted_uid(uint32_t uid);

/* ---- peer.c: who has connected, as the kernel says ---- */

/* What the kernel says for ids that have no number here; UINT32_MAX where each has one. */
extern uint32_t unknown_uid, unknown_gid;

void find_unknown_ids(void);

/* The supplementary groups that the peer had when it connected; none where the kernel doesn't say. They stay until they
 * are given back, and meanwhile no other thread gets any. */
uint32_t *borrow_groups(int client, size_t *count);
void return_groups(void);

/* A line to standard error, if it takes one at once. At most ten are told in a second, as whoever is refused may ask
 * again at once, and at most eight that clients bring about: none of them hides what is wrong with the daemon. Its last
 * line comes in any case. */
enum lines { OF_CLIENTS = 8, OF_DAEMON = 10, OF_THE_END };
void tell(enum lines most, const char *format, ...) __attribute__((format(printf, 2, 3)));

/* ---- refused.c: clients that get no place. Each is told so, by EDQUOT in reply to its first ask, and then
 * disconnected ---- */

/* So many wait for their first ask to come; at most so few where descriptors are short. */
enum { REFUSED_MAX = 64, REFUSED_FEW = 16 };
extern int refused_most;

/* Takes the client over. Where as many wait already, one of its uid is ended, or else of any: who came first. */
void refuse_client(int client, uint32_t uid);

/* What is to be waited for, in so many entries. Answers until when, or INT64_MAX. */
int64_t put_refused(struct pollfd *waited);

/* Answers those of whom something has come, and ends them, and those of whom nothing has come for five seconds. */
void end_refused(const struct pollfd *waited, int64_t now);

/* ---- way.c: what goes one way between two sockets, from where it comes to where it is judged and given ----
 *
 * Who takes the last byte of a message from a Unix socket wakes its sender, which mostly waits for the answer and
 * sleeps again. So a message may be looked at alone (MSG_PEEK), and given, and stay in the socket that it came from
 * until its sender has something to read: it then wakes once. */

enum { ROOM = 16384 }; /* so much is read at once, behind what waits for more */

struct way {
    int from, to;         /* -1 where it isn't open */
    size_t there;         /* bytes that are here */
    size_t passed, given; /* how many of them may be given, and how many have been */
    size_t looked_at;     /* bytes that are still in the socket that they came from */
    size_t untaken;       /* how many of these were given */
    bool is_looked_at;    /* those that are here are still there as well */
    bool is_over;         /* nothing more is read */
    uint8_t bytes[SCREEN_ASK_MAX + ROOM];
};

void begin_way(struct way *way, int from, int to);

/* Reads what has come behind that which was given, or looks at it. Whether there is any. */
bool bring(struct way *way, bool looks);

/* Takes what was given and is still in its socket. Whether more has come behind it, which is here then. */
bool take(struct way *way);

/* Gives as much as is taken at once. Whether all has been given that may be, or none ever will be; what isn't judged
 * stays here, or in its socket where it was looked at. */
bool give(struct way *way);

/* Whether all has been given, and nothing more will be read. */
bool is_done(const struct way *way);

/* Takes what is left in the socket, so that its end is no reset, and wipes what is here. */
void end_way(struct way *way);

/* Whether a call that has failed may be made again: after a pause where it lacked something. */
bool may_be_again(void);

/* ---- link.c: a place for a client, with its connection to the daemon ----
 *
 * One thread serves it: it waits for both sockets at once, has judged what it reads, and gives it. While one side takes
 * no more, nothing more is read for it. */

struct link {
    pthread_mutex_t lock; /* of what comes next */
    bool is_ended; /* it was silent for too long */
    bool has_greeted;
    int client, server; /* -1 in a free place, and the server before the first frame; its thread alone closes them */
    struct peer peer;
    int64_t deadline;  /* for the first HELLO */
    sem_t has_client;  /* what the thread waits for where there is none */
    struct screen screen; /* this and what comes next are the thread's own */
    bool is_told;         /* that the daemon doesn't answer */
    struct way asks, replies;
};

/* An eventfd(2) that counts the places that have become free: to be made first. */
extern int freed;

/* Starts the thread of each place, and waits until all have begun. False where the system allows so many not. */
bool make_links(struct link *links, unsigned count);

/* Gives a free place to this client. */
void begin_link(struct link *link, int client, const struct peer *peer, int64_t deadline);

/* Whether a place is taken, and by whom. */
bool find_owner(struct link *link, uint32_t *uid);

/* Ends it where its first HELLO hasn't passed by now. Answers the moment at which that is to be looked at again. */
int64_t end_if_silent(struct link *link, int64_t now);

/* ---- filter.c: the system calls that are left, to all threads, once everything is open ---- */

bool filter_system_calls(void);

#endif
