/* notes.h: notes of keys (notifications) for what a supervisor serves: pipes of notes as pipe2(2) makes them with
 * O_NOTIFICATION_PIPE, and the queues of the daemon that stand behind them.
 *
 * Who has the pipe's descriptor reads it, sets its size and filter, and adds watches of keys that it may view itself:
 * as in the kernel. Nothing can be sent to the supervisor by it. */
#ifndef KEYRETAIN_NOTES_H
#define KEYRETAIN_NOTES_H

#include "sessions.h"

/* As in linux/watch_queue.h, which can't be included beside fcntl.h. */
enum { O_NOTIFICATION_PIPE = O_EXCL, IOC_WATCH_QUEUE_SET_SIZE = 0x5760, IOC_WATCH_QUEUE_SET_FILTER = 0x5761 };

enum { FILTERS = 16, FILTER_HEAD = 8, HELD = 1024, LOSS = 8 /* bytes of what a filter begins with, of a record */ };

/* Of a key, by its serial; the identity is of who has set it. One that was taken away is here until its pipe is told
 * so. */
struct watch {
    int32_t key, id;
    uint32_t owner, group; /* of the key */
    bool is_ring, has_ended;
    struct kr_identity identity;
    struct watch *next;
};

struct pipe {
    int writer;
    ino_t inode;  /* of its readers, by which it is known */
    uint32_t uid; /* of who made it */
    uint32_t capacity; /* records; 0 until it is said */
    uint32_t count;    /* entries of its filter; 0 is no filter */
    struct kr_entry filter[FILTERS];
    uint32_t queue; /* the daemon's number for it; 0 before the first watch */
    struct watch *watches;
    uint8_t held[HELD + LOSS]; /* records that it had no room for, from `start` to `end` */
    size_t start, end;
    bool is_due, is_asked, is_lost; /* its queue is to be read; is being read; is no more */
    struct pipe *next;
};

/* ---- pipes.c: what the program has ---- */

/* A descriptor of epoll(7) that tells of pipes, for pipes_take; -1 with errno. */
int pipes_begin(void);
void pipes_take(void);

struct pipe *pipes_first(void);

/* Whoever reads it sees its end. */
void pipe_end(struct pipe *pipe);

/* False where there is no room for all that is held, of which epoll(7) tells. */
bool pipe_put(struct pipe *pipe);

/* The calls of the thread that has entered: the answer, or -1 with errno. Of a filter so many bytes could be read; NULL
 * takes it away. For the last its own context is asked. */
long pipe_make(int given[2], unsigned flags);
long pipe_set_size(int descriptor, unsigned long capacity);
long pipe_set_filter(int descriptor, const uint8_t *from, size_t length);
long pipe_watch(struct kr *asker, uint32_t context, int32_t id, int descriptor, int watch);

/* ---- queues.c: what the daemon has, on a connection of its own, which is there while a pipe has a queue ----
 *
 * So no polling wears the connections on which keys are held. Where it is worn another takes its place, with all
 * watches: what happens to a key just then may be told twice, and what is not told is marked by a loss. */

/* Before a watch is set. It may end pipes: those of a daemon that is gone. False where there is no connection. */
bool queues_begin_call(void);

/* Sets a watch of a key that who asks may view, or takes it away for the id -1: 0, or -1 with errno. It is set as who
 * asks, or as the key's owner. */
long queue_watch(struct pipe *pipe, const struct watch *wanted);

/* Gives the daemon a pipe's filter, if it has a queue. */
long queue_set_filter(struct pipe *pipe);

/* Ends the queue of a pipe, and its watches. */
void queue_close(struct pipe *pipe);

/* Moves what waits in those queues that are due into their pipes. */
void queues_move(void);

/* A call has been carried out: what it has to tell is there before it is answered. */
void queues_after_call(const struct key_row *row, const unsigned long given[KEY_ARGUMENTS], long result);

/* What others change is looked for, in pauses that grow while nothing happens; and how many milliseconds are left of
 * such a pause, -1 while nobody watches. */
void queues_poll(void);
int queues_milliseconds(void);

#endif
