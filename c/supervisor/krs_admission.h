/* krs_admission.h: which session a process comes into. That is proved: the crates krs_admission and krs_admission_c, as
 * libkrs_admission_c.a. What is handed over is what the kernel tells, and is judged there alone. tests/tables compares
 * the structures with the crate's. */
#ifndef KRS_ADMISSION_H
#define KRS_ADMISSION_H

#include <assert.h>
#include <stdbool.h>
#include <stdint.h>

/* The uids or the gids of credentials(7), as they are in the user namespace that is served. */
struct admission_ids {
    uint32_t real, effective, saved, files;
};

/* Who runs a process. */
struct admission_process {
    struct admission_ids uids;
    uint32_t starter; /* AT_UID of getauxval(3): the real uid that has executed it */
    uint32_t owner;   /* of its files in /proc, which are its user's if that may trace it; or UINT32_MAX */
    uint32_t unknown; /* what stands for uids that have no number in the namespace: /proc/sys/kernel/overflowuid */
    uint32_t mapped;  /* how many uids have one: the sum of uid_map */
    bool has_auxv;    /* /proc/PID/auxv was read */
    bool is_secure;   /* AT_SECURE: it has more rights than who has executed it */
};

/* A session. Who has begun it, then and now: the latter where that process is known and still in it. */
struct admission_session {
    struct admission_process begun, beginner;
    uint64_t tag;
    bool has_beginner;
    bool is_there; /* it has not ended, and its keyring can be reached */
};

/* A process that wants a context. */
struct admission_arrival {
    struct admission_process process;
    struct admission_session held;   /* which it has begun, was given, or came into before */
    struct admission_session tagged; /* whose tag its limit is */
    struct admission_session above;  /* of the nearest process above that is known */
    uint64_t soft;                   /* its limit RLIMIT_LOCKS */
    uint32_t uid;                    /* as which it asks */
    bool has_limit;                  /* it could be read */
    bool has_held, has_tagged, has_above;
    bool knows_above; /* each process above could be looked at, up to that one or to the first */
    bool has_joined;  /* it has itself joined the session that it holds, and has executed nothing since */
    bool revokes;     /* it revokes that session */
};

/* The parent of a process that gives it its session. */
struct admission_parent {
    struct admission_process process;
    struct admission_ids gids;
    uint32_t number, supervisor; /* process IDs: its own, and of who serves it */
    uint32_t threads, seccomp;   /* of /proc/PID/status */
    struct admission_session held;
    bool has_held;
};

static_assert(sizeof(struct admission_ids) == 16, "struct admission_ids");
static_assert(sizeof(struct admission_process) == 36, "struct admission_process");
static_assert(sizeof(struct admission_session) == 88, "struct admission_session");
static_assert(sizeof(struct admission_arrival) == 328, "struct admission_arrival");
static_assert(sizeof(struct admission_parent) == 168, "struct admission_parent");

/* A tag is one of these numbers: the lowest, and how many there are. */
#define ADMISSION_TAG_BASE UINT64_C(0x4000000000000000)
#define ADMISSION_TAG_COUNT UINT64_C(0x2000000000000000)

enum admission_place {
    ADMISSION_LOST,         /* none: what names the session keyring is EKEYREVOKED */
    ADMISSION_USER_SESSION, /* none, so that it has the user-session keyring of its uid */
    ADMISSION_HELD,
    ADMISSION_TAGGED,
    ADMISSION_ABOVE,
    ADMISSION_JOINED
};

/* Which session it is in. */
uint32_t krs_admission_c_admit(const struct admission_arrival *arrival);

/* Whether it would come into the session that it holds by its tag, so that it need not be remembered. */
bool krs_admission_c_knows_again(const struct admission_arrival *arrival);

/* Whether a process whose limit is the tag of a session keeps that from its end. */
bool krs_admission_c_keeps(const struct admission_process *process, const struct admission_session *session);

/* Whether a process with these uids and gids, which has the session, may give it to its parent. */
bool krs_admission_c_may_be_given(const struct admission_parent *parent, const struct admission_ids *uids,
                                  const struct admission_ids *gids, const struct admission_session *session);

/* The uid of uids, and the gid of gids, as which a call is asked. is_of_user: it begins a session, or names the user
 * keyring or the user-session keyring. */
uint32_t krs_admission_c_asks_as(const struct admission_ids *ids, bool is_of_user);

/* Whether a process that has joined a session itself, as a user with this uid, is in it still: while that is its real
 * uid; where it revokes that session also while that is the uid of the file system. */
bool krs_admission_c_stays(const struct admission_process *process, uint32_t uid, bool revokes);

/* Whether a session that a process begins is its alone, so that it is to have no name. */
bool krs_admission_c_begins_alone(const struct admission_process *process, bool has_name);

#endif
