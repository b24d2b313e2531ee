/* users.c: the identities of what a supervisor serves. */
#include "entries.h"

enum { ABSENT_SWEEPS = 2, LINK_BYTES = 4, LOOK_MILLISECONDS = 1000, PAUSE_MILLISECONDS = 9000 };

static struct user *all; /* who came last is the first */
static int64_t next_look;

static struct told *told_use(uint32_t uid) {
    const struct user *other = FIND(all, at, at->identity.uid == uid);
    struct told *told = other ? other->told : calloc(1, sizeof *told);
    if (told) told->uses++;
    return told;
}

static void told_let_go(struct told *told) {
    if (--told->uses > 0) return;
    serials_clear(&told->serials);
    free(told);
}

static struct user *add_user(const struct kr_identity *identity) {
    struct user *user = calloc(1, sizeof *user);
    if (!user || !(user->told = told_use(identity->uid))) return forgotten(user);
    user->identity = *identity;
    if (context_hello(&user->context, identity) < 0) {
        told_let_go(user->told);
        return forgotten(user);
    }
    user->next = all;
    return all = user;
}

struct user *users_find(const struct kr_identity *identity) {
    struct user *user = FIND(all, at, memcmp(&at->identity, identity, sizeof *identity) == 0);
    if (!user) return add_user(identity);
    user->absent = 0;
    user->is_away = false;
    user_use(user); /* what is given up to make room isn't this one */
    bool is_there = context_connection(&user->context) || context_hello(&user->context, identity) == 0;
    user_let_go(user);
    return is_there ? user : NULL;
}

struct user *user_use(struct user *user) {
    user->uses++;
    return user;
}

void user_let_go(struct user *user) {
    if (!user || --user->uses > 0) return;
    user->absent = 0;
    user->has_keys = false;
}

/* ---- Giving up ---- */

/* The user-session keyring has a link to the user keyring, and nothing else at first. */
static bool would_lose_keys(const struct user *user) {
    struct kr *connection = context_connection(&user->context);
    const struct user *keeper = FIND(all, other, other != user && other->identity.uid == user->identity.uid &&
                                                     context_connection(&other->context));
    if (!connection || keeper) return false;
    uint8_t link[LINK_BYTES];
    uint32_t context = user->context.number;
    return kr_read(connection, context, KEY_SPEC_USER_KEYRING, NULL, 0) != 0 ||
           kr_read(connection, context, KEY_SPEC_USER_SESSION_KEYRING, link, sizeof link) != LINK_BYTES ||
           (int32_t)kr_get_u32(link) != kr_get_id(connection, context, KEY_SPEC_USER_KEYRING, 0);
}

static void end_user(struct user *user) {
    TAKE_OUT(all, user);
    context_end(&user->context);
    told_let_go(user->told);
    free(user);
}

static bool may_be_given_up(const struct user *user) { return user->uses == 0 && !user->has_keys; }

bool users_want_sweep(void) { return contexts_are_many() || FIND(all, user, may_be_given_up(user)); }

void users_sweep(void) {
    for (struct user *user = all, *next; user; user = next) {
        next = user->next;
        if (!may_be_given_up(user) || ++user->absent < ABSENT_SWEEPS) continue;
        user->has_keys = would_lose_keys(user);
        if (!user->has_keys) end_user(user);
    }
    bool is_time = kr_now() >= next_look + PAUSE_MILLISECONDS;
    while (is_time && contexts_are_many() && users_give_up_keys()) {}
}

bool users_make_room(unsigned age) {
    for (struct user *user = all; user; user = user->next) {
        bool is_there = age ? user->context.age == age : !context_is_old(&user->context);
        bool is_one = is_there && may_be_given_up(user) && context_connection(&user->context);
        if (!is_one || (user->has_keys = would_lose_keys(user))) continue;
        end_user(user);
        return true;
    }
    return false;
}

/* Also a thread that has asked nothing keeps its users' keys: user-keyring(7). How many its process has. */
static unsigned see_users(pid_t thread) {
    struct proc_status status;
    if (!proc_read_status(thread, &status)) return 0;
    uint32_t real = maps_uid(status.uids.real), effective = maps_uid(status.uids.effective);
    uint32_t saved = maps_uid(status.uids.saved);
    for (struct user *user = all; user; user = user->next) {
        uint32_t uid = user->identity.uid;
        user->is_away &= uid != real && uid != effective && uid != saved;
    }
    return status.threads;
}

/* False where its threads can't be seen, which may have other uids each. */
static bool see_process(pid_t process) {
    if (see_users(process) == 1) return true; /* 0 where it isn't known */
    DIR *threads = proc_begin(process);
    if (!threads) return errno == ENOENT;
    for (pid_t thread; (thread = proc_next(threads)) > 0;) see_users(thread);
    closedir(threads);
    return true;
}

/* All wait meanwhile, so it is done once a second. Who came since isn't away, nor is anybody where it can't be seen. */
static void look_who_is_away(void) {
    if (kr_now() < next_look) return;
    DIR *processes = proc_begin(0);
    bool is_seen = processes != NULL;
    for (struct user *user = all; user; user = user->next) user->is_away = is_seen;
    if (!processes) return;
    for (pid_t process; is_seen && (process = proc_next(processes)) > 0;) is_seen = see_process(process);
    for (struct user *user = all; user; user = user->next) user->is_away &= is_seen;
    closedir(processes);
    next_look = kr_now() + LOOK_MILLISECONDS;
}

/* Of those that are away the one that came last: so who comes in many identities loses its own first. */
bool users_give_up_keys(void) {
    look_who_is_away();
    struct user *user = FIND(all, at, at->is_away && at->uses == 0 && context_connection(&at->context) &&
                                          !context_is_old(&at->context));
    if (user) end_user(user);
    return user != NULL;
}

void users_renew(void) {
    for (struct user *user = all, *next; user; user = next) {
        struct context before = user->context;
        user_use(user); /* what is given up to make room isn't this one */
        if (context_is_old(&before) && context_hello(&user->context, &user->identity) == 0) context_end(&before);
        next = user->next;
        user_let_go(user);
    }
}
