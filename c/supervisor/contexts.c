/* contexts.c: the connections of a supervisor, and the contexts in them. */
#include "sessions.h"

/* The daemon ends a connection after 16,777,216 reads of at most 4,096 bytes each. What is left of them is for
 * contexts that stay on it. */
#ifndef KEYRETAIN_READS
#define KEYRETAIN_READS 15000000
#endif

#ifndef KEYRETAIN_CALL_MILLISECONDS
#define KEYRETAIN_CALL_MILLISECONDS 30000
#endif

enum { CALL_MILLISECONDS = KEYRETAIN_CALL_MILLISECONDS, OPENING_MILLISECONDS = 10000 };

/* So many contexts of identities, and with sessions so many that last, may be on one connection: the rest is for
 * processes that ask. All wait while a further connection is opened, so one that fails isn't tried again at once. */
enum { IDENTITIES = 24, LASTING = 60, FURTHER_MILLISECONDS = 500, PAUSE_MILLISECONDS = 10000 };

/* Nobody else reads its name, and revokes or invalidates it, but for the time of one ask. */
enum { MASK_OF_MARK = 0x3f000000 };

/* Identities that no process has take this many connections at most, of those that others could have. */
enum { LINES_OF_ABSENT = 4 };

struct line {
    struct kr *connection;
    uint32_t mark; /* the context that is in the marked session */
    unsigned age, replaces; /* the age of the one in whose place it is, or 0 */
    unsigned count, lasting;
    bool is_old;
    unsigned long long most; /* reads, when it is worn */
    struct line *next;
};

static struct {
    struct line *lines; /* the youngest first */
    unsigned last_age, beginnings;
    int64_t next_further, next_apart;
    struct kr_where where;
    struct kr_identity identity;
    struct kr_session mark;
    bool (*make_room)(unsigned age);
    bool (*give_up_keys)(void);
} all;

/* ---- Connections ---- */

static void close_line(struct line *line) {
    TAKE_OUT(all.lines, line);
    kr_close(line->connection);
    free(line);
}

static bool set_mark(const struct line *line, uint32_t mask) {
    return kr_setperm(line->connection, line->mark, all.mark.serial, mask) == 0;
}

/* The marked session's user may search it, by its name, for the time of this. It also shows whether the daemon of the
 * connections before has ended. */
static bool enter_mark(const struct line *line) {
    const struct line *before = FIND(all.lines, at, !kr_is_broken(at->connection));
    bool is_open = before && set_mark(before, MASK_OF_MARK | KR_USER_MAY_SEARCH);
    bool has_entered = is_open && kr_enter_named(line->connection, line->mark, &all.mark, all.identity.uid) == 0;
    return before && set_mark(before, MASK_OF_MARK) && has_entered; /* also where no answer came in time */
}

/* Another daemon has none of what there is on the other connections, and it may listen in the same process: behind a
 * guard, say. So the first connection makes a session of a random name, and each further one is to enter that. It takes
 * a context of each. */
static bool has_mark(struct line *line) {
    int64_t context = kr_hello_as(line->connection, &all.identity);
    if (context < 0) return false;
    line->mark = (uint32_t)context;
    if (all.lines) return enter_mark(line);
    if (kr_name_session(&all.mark, NULL) < 0) return false;
    all.mark.serial = kr_join(line->connection, line->mark, all.mark.name);
    return all.mark.serial > 0 && set_mark(line, MASK_OF_MARK);
}

static struct line *open_line(int milliseconds) {
    struct kr *connection = kr_open_with(all.where.path, 0, milliseconds);
    struct line *line = connection ? calloc(1, sizeof *line) : NULL;
    if (!line) return kr_close(connection), NULL;
    connection->patience = -1; /* `until` bounds each call */
    connection->until = kr_now() + milliseconds;
    *line = (struct line){ .connection = connection, .age = ++all.last_age, .most = KEYRETAIN_READS,
                           .next = all.lines };
    if (!has_mark(line)) return kr_close(connection), forgotten(line);
    all.beginnings += !all.lines;
    return all.lines = line;
}

/* A further one. Where none was had, and the daemon has answered on another one since, it is tried once more: it may
 * have been slow, and have a lane. */
static struct line *open_further(void) {
    struct line *line = open_line(FURTHER_MILLISECONDS);
    const struct line *before = line ? NULL : FIND(all.lines, at, !kr_is_broken(at->connection));
    return before && set_mark(before, MASK_OF_MARK) ? open_line(FURTHER_MILLISECONDS) : line;
}

int contexts_begin(const char *path, const struct kr_identity *identity, bool (*make_room)(unsigned age),
                   bool (*give_up_keys)(void)) {
    all.identity = *identity;
    all.make_room = make_room;
    all.give_up_keys = give_up_keys;
    return kr_locate(&all.where, path) == 0 && open_line(OPENING_MILLISECONDS) ? 0 : -1;
}

void contexts_set_deadline(void) {
    for (struct line *line = all.lines, *next; line; line = next) {
        next = line->next;
        if (kr_is_broken(line->connection)) {
            close_line(line);
            continue;
        }
        line->connection->until = kr_now() + CALL_MILLISECONDS;
        line->connection->was_seen = true; /* nobody else here closes its socket */
    }
}

static struct line *first_in_use(void) { return FIND(all.lines, line, !line->is_old); }

/* Other errors say that no daemon is there. */
static bool is_told(int error) {
    return error == ENOMEM || error == EACCES || error == ETIMEDOUT || error == ECONNRESET || error == EDQUOT ||
           error == EPERM;
}

/* Where it shows that the daemon of the other connections has ended, these are closed, and another counts alone. */
int contexts_begin_call(void) {
    contexts_set_deadline();
    while (!first_in_use() && !open_line(OPENING_MILLISECONDS)) {
        if (!FIND(all.lines, line, kr_is_broken(line->connection)))
            return is_told(errno) ? -1 : fail_as(ENOSYS);
        contexts_set_deadline();
    }
    return 0;
}

bool contexts_have_daemon(void) { return FIND(all.lines, line, !kr_is_broken(line->connection)) != NULL; }
unsigned contexts_beginnings(void) { return all.beginnings; }

void contexts_tidy(void) {
    for (struct line *line = all.lines, *next; line; line = next) {
        next = line->next;
        if (line->count == 0 && line != first_in_use()) close_line(line);
    }
}

/* ---- Connections that are worn ---- */

static unsigned long long reads_of(const struct line *line) {
    return line->connection->asked + line->connection->further_reads;
}

static struct line *find_line(unsigned age) { return FIND(all.lines, line, line->age == age); }

/* Where there is no other connection it is tried again a while later. */
bool contexts_renew(void) {
    struct line *worn = FIND(all.lines, at, !at->is_old && reads_of(at) >= at->most);
    struct line *line = worn ? open_line(OPENING_MILLISECONDS) : NULL;
    if (worn && !line) worn->most = reads_of(worn) + KEYRETAIN_READS / 100;
    if (!line) return false;
    struct line *before = find_line(worn->replaces); /* none has the age 0 */
    if (before) close_line(before);
    worn->is_old = true;
    line->replaces = worn->age;
    return true;
}

/* One that fails isn't tried again at once, as all wait meanwhile. */
struct kr *contexts_open_apart(void) {
    bool may_try = contexts_have_daemon() && kr_now() >= all.next_apart;
    struct line *line = may_try ? open_further() : NULL;
    if (may_try && !line) all.next_apart = kr_now() + PAUSE_MILLISECONDS;
    if (!line) return NULL;
    struct kr *connection = line->connection;
    TAKE_OUT(all.lines, line);
    free(line);
    return connection;
}

/* ---- Contexts ---- */

static struct line *line_of(const struct context *context) {
    struct line *line = context->number != 0 ? find_line(context->age) : NULL;
    return line && !kr_is_broken(line->connection) ? line : NULL;
}

struct kr *context_connection(const struct context *context) {
    struct line *line = line_of(context);
    return line ? line->connection : NULL;
}

bool context_is_old(const struct context *context) {
    const struct line *line = line_of(context);
    return line && line->is_old;
}

unsigned context_left(const struct context *context) {
    const struct line *line = line_of(context);
    return line ? KR_CONTEXTS - 1 - line->count : KR_CONTEXTS; /* one more has the mark */
}

/* Whether the ask is to be made again: EINVAL is that of a client with as many contexts as it may have. */
static bool again(const struct line *line, int64_t number) {
    if (number >= 0 || errno != EINVAL) return false;
    if (all.make_room(line->age)) return true;
    errno = EDQUOT;
    return false;
}

static int take(struct context *made, struct line *line, int64_t number, bool lasts) {
    if (number < 0) return -1;
    *made = (struct context){ line->age, (uint32_t)number, lasts };
    line->count++;
    line->lasting += lasts;
    return 0;
}

static int hello_on_further(struct context *made, const struct kr_identity *identity) {
    struct line *line = kr_now() < all.next_further ? NULL : open_further();
    int64_t number = line ? kr_hello_as(line->connection, identity) : -1;
    if (number < 0) {
        if (line) close_line(line);
        all.next_further = kr_now() + PAUSE_MILLISECONDS;
        return fail_as(EDQUOT);
    }
    line->connection->until = kr_now() + CALL_MILLISECONDS;
    return take(made, line, number, true);
}

static int hello_where_room_is(struct context *made, const struct kr_identity *identity) {
    struct line *line;
    int64_t number;
    do line = FIND(all.lines, at, !at->is_old && at->lasting < IDENTITIES);
    while (!line && all.make_room(0));
    if (!line) return fail_as(EDQUOT);
    do number = kr_hello_as(line->connection, identity);
    while (again(line, number));
    return take(made, line, number, true);
}

static int count_in_use(void) {
    int count = 0;
    for (const struct line *line = all.lines; line; line = line->next) count += line->count > 0;
    return count;
}

bool contexts_are_many(void) { return count_in_use() > LINES_OF_ABSENT; }

int context_hello(struct context *made, const struct kr_identity *identity) {
    if (!all.lines) return fail_as(ENOSYS);
    for (;;) {
        if (hello_where_room_is(made, identity) == 0) return 0;
        if (errno != EDQUOT) return -1;
        if (count_in_use() >= LINES_OF_ABSENT && all.give_up_keys()) continue;
        if (hello_on_further(made, identity) == 0) return 0;
        if (!all.give_up_keys()) return fail_as(EDQUOT);
    }
}

static int derive(struct context *made, const struct context *from, int64_t (*ask)(struct kr *, uint32_t), bool lasts) {
    struct line *line = line_of(from);
    int64_t number;
    if (!line) return fail_as(ECONNRESET);
    while (lasts && line->lasting >= LASTING)
        if (!all.make_room(0)) return fail_as(EDQUOT);
    do number = ask(line->connection, from->number);
    while (again(line, number));
    return take(made, line, number, lasts);
}

int context_hold(struct context *made, const struct context *from) { return derive(made, from, kr_fork, true); }
int context_fork(struct context *made, const struct context *from) { return derive(made, from, kr_fork, false); }
int context_thread(struct context *made, const struct context *from) { return derive(made, from, kr_thread, false); }

void context_forget(struct context *context) {
    struct line *line = line_of(context);
    if (line) {
        line->count--;
        line->lasting -= context->lasts;
    }
    *context = (struct context){ 0 };
}

/* Waits for nothing, unless the daemon takes nothing more before it has given its replies. */
void context_end(struct context *context) {
    ERRNO_STAYS;
    struct kr *connection = context_connection(context);
    if (connection && !kr_tell(connection, KR_EXIT, context->number)) {
        connection->until = kr_now() + OPENING_MILLISECONDS;
        kr_exit(connection, context->number);
    }
    context_forget(context);
}
