/* syscalls.c: what add_key(2), request_key(2) and keyctl(2) answer, from what keyretaind answers. Where the two
 * differ, the kernel's answer is given, as programs know it. */
#include "caller.h"
#include "library/session.h"

typedef const unsigned long *values;

enum { SERIAL_WIDTH = 4 };

static int32_t id_of(unsigned long value) { return (int32_t)(uint32_t)value; }
static const char *text_of(unsigned long value) { return (const char *)value; }

/* ---- What a call names ---- */

/* A daemon that was started anew gives the serials of the last one to other keys. So one that this process knows from
 * the last one is refused as revoked, until this one has told it too. */
static bool names_stale(const struct caller *caller, const struct key_row *row, values at) {
    for (int i = 0; i < KEY_ARGUMENTS; i++)
        if (row->at[i] == KEY_ID && serials_is_stale(caller->serials, id_of(at[i]))) return true;
    return false;
}

/* A session that is lost is refused as a revoked one: made anew it would hide that its keys are gone. */
static bool wants_session(const struct key_row *row, values at) {
    return row->wants_session || key_row_names(row, at, KEY_SPEC_SESSION_KEYRING);
}

/* ---- What is known without the daemon ---- */

long key_set_reqkey(int *chosen, int choice) {
    int before = *chosen;
    if (choice < KEY_REQKEY_DEFL_NO_CHANGE || choice > KEY_REQKEY_DEFL_REQUESTOR_KEYRING ||
        choice == KEY_REQKEY_DEFL_GROUP_KEYRING)
        return fail_as(EINVAL);
    if (choice != KEY_REQKEY_DEFL_NO_CHANGE) *chosen = choice;
    return before;
}

static long check_request(values at) {
    if (!at[0] || !at[1]) return fail_as(EFAULT);
    return at[3] && strlen(text_of(at[3])) >= (size_t)sysconf(_SC_PAGESIZE) ? fail_as(EINVAL) : 0;
}

/* What a kernel refuses before it looks at a key: 0 where it goes on. */
static long check(const struct key_row *row, values at) {
    if (key_row_check_payload(row, at) < 0) return -1;
    switch (row->call) {
    case CALL_ADD_KEY: return !at[0] ? fail_as(EFAULT) : 0;
    case CALL_REQUEST_KEY: return check_request(at);
    case KEYCTL_SEARCH: return !at[1] || !at[2] ? fail_as(EFAULT) : 0;
    case KEYCTL_JOIN_SESSION_KEYRING: return at[0] && !*text_of(at[0]) ? fail_as(EINVAL) : 0;
    case KEYCTL_RESTRICT_KEYRING: return !at[1] != !at[2] ? fail_as(EINVAL) : 0;
    case KEYCTL_MOVE: return (unsigned)at[3] & ~(unsigned)KEYCTL_MOVE_EXCL ? fail_as(EINVAL) : 0;
    case KEYCTL_WATCH_KEY: return (int)at[2] < -1 || (int)at[2] > UINT8_MAX ? fail_as(EINVAL) : 0;
    default: return 0;
    }
}

/* Whether a call is answered here, with *answer. Nobody ever has an authority, as nothing is constructed by upcalls. */
static bool is_answered_here(const struct key_row *row, values at, long *answer) {
    static __thread int chosen;
    int32_t id = id_of(at[0]);
    if (row->refused) return *answer = fail_as(row->refused), true;
    if (row->call == KEYCTL_WATCH_KEY && !caller_has_pipes()) return *answer = fail_as(EOPNOTSUPP), true;
    if (row->call == KEYCTL_ASSUME_AUTHORITY) return *answer = id ? fail_as(id < 0 ? EINVAL : ENOKEY) : 0, true;
    if (row->call == KEYCTL_SET_REQKEY_KEYRING) return *answer = key_set_reqkey(&chosen, (int)at[0]), true;
    return false;
}

/* ---- What the daemon answers ---- */

/* A search for a type or a description that no key has: the kernel finds none, the daemon refuses it. */
static long search(struct caller *caller, int call, values at) {
    values texts = call == CALL_REQUEST_KEY ? at : at + 1;
    const char *type = text_of(texts[0]), *description = text_of(texts[1]);
    int32_t ring = id_of(texts[2]);
    long serial = call == CALL_REQUEST_KEY
                      ? kr_request(caller->connection, caller->context, type, description, ring)
                      : kr_search(caller->connection, caller->context, id_of(at[0]), type, description, ring);
    bool finds_none = errno == ENODEV || (errno == EINVAL && *type && !*description);
    return serial < 0 && finds_none ? fail_as(ENOKEY) : serial;
}

/* A text with a null byte, which the kernel counts, and puts there only where all of it has room. */
static long describe(struct caller *caller, int32_t id, char *buffer, size_t room) {
    long length = kr_describe(caller->connection, caller->context, id, buffer, room > 0 ? room - 1 : 0);
    if (length < 0) return -1;
    if (buffer && room > (size_t)length) buffer[length] = '\0';
    return length + 1;
}

/* The kernel says of an id that none can be that there is no key, and puts no null byte behind a payload. */
static long read_key(struct caller *caller, int32_t id, void *buffer, size_t room) {
    const struct kr_field field = { .number = (uint32_t)id };
    long length = kr_ask(caller->connection, KR_READ, caller->context, &field, buffer, room);
    return length < 0 && errno == EINVAL ? fail_as(ENOKEY) : length;
}

/* No label is kept: the kernel gives an empty one to those who may view the key. */
static long get_security(struct caller *caller, int32_t id, char *buffer, size_t room) {
    if (kr_describe(caller->connection, caller->context, id, NULL, 0) < 0) return -1;
    if (buffer && room > 0) *buffer = '\0';
    return 1;
}

static long change_owner(struct caller *caller, int32_t id, uint32_t uid, uint32_t gid) {
    if (uid == UINT32_MAX && gid == UINT32_MAX) return 0; /* the kernel doesn't look at the key then */
    return kr_chown(caller->connection, caller->context, id, uid, gid);
}

/* No type here has a restriction of its own. */
static long restrict_keyring(struct caller *caller, int32_t ring, const char *type) {
    long answer = kr_restrict_keyring(caller->connection, caller->context, ring, type);
    return answer < 0 && errno == EINVAL && type ? fail_as(ENOENT) : answer;
}

static long capabilities(unsigned char *buffer, size_t room) {
    const unsigned char known[2] = { KEYCTL_CAPS0_CAPABILITIES | KEYCTL_CAPS0_INVALIDATE |
                                     KEYCTL_CAPS0_RESTRICT_KEYRING | KEYCTL_CAPS0_MOVE,
                                     caller_has_pipes() ? KEYCTL_CAPS1_NOTIFICATIONS : 0 };
    if (buffer && room > 0) {
        memset(buffer, 0, room);
        memcpy(buffer, known, room < sizeof known ? room : sizeof known);
    }
    return sizeof known;
}

static long answer(struct caller *caller, int call, values at) {
    struct kr *connection = caller->connection;
    uint32_t context = caller->context;
    int32_t id = id_of(at[0]);
    switch (call) {
    case CALL_ADD_KEY:
        return kr_add(connection, context, text_of(at[0]), text_of(at[1]), (void *)at[2], at[3], id_of(at[4]));
    case CALL_REQUEST_KEY:
    case KEYCTL_SEARCH: return search(caller, call, at);
    case KEYCTL_GET_KEYRING_ID: return kr_get_id(connection, context, id, (int)at[1] != 0);
    case KEYCTL_JOIN_SESSION_KEYRING: return caller_join(caller, text_of(at[0]));
    case KEYCTL_UPDATE: return kr_update(connection, context, id, (void *)at[1], at[2]);
    case KEYCTL_REVOKE: return kr_revoke(connection, context, id);
    case KEYCTL_CHOWN: return change_owner(caller, id, (uint32_t)at[1], (uint32_t)at[2]);
    case KEYCTL_SETPERM: return kr_setperm(connection, context, id, (uint32_t)at[1]);
    case KEYCTL_DESCRIBE: return describe(caller, id, (char *)at[1], at[2]);
    case KEYCTL_CLEAR: return kr_clear(connection, context, id);
    case KEYCTL_LINK: return kr_link(connection, context, id, id_of(at[1]));
    case KEYCTL_UNLINK: return kr_unlink(connection, context, id, id_of(at[1]));
    case KEYCTL_READ: return read_key(caller, id, (void *)at[1], at[2]);
    case KEYCTL_SET_TIMEOUT: return kr_set_timeout(connection, context, id, (uint32_t)at[1]);
    case KEYCTL_GET_SECURITY: return get_security(caller, id, (char *)at[1], at[2]);
    case KEYCTL_INVALIDATE: return kr_invalidate(connection, context, id);
    case KEYCTL_RESTRICT_KEYRING: return restrict_keyring(caller, id, text_of(at[1]));
    case KEYCTL_MOVE: return kr_move(connection, context, id, id_of(at[1]), id_of(at[2]), (uint32_t)at[3]);
    case KEYCTL_CAPABILITIES: return capabilities((unsigned char *)at[0], at[1]);
    case KEYCTL_WATCH_KEY: return caller_watch(caller, id, (int)at[1], (int)at[2]);
    default: return fail_as(EOPNOTSUPP);
    }
}

static int32_t link_at(const uint8_t *links, long place) { return (int32_t)kr_get_u32(links + place); }

/* Whether one of these would be new: above all that are known, or an earlier daemon's. */
static bool tells_new(const struct serials *serials, const uint8_t *links, long length) {
    for (long i = 0; i < length; i += SERIAL_WIDTH) {
        int32_t link = link_at(links, i);
        if (link > serials->highest || serials_is_stale(serials, link)) return true;
    }
    return false;
}

/* The serials of a keyring that was read. That it is one takes an ask, for a key that is none the first time alone. */
static void know_links(struct caller *caller, values at, long length) {
    const uint8_t *links = (const uint8_t *)at[1];
    struct kr_attributes ring;
    int32_t id = id_of(at[0]);
    if (!links || length % SERIAL_WIDTH != 0 || (unsigned long)length > at[2]) return;
    if (!tells_new(caller->serials, links, length)) return;
    if (serials_is_plain(caller->serials, id)) return;
    errno = 0;
    int unknown = kr_read_attributes(caller->connection, caller->context, id, &ring);
    if (unknown == 1 && errno == 0) serials_add_plain(caller->serials, id);
    if (unknown) return;
    for (long i = 0; i < length; i += SERIAL_WIDTH) serials_add(caller->serials, link_at(links, i));
}

/* What this daemon has told, and what it was asked about and knew. */
static void know_serials(struct caller *caller, const struct key_row *row, values at, long result) {
    bool is_asked = row->call != KEYCTL_CHOWN || (uint32_t)at[1] != UINT32_MAX || (uint32_t)at[2] != UINT32_MAX;
    if (result < 0 || !is_asked) return;
    if (row->answers_serial) serials_add(caller->serials, (int32_t)result);
    if (row->call == KEYCTL_READ) know_links(caller, at, result);
    for (int i = 0; i < KEY_ARGUMENTS; i++)
        if (row->at[i] == KEY_ID) serials_add(caller->serials, id_of(at[i]));
}

static long ask(struct caller *caller, const struct key_row *row, values at) {
    int32_t id = id_of(at[0]);
    if ((caller->lost_session && wants_session(row, at)) || names_stale(caller, row, at)) return fail_as(EKEYREVOKED);
    /* the kernel makes a missing thread or process keyring for more commands than the daemon does */
    if (row->makes_special && (id == KEY_SPEC_THREAD_KEYRING || id == KEY_SPEC_PROCESS_KEYRING))
        kr_get_id(caller->connection, caller->context, id, 1);
    long result = answer(caller, row->call, at);
    know_serials(caller, row, at, result);
    /* what nobody has here: the key of an authority, and the keyring of its requestor */
    bool names_authority = key_row_names(row, at, KEY_SPEC_REQKEY_AUTH_KEY) ||
                           key_row_names(row, at, KEY_SPEC_REQUESTOR_KEYRING);
    return result < 0 && errno == EINVAL && names_authority ? fail_as(ENOKEY) : result;
}

long key_call_of_row(const struct key_row *row, struct arguments arguments) {
    values at = arguments.at;
    struct caller caller = { .names_thread = key_row_names(row, at, KEY_SPEC_THREAD_KEYRING),
                             .joins = row->call == KEYCTL_JOIN_SESSION_KEYRING };
    long result;
    if (check(row, at) < 0) return -1;
    if (is_answered_here(row, at, &result)) return result;
    if (!caller_enter(&caller)) return -1;
    result = ask(&caller, row, at);
    bool is_there = result >= 0 || errno != ENOKEY;
    caller.may_hold = key_row_names(row, at, KEY_SPEC_PROCESS_KEYRING) && is_there;
    caller.may_hold_thread = key_row_names(row, at, KEY_SPEC_THREAD_KEYRING) && is_there;
    caller_leave(&caller, result);
    return result;
}

long key_call(int call, struct arguments arguments) { return key_call_of_row(key_row_of(call), arguments); }
