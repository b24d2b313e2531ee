/* session.c: sessions that other processes find. A keyring of JOIN is found by its name, so the name says which one is
 * meant, and the serial whether it is still the same one. */
#include "session.h"

#include <sys/random.h>

enum { DECIMAL = 10 };

/* ---- Identity ---- */

/* The first groups of more than the daemon takes. */
static int first_groups(struct kr_identity *identity) {
    int count = getgroups(0, NULL);
    gid_t *all = count > 0 ? calloc((size_t)count, sizeof *all) : NULL;
    if (!all) return 0;
    count = getgroups(count, all);
    if (count > KR_GROUPS_MAX) count = KR_GROUPS_MAX;
    for (int i = 0; i < count; i++) identity->groups[i] = all[i];
    free(all);
    return count;
}

void kr_own_identity(struct kr_identity *identity) {
    _Static_assert(sizeof(gid_t) == sizeof identity->groups[0], "groups are 32 bits wide");
    memset(identity, 0, sizeof *identity);
    identity->uid = geteuid();
    identity->gid = getegid();
    int count = getgroups(KR_GROUPS_MAX, identity->groups);
    if (count < 0) count = first_groups(identity);
    identity->count = count > 0 ? (uint32_t)count : 0;
}

bool kr_may_be_again(const struct kr_identity *identity) {
    struct kr_identity own;
    uid_t real, effective, saved;
    gid_t real_group, effective_group, saved_group;
    getresuid(&real, &effective, &saved);
    getresgid(&real_group, &effective_group, &saved_group);
    if (real == 0 || effective == 0 || saved == 0) return true;
    bool has_uid = identity->uid == real || identity->uid == effective || identity->uid == saved;
    bool has_gid =
        identity->gid == real_group || identity->gid == effective_group || identity->gid == saved_group;
    kr_own_identity(&own);
    bool has_groups = own.count == identity->count && memcmp(own.groups, identity->groups, sizeof own.groups) == 0;
    return has_uid && has_gid && has_groups;
}

int64_t kr_hello_as(struct kr *connection, const struct kr_identity *identity) {
    return kr_hello(connection, identity->uid, identity->gid, identity->count, identity->groups);
}

/* ---- Names ---- */

bool kr_parse_session(struct kr_session *session, const char *text) {
    char *end;
    long serial = strtol(text, &end, DECIMAL);
    bool has_serial = *text >= '1' && *text <= '9' && *end == ':' && serial > 0 && serial <= INT32_MAX;
    const char *name = has_serial ? end + 1 : text;
    size_t length = strlen(name);
    if (length == 0 || length >= sizeof session->name) return false;
    session->serial = has_serial ? (int32_t)serial : 0;
    memcpy(session->name, name, length + 1);
    return true;
}

int kr_export_session(const struct kr_session *session) {
    char text[sizeof session->name + 16];
    snprintf(text, sizeof text, "%d:%s", (int)session->serial, session->name);
    return setenv(KR_SESSION_VARIABLE, text, 1);
}

int kr_name_session(struct kr_session *session, const char *name) {
    unsigned long long random[2];
    memset(session, 0, sizeof *session);
    if (name && strlen(name) >= sizeof session->name) return fail_as(EINVAL);
    if (name) return strcpy(session->name, name), 0;
    if (getrandom(random, sizeof random, 0) != (ssize_t)sizeof random) return -1;
    snprintf(session->name, sizeof session->name, "_ses.%016llx%016llx", random[0], random[1]);
    return 0;
}

/* ---- Keyrings ---- */

bool kr_parse_attributes(const char *described, struct kr_attributes *attributes) {
    return sscanf(described, "keyring;%u;%*u;%x;", &attributes->owner, &attributes->mask) == 2;
}

int kr_read_attributes(struct kr *connection, uint32_t context, int32_t ring, struct kr_attributes *attributes) {
    char text[KR_SESSION_NAME_ROOM + 64] = "";
    if (kr_describe(connection, context, ring, text, sizeof text - 1) < 0) return kr_is_broken(connection) ? -1 : 1;
    return kr_parse_attributes(text, attributes) ? 0 : 1;
}

int32_t kr_find_own(struct kr *connection, uint32_t context, int32_t head, const char *type, const char *name) {
    char text[KR_SESSION_NAME_ROOM + 64] = "";
    unsigned owner;
    int32_t key = kr_search(connection, context, head, type, name, 0);
    if (key < 0) return -1;
    if (kr_describe(connection, context, key, text, sizeof text - 1) < 0) return -1;
    errno = ENOKEY;
    return sscanf(text, "%*[^;];%u;", &owner) == 1 && owner == geteuid() ? key : -1;
}

/* Whether the keyring is this user's, and gives nothing to group and others. 1 where it isn't, or the daemon doesn't
 * tell; -1 where the connection fails. */
static int check_private(struct kr *connection, uint32_t context, int32_t ring, uint32_t uid,
                         struct kr_attributes *attributes) {
    int known = kr_read_attributes(connection, context, ring, attributes);
    if (known != 0) return known;
    return attributes->owner != uid || attributes->mask & KR_GROUP_AND_OTHERS;
}

/* Ends a context that is in another user's session, or may be; or else the connection. */
static int abandon(struct kr *connection, uint32_t context) {
    ERRNO_STAYS;
    if (!kr_tell(connection, KR_EXIT, context)) kr_break_off(connection, ECONNRESET);
    return -1;
}

/* Leaves what a context has joined for a keyring of its own, for which there may be no memory. */
static int leave_session(struct kr *connection, uint32_t context) {
    return kr_join(connection, context, NULL) < 0 ? abandon(connection, context) : 1;
}

/* JOIN by name. One whose answer isn't awaited any more may be carried out yet, and another user's keyring have the
 * name by then. */
static int32_t join_named(struct kr *connection, uint32_t context, const char *name) {
    int32_t ring = kr_join(connection, context, name);
    return ring < 0 && (errno == ETIMEDOUT || errno == EINTR) ? abandon(connection, context) : ring;
}

/* JOIN by name finds a keyring only where the caller may search it: a new one doesn't let its user do so, as the
 * kernel's doesn't, and would be lost to the next process. So its user is given that right. One of another user, who
 * made it first and open to all, may be found too: what is put into it would be told to that user. */
int32_t kr_begin_session(struct kr *connection, uint32_t context, const char *name, uint32_t uid) {
    struct kr_attributes attributes;
    int32_t ring = join_named(connection, context, name);
    if (ring < 0) return -1;
    int other = check_private(connection, context, ring, uid, &attributes);
    if (other > 0) other = leave_session(connection, context);
    if (other > 0) errno = EACCES;
    if (other != 0) return -1;
    if (attributes.mask & KR_USER_MAY_SEARCH) return ring;
    return kr_setperm(connection, context, ring, attributes.mask | KR_USER_MAY_SEARCH) < 0 ? -1 : ring;
}

int kr_link_user_keyring(struct kr *connection, uint32_t context) {
    int linked = kr_link(connection, context, KEY_SPEC_USER_KEYRING, KEY_SPEC_SESSION_KEYRING);
    return linked < 0 && errno == ELOOP ? 0 : linked;
}

/* A daemon that was started anew gives the same serials again. So it isn't enough that the serial is the session's: one
 * that JOIN has just made is known by lacking the right to search, without which JOIN would not have found it. */
int kr_enter_named(struct kr *connection, uint32_t context, const struct kr_session *session, uint32_t uid) {
    struct kr_attributes attributes = { 0 };
    int32_t ring = join_named(connection, context, session->name);
    if (ring < 0) return -1;
    int other = ring != session->serial ? 1 : check_private(connection, context, ring, uid, &attributes);
    if (other == 0 && !(attributes.mask & KR_USER_MAY_SEARCH)) return 1;
    return other > 0 ? leave_session(connection, context) : other;
}

int kr_enter_session(struct kr *connection, uint32_t context, const char *text) {
    UNCANCELLED;
    struct kr_session session;
    if (!text) text = secure_getenv(KR_SESSION_VARIABLE);
    if (!text || !kr_parse_session(&session, text)) return 0;
    if (session.serial == 0) return kr_begin_session(connection, context, session.name, geteuid()) < 0 ? -1 : 1;
    int entered = kr_enter_named(connection, context, &session, geteuid());
    if (entered == 1) errno = EKEYREVOKED;
    return entered == 0 ? 1 : -1;
}
