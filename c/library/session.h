/* session.h: a session by which processes find one another's keys: a keyring that JOIN made, and its name. */
#ifndef KEYRETAIN_SESSION_H
#define KEYRETAIN_SESSION_H

#include "connection.h"

#define KR_SESSION_VARIABLE "KEYRETAIN_SESSION"

enum { KR_SESSION_NAME_ROOM = 4096, KR_GROUPS_MAX = 32 };

/* What a session's mask must not give: who made a keyring of its name first, open to all, would read its keys. And what
 * lets its user's other processes find it by the name. */
enum { KR_GROUP_AND_OTHERS = 0x00003f3f, KR_USER_MAY_SEARCH = 0x00080000 };

/* The serial is 0 where any keyring of the name will do, and a new one too. */
struct kr_session {
    int32_t serial;
    char name[KR_SESSION_NAME_ROOM];
};

/* Who a process is to the daemon. */
struct kr_identity {
    uint32_t uid, gid, count, groups[KR_GROUPS_MAX];
};

/* The effective ids and the first 32 supplementary groups, which are as many as the daemon takes. */
void kr_own_identity(struct kr_identity *identity);

/* Whether the process is this identity or may become it again: root may become any, others what getresuid(2) and
 * getresgid(2) say, with the groups that they have. */
bool kr_may_be_again(const struct kr_identity *identity);

int64_t kr_hello_as(struct kr *connection, const struct kr_identity *identity);

/* Reads SERIAL:NAME, or NAME alone; false where the text is none of them. */
bool kr_parse_session(struct kr_session *session, const char *text);

/* Takes this name, or one that no other session has for NULL. -1 with errno: EINVAL for one that is too long. */
int kr_name_session(struct kr_session *session, const char *name);

/* Puts SERIAL:NAME into the environment. -1 with errno where it can't. */
int kr_export_session(const struct kr_session *session);

/* Joins the keyring of this name, or makes it, and lets later processes of the uid find it by the name: that of the
 * context's user, which the process may not be any more. Answers its serial; -1 with errno, which is EACCES where the
 * keyring is another user's or gives group or others anything. Then the context has another session keyring, which
 * nobody shares. */
int32_t kr_begin_session(struct kr *connection, uint32_t context, const char *name, uint32_t uid);

/* Links the user keyring to the session keyring, as pam_keyinit(8) does; 0 also where it is nested too deeply (ELOOP):
 * another user may have done that in a keyring that is linked there, and would keep this one from all sessions. */
int kr_link_user_keyring(struct kr *connection, uint32_t context);

/* Joins a session whose serial is known, and which must still be there, for the user of a context: 0; 1 where its
 * keyring was revoked, is gone, or isn't this user's alone; -1 with errno. With 1 the context has another keyring,
 * which nobody shares, as its session. */
int kr_enter_named(struct kr *connection, uint32_t context, const struct kr_session *session, uint32_t uid);

/* Whose a keyring is, and its mask. */
struct kr_attributes {
    unsigned owner, mask;
};

/* Reads what DESCRIBE says of a keyring; false where it says that of none. */
bool kr_parse_attributes(const char *described, struct kr_attributes *attributes);

/* The same of the daemon's: 0; 1 where it doesn't tell; -1 where the connection fails. */
int kr_read_attributes(struct kr *connection, uint32_t context, int32_t ring, struct kr_attributes *attributes);

/* The effective user's own key of this type and name, which a search from there finds. -1 with errno: ENOKEY also where
 * it finds another user's, in a keyring that is linked there. */
int32_t kr_find_own(struct kr *connection, uint32_t context, int32_t head, const char *type, const char *name);

/* Whether errno says of a search that it found none, or none of use: on another user's there may be no right. */
static inline bool kr_found_none(void) {
    return errno == ENOKEY || errno == EKEYREVOKED || errno == EKEYEXPIRED || errno == EACCES;
}

/* ---- holder.c: what holds a session ----
 *
 * What a process has, and hands on, in place of the connection that holds a session: the writing end of the pipe on
 * which keyretain-keeper(8) waits. It can ask nothing. The session lasts as long as any copy of it. Its number is at
 * least 200 where so many are allowed. */

/* Why there is no session. */
enum kr_refusal { KR_REFUSED, KR_NO_DAEMON, KR_NO_KEEPER };

/* Has a keeper make the session of this name at this socket, and hold it; for an empty name one of its own, which the
 * keeper makes up, as everybody can read its command line. One with an end of line is EINVAL. `links_user` links the
 * user keyring to it, as a login does. Sets the session's serial and name. -1 with errno, and why, after `deadline` (of
 * kr_now) at the latest. */
int kr_start_keeper(struct kr_file *holder, struct kr_session *session, const char *socket, bool links_user,
                    int64_t deadline, enum kr_refusal *why);

/* Tells what is executed which descriptor holds the session. -1 with errno where it can't. */
int kr_export_holder(const struct kr_file *holder, const struct kr_session *session);

/* What this process was handed of a session; the descriptor is -1 where it was handed nothing, as in a login. */
struct kr_file kr_handed_holder(const struct kr_session *session);

#endif
