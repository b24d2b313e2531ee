/* keeper.h: how keyretain-keeper(8) is started, which makes a session and holds it, and how it is ended. It waits on
 * one pipe and answers on another, and nothing else goes between it and the module. */
#ifndef PAM_KEYRETAIN_KEEPER_H
#define PAM_KEYRETAIN_KEEPER_H

#include "common/common.h"

#include <pwd.h>

/* The writing end of the pipe on which a keeper waits; the reading end of that on which it answers, which is at its end
 * of file once the keeper has ended. */
struct keeper {
    struct kr_file life, answers;
};

/* A session and the path of the daemon's socket, both printable; or NULL, and `text` says in a line why there is none.
 * Whoever runs as the user may have said it. */
enum { ANSWER_ROOM = 512 };
struct answer {
    char text[ANSWER_ROOM];
    const char *session, *socket;
};

extern const struct keeper no_keeper;

/* Executes a keeper with the ids of this user, at this socket or for NULL at the usual one, and waits for its answer:
 * two seconds at most. Where there is no session, `keeper` is no_keeper, and what was started ends by itself. */
void start_keeper(struct keeper *keeper, const struct passwd *user, const char *socket, struct answer *answer);

/* Whether its pipes are still there. */
bool has_keeper(const struct keeper *keeper);

/* Has it revoke the session as it ends, also where that is because this process has. */
void revoke_at_end(const struct keeper *keeper);

/* Has it end the session, and waits a second at most until it has: false where it goes on. */
bool end_keeper(const struct keeper *keeper);

/* Closes the descriptors of this process alone. */
void let_go_of_keeper(struct keeper *keeper);

#endif
