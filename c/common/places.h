/* places.h: where a daemon is looked for, and who has to listen there before anything is told to it. */
#ifndef KEYRETAIN_PLACES_H
#define KEYRETAIN_PLACES_H

#include "common.h"
#include "public.h"

enum { KR_PATH_ROOM = 108 };

/* What makes a path the one that is meant. */
enum kr_place {
    KR_NAMED,    /* the program says so */
    KR_EXPORTED, /* KEYRETAIN_SOCKET says so */
    KR_OWN,      /* the user's runtime directory has a folder for it */
    KR_SYSTEM    /* there is no other */
};

struct kr_where {
    enum kr_place place;
    char path[KR_PATH_ROOM];
};

/* Where a daemon listens: at this path, or for NULL at that which is found. -1 with errno. */
int kr_locate(struct kr_where *where, const char *path);

/* Whether a daemon that `peer` runs at a path may be told what a user keeps. */
bool kr_is_trusted(enum kr_place place, const char *path, uid_t user, uid_t peer);

/* What its user may do where a daemon there can't be asked, with this errno: a sentence, or NULL where none is known.
 * All programs say the same, and those in Python too: places.py. errno stays. */
const char *kr_advise(const struct kr_where *where, int error);

/* What stands for uids that have no number in a user namespace. */
unsigned kr_unknown_uid(void);

#endif
