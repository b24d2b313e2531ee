/* places.c: which daemon is meant, who it may be, and what to do without it. Paths and variables may be another user's,
 * as after su(1), and may change between two looks: so they only say where to connect. Who listens is asked of the
 * kernel, after connect(2). */
#include "places.h"

#include <linux/magic.h>
#include <sys/auxv.h>
#include <sys/vfs.h>

#define SYSTEM_FOLDER "/run/keyretain"
#define SOCKET_NAME "/keyretain.sock"

/* An empty path would be a name that anybody may take. */
static int put(struct kr_where *where, enum kr_place place, const char *folder, const char *name) {
    int length = snprintf(where->path, sizeof where->path, "%s%s", folder, name);
    where->place = place;
    if (length > 0 && (size_t)length < sizeof where->path) return 0;
    *where->path = '\0'; /* it leads elsewhere */
    return fail_as(length == 0 ? ENOENT : ENAMETOOLONG);
}

/* $XDG_RUNTIME_DIR, unless it is another user's, which su(1) may leave in the environment. */
static bool put_runtime_folder(char *path, size_t room) {
    const char *folder = getenv("XDG_RUNTIME_DIR");
    struct stat status;
    char usual[32];
    if (!folder || !*folder || stat(folder, &status) < 0 || status.st_uid != geteuid()) {
        snprintf(usual, sizeof usual, "/run/user/%u", (unsigned)geteuid());
        folder = usual;
    }
    int length = snprintf(path, room, "%s/keyretain", folder);
    return length >= 0 && (size_t)length < room;
}

/* A daemon that the user has set up is meant even while it is down: what its user keeps isn't told to the system's
 * daemon because of that. */
int kr_locate(struct kr_where *where, const char *path) {
    bool is_set_uid = getauxval(AT_SECURE) != 0;
    const char *named = is_set_uid ? NULL : getenv("KEYRETAIN_SOCKET");
    char folder[PATH_MAX];
    struct stat status;
    if (path) return put(where, KR_NAMED, path, "");
    if (named && *named) return put(where, KR_EXPORTED, named, "");
    if (!is_set_uid && put_runtime_folder(folder, sizeof folder) &&
        (stat(folder, &status) == 0 || (errno != ENOENT && errno != ENOTDIR)))
        return put(where, KR_OWN, folder, SOCKET_NAME);
    return put(where, KR_SYSTEM, SYSTEM_FOLDER, SOCKET_NAME);
}

int kr_default_path(char *path, size_t room) {
    struct kr_where where;
    if (kr_locate(&where, NULL) < 0) return -1;
    int length = snprintf(path, room, "%s", where.path);
    return (size_t)length < room ? length : fail_as(ENAMETOOLONG);
}

unsigned kr_unknown_uid(void) { return number_of_file("/proc/sys/kernel/overflowuid", "%u", OVERFLOW_ID); }

/* Whether it is the number of one user: not of all who have none in a user namespace, which hasn't all uids then. Below
 * another user's root directory any file may stand in place of proc(5). */
static bool is_one_user(uid_t uid) {
    struct statfs proc;
    if (statfs("/proc", &proc) < 0 || proc.f_type != PROC_SUPER_MAGIC) return uid != OVERFLOW_ID;
    return uid != kr_unknown_uid() || number_of_file("/proc/self/uid_map", "%*u %*u %u", 0) == UINT32_MAX;
}

/* Whether it is no other user's than this one's or root's, who may have no number in a user namespace. */
static bool is_no_others(const char *folder, uid_t user) {
    struct stat status;
    return lstat(folder, &status) == 0 && (status.st_uid == 0 || status.st_uid == user || !is_one_user(status.st_uid));
}

/* The system's daemon runs as who owns its folder, which only root can make, unless /run or all is another user's.
 * Neither may have a number in a user namespace, and then others look like it: they can't listen in that folder, but
 * anywhere else. */
bool kr_is_trusted(enum kr_place place, const char *path, uid_t user, uid_t peer) {
    struct stat status;
    if (peer == user && place != KR_SYSTEM) return true;
    if (place == KR_OWN) return false;
    return peer == 0 || (is_no_others("/", user) && is_no_others("/run", user) && lstat(SYSTEM_FOLDER, &status) == 0 &&
                         S_ISDIR(status.st_mode) && status.st_uid == peer &&
                         (strcmp(path, SYSTEM_FOLDER SOCKET_NAME) == 0 || is_one_user(peer)));
}

/* ---- What to do ---- */

enum fault { IS_ABSENT, IS_LEFT, IS_SHUT, IS_ANOTHERS };

#define THERE "start one there: keyretaind --socket PATH"
#define OWN "systemctl --user enable --now keyretaind"
#define EXPORTED "KEYRETAIN_SOCKET names this path"
#define MODES "who may connect is told by the modes of the path and its folder: ls -ld"
#define WHY "systemctl status 'keyretain*' tells who administers it why; one of your own: " OWN

static const char without_systemd[] =
    "no daemon is there; start one, as keyretaind(8) shows it: keyretaind --socket PATH, with KEYRETAIN_SOCKET=PATH";
static const char *const advices[][KR_SYSTEM + 1] = {
    [IS_ABSENT] = {
        [KR_NAMED] = "start a daemon: systemctl --user start keyretaind, or keyretaind --socket PATH",
        [KR_EXPORTED] = EXPORTED ", where no daemon is: unset it, or " THERE,
        [KR_OWN] = "no daemon is there; start one: " OWN,
        [KR_SYSTEM] = "the system's daemon doesn't run: " WHY,
    },
    [IS_LEFT] = {
        [KR_NAMED] = "its daemon has ended: remove the path, and start one: keyretaind --socket PATH",
        [KR_EXPORTED] = EXPORTED ", whose daemon has ended: unset it, or remove the path and " THERE,
        [KR_OWN] = "its daemon has ended: systemctl --user restart keyretaind, or remove the path and " THERE,
        [KR_SYSTEM] = "the system's daemon has ended: " WHY,
    },
    [IS_SHUT] = {
        [KR_NAMED] = MODES,
        [KR_EXPORTED] = EXPORTED ": unset it; " MODES,
        [KR_OWN] = MODES,
        [KR_SYSTEM] = "only the group keyretain may connect, which has the keys of all users, and behind "
                      "keyretain-guard nobody needs it; one of your own: " OWN,
    },
    [IS_ANOTHERS] = {
        [KR_NAMED] = "another user listens there, who is told nothing: name another path",
        [KR_EXPORTED] = EXPORTED ", where another user listens, who is told nothing: unset it",
        [KR_OWN] = "another user listens there, who is told nothing: remove the path, and start one: " OWN,
        [KR_SYSTEM] = "who listens there isn't the system's daemon, and is told nothing: ask who administers it",
    },
};

/* By the errors of connect(2); -1 for another one. Who may not connect and who isn't trusted are the same to who
 * connects. */
static int fault_of(const char *path, int error) {
    if (error == ENOENT || error == ENOTDIR) return IS_ABSENT;
    if (error == ECONNREFUSED) return IS_LEFT;
    if (error == EACCES) return faccessat(AT_FDCWD, path, W_OK, AT_EACCESS) == 0 ? IS_ANOTHERS : IS_SHUT;
    return -1;
}

const char *kr_advise(const struct kr_where *where, int error) {
    ERRNO_STAYS;
    enum kr_place place = where->place;
    int fault = fault_of(where->path, error);
    bool is_nowhere = place == KR_SYSTEM && fault == IS_ABSENT && access(SYSTEM_FOLDER, F_OK) < 0;
    if (is_nowhere) place = KR_OWN;
    bool has_systemd = access("/run/systemd/system", F_OK) == 0; /* sd_booted(3) */
    if (fault == IS_ABSENT && place == KR_OWN && !has_systemd) return without_systemd;
    if (fault >= 0) return advices[fault][place];
    if (error == EAGAIN || error == ETIMEDOUT)
        return "all its lanes may be held: keyretain-status tells by whom; keyretaind --lanes, or keyretain-guard "
               "--connections, gives more";
    if (error == ECONNRESET || error == EPIPE)
        return "the daemon, or the one behind keyretain-guard, may have ended: its journal tells";
    if (error == EDQUOT)
        return "keyretain-guard has no place left for this user: end other clients, or raise --per-uid";
    return error == ENAMETOOLONG ? "a path has 107 bytes at most" : NULL;
}

const char *kr_advice(const char *path, int error) {
    struct kr_where where;
    ERRNO_STAYS;
    return kr_locate(&where, path) == 0 || error == ENAMETOOLONG ? kr_advise(&where, error) : NULL;
}
