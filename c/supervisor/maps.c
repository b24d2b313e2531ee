/* maps.c: the ids of user_namespaces(7). */
#include "entries.h"

#include <linux/nsfs.h>
#include <sched.h>
#include <sys/ioctl.h>

enum { RANGE_LETTERS = 34 };

static struct {
    struct map uids, gids;
    unsigned unknown, length;
    struct stat namespace, container; /* of users, and what a container's processes are told from others by */
    const char *kind;                 /* of the latter */
} all;

/* 0, or -1 where it may not be looked at. */
static int find_namespace(pid_t process, const char *kind, struct stat *namespace) {
    char path[64];
    snprintf(path, sizeof path, "/proc/%d/ns/%s", (int)process, kind);
    return stat(path, namespace);
}

static bool is_same(const struct stat *one, const struct stat *other) {
    return one->st_dev == other->st_dev && one->st_ino == other->st_ino;
}

static bool read_map(pid_t process, const char *name, struct map *map) {
    char text[MAP_RANGES * RANGE_LETTERS + 1];
    int length = 0;
    map->count = 0;
    if (!proc_read_long(process, name, text, sizeof text)) return false;
    for (const char *line = text; map->count < MAP_RANGES; map->count++, line += length) {
        struct range *range = &map->ranges[map->count];
        if (sscanf(line, "%u %u %u%n", &range->inside, &range->outside, &range->length, &length) != 3) break;
    }
    return map->count > 0;
}

static unsigned length_of(const struct map *map) {
    unsigned length = 0;
    for (unsigned i = 0; i < map->count; i++) length += map->ranges[i].length;
    return length;
}

/* The outermost user namespace around a process that isn't ours, if our user has made it, as runtimes do; else -1. What
 * runs in it may have made others, as it may have before this is looked at. */
static int open_outermost(pid_t process, const struct stat *ours) {
    struct stat namespace;
    uid_t maker;
    int outermost = -1, next = proc_open_file(process, "ns/user", O_RDONLY);
    while (next >= 0 && fstat(next, &namespace) == 0 && !is_same(&namespace, ours)) {
        if (outermost >= 0) close(outermost);
        outermost = next;
        next = ioctl(outermost, NS_GET_PARENT);
    }
    bool is_runtimes = next >= 0 && outermost >= 0 && ioctl(outermost, NS_GET_OWNER_UID, &maker) == 0 &&
                       maker == geteuid();
    if (next >= 0) close(next);
    if (outermost >= 0 && !is_runtimes) close(outermost);
    return is_runtimes ? outermost : -1;
}

/* Whether a process is in it, before and after its maps were read. */
static bool read_maps_in(pid_t process, const struct stat *namespace) {
    struct stat before, after;
    return find_namespace(process, "user", &before) == 0 && is_same(&before, namespace) &&
           read_map(process, "uid_map", &all.uids) && read_map(process, "gid_map", &all.gids) &&
           find_namespace(process, "user", &after) == 0 && is_same(&after, namespace);
}

/* Where the first process is there no more, the maps are read of one of ours. */
static bool read_maps_of(int namespace, pid_t first) {
    int status;
    if (read_maps_in(first, &all.namespace)) return true;
    pid_t child = fork();
    if (child == 0) _exit(setns(namespace, CLONE_NEWUSER) == 0 ? raise(SIGSTOP) : 1);
    bool is_there = child > 0 && waitpid(child, &status, WUNTRACED) == child && WIFSTOPPED(status);
    bool is_read = is_there && read_maps_in(child, &all.namespace);
    if (is_there) kill(child, SIGKILL);
    if (is_there) waitpid(child, &status, 0);
    return is_read;
}

void maps_begin(pid_t first) {
    static const struct map ours = { .count = 1, .ranges = { { 0, 0, UINT32_MAX } } }; /* ids are as they are read */
    struct stat own = { 0 };
    find_namespace(getpid(), all.kind = "pid", &own);
    bool is_known = first > 0 && find_namespace(first, all.kind, &all.container) == 0;
    if (is_known && is_same(&own, &all.container))
        is_known = find_namespace(first, all.kind = "mnt", &all.container) == 0;
    if (!is_known) all.kind = NULL;
    all.unknown = kr_unknown_uid();
    all.length = read_map(getpid(), "uid_map", &all.uids) ? length_of(&all.uids) : 0;
    if (find_namespace(getpid(), "user", &all.namespace) < 0) return;
    all.uids = all.gids = ours;
    int outermost = first > 0 ? open_outermost(first, &all.namespace) : -1;
    if (outermost < 0) return;
    if (fstat(outermost, &all.namespace) < 0 || !read_maps_of(outermost, first)) all.uids.count = all.gids.count = 0;
    all.length = length_of(&all.uids);
    close(outermost);
}

/* The range that an id is in; NULL for none. */
static const struct range *find_range(const struct map *map, unsigned id) {
    for (unsigned i = 0; i < map->count; i++)
        if (id - map->ranges[i].outside < map->ranges[i].length) return &map->ranges[i];
    return NULL;
}

bool maps_have_uid(unsigned uid) { return find_range(&all.uids, uid); }
bool maps_have_gid(unsigned gid) { return find_range(&all.gids, gid); }

unsigned map_to_inside(const struct map *map, unsigned id, unsigned unknown) {
    const struct range *range = find_range(map, id);
    return range ? id - range->outside + range->inside : unknown;
}

unsigned maps_uid(unsigned uid) { return map_to_inside(&all.uids, uid, all.unknown); }
unsigned maps_gid(unsigned gid) { return map_to_inside(&all.gids, gid, all.unknown); }

void maps_put(struct admission_process *process) {
    process->unknown = all.unknown;
    process->mapped = all.length;
}

bool maps_are_outside(pid_t process) {
    struct stat namespace;
    char name[16];
    snprintf(name, sizeof name, "ns/%s", all.kind ? all.kind : "");
    int next = all.kind ? proc_open_file(process, name, O_RDONLY) : -1;
    bool is_within = !all.kind;
    while (next >= 0) {
        is_within = fstat(next, &namespace) == 0 && is_same(&namespace, &all.container);
        int around = is_within ? -1 : ioctl(next, NS_GET_PARENT); /* one of mounts has none */
        close(next);
        next = around;
    }
    return !is_within;
}

bool maps_are_others(pid_t thread) {
    struct stat namespace;
    return find_namespace(thread, "user", &namespace) < 0 || !is_same(&namespace, &all.namespace);
}

uid_t maps_maker(pid_t thread) {
    uid_t maker = (uid_t)-1;
    struct stat namespace;
    int next = proc_open_file(thread, "ns/user", O_RDONLY);
    while (next >= 0 && fstat(next, &namespace) == 0 && !is_same(&namespace, &all.namespace)) {
        if (ioctl(next, NS_GET_OWNER_UID, &maker) < 0) maker = (uid_t)-1;
        int around = ioctl(next, NS_GET_PARENT);
        close(next);
        next = around;
    }
    close_one(&next);
    return maker;
}
