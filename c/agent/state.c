/* keyretain-agent-state.c: see keyretain-agent.h. */
#include "keyretain-agent.h"

#include <jansson.h>

#ifndef STATE_ROOM
#define STATE_ROOM (16 * 1024 * 1024)
#endif

enum { ALIGNMENT = 16 };

static const char id_characters[] = "abcdefghijklmnopqrstuvwxyzABCDEFGHIJKLMNOPQRSTUVWXYZ0123456789_+-.";

/* ---- How far an object reaches ---- */

static void scan_text(struct json_scan *scan, char byte) {
    if (scan->is_escaped)
        scan->is_escaped = false;
    else if (byte == '\\')
        scan->is_escaped = true;
    else
        scan->is_text = byte != '"';
}

static enum json_extent scan_byte(struct json_scan *scan, char byte) {
    if (scan->is_text) {
        scan_text(scan, byte);
    } else if (scan->depth == 0) {
        if (!memchr("{ \t\n\r", byte, sizeof "{ \t\n\r" - 1)) return JSON_BROKEN;
        scan->depth = byte == '{';
    } else if (byte == '"') {
        scan->is_text = true;
    } else if (byte == '{' || byte == '[') {
        if (++scan->depth > JSON_DEPTH_MAX) return JSON_BROKEN;
    } else if (byte == '}' || byte == ']') {
        if (--scan->depth == 0) return JSON_WHOLE;
    }
    return JSON_PARTIAL;
}

enum json_extent json_scan(struct json_scan *scan, const char *bytes, size_t length, size_t *used) {
    for (*used = 0; *used < length;) {
        enum json_extent extent = scan_byte(scan, bytes[(*used)++]);
        if (extent != JSON_PARTIAL) return extent;
    }
    return JSON_PARTIAL;
}

/* ---- Memory ---- */

void *room_for_state(size_t bytes) {
    void *room = mmap(NULL, bytes, PROT_READ | PROT_WRITE, MAP_PRIVATE | MAP_ANONYMOUS, -1, 0);
    if (room == MAP_FAILED) return NULL;
    madvise(room, bytes, MADV_DONTDUMP);
    madvise(room, bytes, MADV_WIPEONFORK);
    return room;
}

/* What jansson takes of memory while it reads one state. All of it is wiped and given back at the end. */
static struct {
    char *bytes;
    size_t taken;
} room;

static void *take(size_t bytes) {
    size_t rounded = (bytes + ALIGNMENT - 1) / ALIGNMENT * ALIGNMENT;
    if (!room.bytes || bytes > STATE_ROOM || rounded > STATE_ROOM - room.taken) return NULL;
    room.taken += rounded;
    return room.bytes + room.taken - rounded;
}

static void keep_until_end(void *taken) { (void)taken; }

static void wipe_room(void) {
    if (!room.bytes) return;
    explicit_bzero(room.bytes, room.taken);
    munmap(room.bytes, STATE_ROOM);
    room.bytes = NULL;
    room.taken = 0;
}

/* ---- What it says ---- */

static bool read_names(const json_t *names, struct container_state *state) {
    static const char wanted[] = "seccompFd";
    unsigned listeners = 0;
    for (size_t i = 0; i < json_array_size(names); i++) {
        const json_t *name = json_array_get(names, i);
        if (!json_is_string(name)) return false;
        if (json_string_length(name) != sizeof wanted - 1 || strcmp(json_string_value(name), wanted) != 0) continue;
        listeners++;
        state->listener = (unsigned)i;
    }
    state->descriptors = (unsigned)json_array_size(names);
    return listeners == 1;
}

static bool read_id(const json_t *id, struct container_state *state) {
    const char *text = json_string_value(id);
    size_t length = json_string_length(id);
    if (length == 0 || length > CONTAINER_ID_MAX || strspn(text, id_characters) != length) return false;
    memcpy(state->id, text, length + 1);
    return true;
}

/* It isn't read before it is known to be nested no deeper than that: jansson calls itself for each level. */
bool read_container_state(const char *text, size_t length, struct container_state *state) {
    struct json_scan scan = { 0 };
    size_t used;
    memset(state, 0, sizeof *state);
    if (json_scan(&scan, text, length, &used) != JSON_WHOLE) return false;
    room.bytes = room_for_state(STATE_ROOM);
    json_set_alloc_funcs(take, keep_until_end);
    const json_t *said = json_loadb(text, length, JSON_REJECT_DUPLICATES | JSON_ALLOW_NUL, NULL);
    const json_t *container = json_object_get(said, "state");
    json_int_t first = json_integer_value(json_object_get(container, "pid"));
    state->first = first > 0 && first <= INT_MAX ? (int)first : 0;
    const char *metadata = json_string_value(json_object_get(said, "metadata"));
    state->has_pipes = metadata && strcmp(metadata, METADATA_WITH_NOTES) == 0;
    bool is_right = read_names(json_object_get(said, "fds"), state) && read_id(json_object_get(container, "id"), state);
    wipe_room();
    return is_right;
}
