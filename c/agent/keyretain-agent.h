/* keyretain-agent.h: the parts of keyretain-agent. */
#ifndef KEYRETAIN_AGENT_H
#define KEYRETAIN_AGENT_H

#include "common/common.h"

/* ---- keyretain-agent-state.c: what a runtime says of a container ----
 *
 * As config-linux.md of the OCI runtime specification defines it ("Container Process State"): JSON (RFC 8259), which
 * jansson reads once all of it is there. */

enum { CONTAINER_ID_MAX = 255, JSON_DEPTH_MAX = 32 };

/* How far an object reaches, in bytes that come in pieces. */
enum json_extent { JSON_PARTIAL, JSON_WHOLE, JSON_BROKEN };

/* All zero before the first byte. */
struct json_scan {
    unsigned depth;
    bool is_text, is_escaped;
};

/* Goes on with these bytes, and says whether the object has ended in them, after *used of them. It looks at brackets
 * and texts alone: what it calls whole may still be no JSON. Deeper than JSON_DEPTH_MAX it is broken. */
enum json_extent json_scan(struct json_scan *scan, const char *bytes, size_t length, size_t *used);

/* crun(1) tells 0 for the first process where it executes something in a container. */
struct container_state {
    char id[CONTAINER_ID_MAX + 1];
    int first;            /* the container's first process, or 0 */
    unsigned descriptors; /* how many come with it */
    unsigned listener;    /* which of them is the listener, from 0 on */
    bool has_pipes;       /* its profile hands over what is for pipes of notes */
};

/* What keyretain-seccomp has a runtime say of such a profile. */
#define METADATA_WITH_NOTES "keyretain with notes"

/* False where it is no JSON, names a member of an object twice, or takes more memory to read than 16 MiB; and where it
 * has no listener, or no id of letters, digits and `_+-.`. Nothing of it is left in memory. */
bool read_container_state(const char *text, size_t length, struct container_state *state);

/* Memory that is in no core file and in no child, to be given back by munmap(2); NULL where there is none. */
void *room_for_state(size_t bytes);

/* ---- keyretain-agent-container.c: the containers that are served, each by a process of its own ---- */

enum { CONTAINERS_MAX = 4096 };

struct containers_settings {
    const char *folder;   /* of the daemons' sockets */
    const char *daemon;   /* the program */
    unsigned long memory; /* address space of each daemon in bytes; 0 for no limit */
    unsigned most;        /* containers */
};

/* False where the folder isn't ours alone, or another agent uses it; what an earlier one left there is removed. */
bool containers_begin(const struct containers_settings *settings);

/* Gives a listener to the server of its container, which is started where there is none. It is closed here. What is
 * said of the container's first process, whose ids are served, or of the one that runs under the id, and of its pipes
 * counts for what is started. */
void containers_take(const struct container_state *state, int listener);

/* Looks which servers have ended. */
void containers_reap(void);

/* Ends all servers, and with them their daemons. */
void containers_end(void);

#endif
