/* keyutils.c: calls of libkeyutils.so.1, in one process: what one run leaves in its memory the next one finds. */
#define _GNU_SOURCE
#include "keyutils/keyutils.h"

#include <stdbool.h>
#include <stdlib.h>
#include <string.h>

#include "common/caller.h"
#include "fuzz.h"
#include "server.h"

enum { CALLS = 8, PATIENCE = 30000, BODIES = 1 << 16 };

static int scanner(key_serial_t parent, key_serial_t key, char *description, int length, void *data) {
    (void)parent, (void)key, (void)data;
    if (length >= 0 && strlen(description) > (size_t)length) fault("a description longer than it says");
    return 1;
}

/* Each of these answers a length, and memory with a null byte behind that many. */
static void describe_alloc(int32_t id) {
    char *text = NULL;
    int length = keyctl_describe_alloc(id, &text);
    if (length >= 0 && strlen(text) > (size_t)length) fault("a description that doesn't end");
    if (length >= 0) free(text);
}

static void read_alloc(int32_t id) {
    void *bytes = NULL;
    int length = keyctl_read_alloc(id, &bytes);
    if (length >= 0 && ((char *)bytes)[length] != '\0') fault("a payload that doesn't end");
    if (length >= 0) free(bytes);
}

static void security_alloc(int32_t id) {
    char *text = NULL;
    if (keyctl_get_security_alloc(id, &text) >= 0) free(text);
}

/* ---- The calls ---- */

enum { COMMANDS = 40 };

/* A command by the one function for all, whose words are of the kinds that its row wants. It may have no texts. */
static void call_command(int command, struct words *w) {
    const struct key_row *row = key_row_of(command);
    unsigned long at[KEY_ARGUMENTS + 1];
    for (int i = 0; i < KEY_ARGUMENTS; i++)
        switch (row->at[i]) {
        case KEY_ID: at[i] = (unsigned long)(i == 0 ? w->id : i + 4); break;
        case KEY_TYPE: at[i] = w->number & 1 ? (unsigned long)w->type : 0; break;
        case KEY_TEXT: at[i] = w->number & 1 ? (unsigned long)w->description : 0; break;
        case KEY_PAYLOAD:
        case KEY_ROOM: at[i] = (unsigned long)w->buffer, at[++i] = w->room; break;
        default: at[i] = w->number & 1;
        }
    keyctl(command, at[0], at[1], at[2], at[3]);
}

/* What is no command. */
static void call_other(unsigned which, struct words *w) {
    switch (which) {
    case 0: add_key(w->type, w->description, w->buffer, w->room, w->id); break;
    case 1: request_key(w->type, w->description, w->description, w->id); break;
    case 2: describe_alloc(w->id); break;
    case 3: read_alloc(w->id); break;
    case 4: security_alloc(w->id); break;
    case 5: recursive_session_key_scan(scanner, NULL); break;
    case 6: recursive_key_scan(w->id, scanner, NULL); break;
    default: find_key_by_type_and_desc("user", "desc5", w->number & 1);
    }
}

/* Whether a function makes several calls of the system's: a walk, and what asks again as it had too little room. */
static bool makes_several(int chosen) {
    return chosen < 2 * COMMANDS ? chosen % COMMANDS == KEYCTL_JOIN_SESSION_KEYRING : chosen % 8 > 1;
}

/* A call of the system's ends by its patience, and by a hundredth more. */
static void look_at_time(int64_t begun, bool is_one) {
    if (is_one && server_time() - begun > PATIENCE + PATIENCE / 100 + 2) fault("a call out of its time");
}

static void call(void) {
    int64_t begun = server_time();
    uint8_t which = server_byte();
    struct words words = take_words(-10, 31, which & 128 ? 8 : 0);
    int chosen = which & 127;
    if (chosen < 2 * COMMANDS)
        call_command(chosen % COMMANDS, &words);
    else
        call_other(chosen % 8, &words);
    look_at_time(begun, !makes_several(chosen));
    free_words(&words);
}

void fuzz_keyutils(void) {
    const uint8_t *rest;
    server_limit_bodies(BODIES);
    server_enter();
    unsetenv("KEYRETAIN_SESSION");
    for (int i = 0; i < CALLS && server_rest(&rest) > 0; i++) call();
    server_leave();
}
