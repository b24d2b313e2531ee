/* library.c: calls of libkeyretain. */
#define _GNU_SOURCE
#include <errno.h>
#include <stdbool.h>
#include <string.h>

#include "fuzz.h"
#include "library/keyretain.h"
#include "server.h"
#include "library/connection.h"

enum { CALLS = 12, PATIENCE = 30000, ANYBODY = 1, LONGEST_ANSWER = 262140 };

static struct kr_entry entries[3];
static const uint32_t groups[40];

/* An answer in bytes: it is as long as a frame may be, and a buffer that is too small stays as it was. */
static void look_at_bytes(int64_t length, const struct words *words) {
    if (length > LONGEST_ANSWER) fault("an answer longer than a frame");
    if (length > 0 && (uint64_t)length > words->room && !is_untouched(words->buffer, words->room))
        fault("a buffer that is too small was written to");
}

/* ---- The asks ---- */

/* A field of this form. The first of two texts is a type's name. */
static struct kr_field field_of(enum kr_field_form form, bool is_second, const struct words *w) {
    const char *text = is_second ? w->description : w->type;
    switch (form) {
    case KR_TEXT: return (struct kr_field){ .items = text, .count = strlen(text) };
    case KR_BLOB: return (struct kr_field){ .items = w->buffer, .count = w->room };
    case KR_GROUPS: return (struct kr_field){ .items = groups, .count = w->number % 40 };
    case KR_ENTRIES: return (struct kr_field){ .items = entries, .count = w->number % 3 };
    default: return (struct kr_field){ .number = (uint32_t)w->id };
    }
}

/* Any ask, as its function makes it. */
static int64_t ask(struct kr *connection, const struct kr_ask_form *form, const struct words *w) {
    struct kr_field fields[KR_FIELDS];
    for (int i = 0; i < KR_FIELDS; i++)
        fields[i] = field_of(form->fields[i], i > 0 && form->fields[i - 1] == KR_TEXT, w);
    bool gives_bytes = form->answer == KR_BYTES;
    int64_t answer = kr_ask(connection, form->operation, 1, fields, gives_bytes ? w->buffer : NULL, w->room);
    if (gives_bytes) look_at_bytes(answer, w);
    return answer;
}

/* ---- A connection ---- */

/* What is set, and is no ask. The patience that calls have from here on. */
static int set_some(struct kr *connection, const struct words *words, int patience) {
    kr_set_interruptible(connection, words->number & 1);
    if (words->number & 2) return patience;
    kr_set_patience(connection, words->number);
    return words->number;
}

/* READ, sent ahead, or the answer to one. */
static int64_t go_ahead(struct kr *connection, struct words *words) {
    struct kr_field fields[4] = { { .number = 5 } };
    uint64_t tag = 0;
    if (words->number & 1) return kr_send(connection, KR_READ, 1, fields, &tag);
    int64_t length = kr_receive(connection, &tag, words->buffer, words->room);
    look_at_bytes(length, words);
    if (length >= 0 && tag == 0) fault("an answer without a tag");
    return length;
}

/* A call ends by its patience, and by a hundredth more. */
static void look_at_time(int64_t begun, int patience) {
    if (server_time() - begun > patience + patience / 100 + 2) fault("a call out of its time");
}

/* An ask is answered by its own reply; and what ends a connection is said ever after. */
static void look_at_answer(const struct kr *connection, int64_t answer, int error) {
    if (answer >= 0 && !server_may_have_answered()) fault("an answer to an ask that has none");
    if (answer == -1 && (error == ECONNRESET || error == EPROTO) && !kr_is_broken(connection))
        fault("a connection that is lost and isn't broken");
}

static int call(struct kr *connection, int patience) {
    uint8_t which = server_byte();
    struct words words = take_words(-6, 63, which & 128 ? 10 : 0);
    int64_t begun = server_time(), answer = 0;
    errno = 0;
    bool was_broken = kr_is_broken(connection);
    if ((which & 127) >= 120)
        patience = set_some(connection, &words, patience);
    else if ((which & 127) >= 100)
        answer = go_ahead(connection, &words);
    else
        answer = ask(connection, &kr_ask_forms[which % kr_ask_form_count], &words);
    int error = errno;
    look_at_time(begun, patience);
    if (answer < -1) fault("an answer that is neither an error nor a number");
    if (was_broken && (which & 127) < 120 && answer != -1) fault("a broken connection answers");
    if ((which & 127) < 100) look_at_answer(connection, answer, error);
    free_words(&words);
    return patience;
}

static struct kr *open_some(void) {
    uint8_t how = server_byte();
    int milliseconds = how & 8 ? how : PATIENCE;
    unsigned flags = how & 4 ? ANYBODY : 0;
    if (flags) server_allow_anybody();
    int64_t begun = server_time();
    struct kr *connection = kr_open_with("/nowhere", flags, milliseconds);
    look_at_time(begun, milliseconds);
    if (connection && milliseconds != PATIENCE) kr_set_patience(connection, PATIENCE);
    return connection;
}

void fuzz_library(void) {
    const uint8_t *rest;
    int patience = PATIENCE;
    memset(entries, 1, sizeof entries);
    server_enter();
    struct kr *connection = open_some();
    for (int i = 0; connection && i < CALLS && server_rest(&rest) > 0; i++) patience = call(connection, patience);
    kr_close(connection);
    server_leave();
}
