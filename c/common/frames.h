/* frames.h: the frames of version 2 of keyretain-protocol(7), without a socket, and the asks that they carry. */
#ifndef KEYRETAIN_FRAMES_H
#define KEYRETAIN_FRAMES_H

#include "common.h"
#include "public.h"

/* ---- asks.c: the asks, a row each ---- */

/* The fields of bodies. GROUPS are a count and as many numbers, ENTRIES a count and as many entries of a filter. */
enum kr_field_form { KR_END, KR_ID, KR_U8, KR_U32, KR_I32, KR_TEXT, KR_BLOB, KR_GROUPS, KR_ENTRIES };

enum kr_answer_form { KR_NOTHING, KR_NUMBER, KR_SERIAL, KR_BYTES };

enum { KR_FIELDS = 4 };

/* What an ask's body holds, and what its answer is. */
struct kr_ask_form {
    enum kr_operation operation;
    const char *name;
    enum kr_answer_form answer;
    enum kr_field_form fields[KR_FIELDS + 1];
};

/* The table of asks, in number order. */
extern const struct kr_ask_form kr_ask_forms[];
extern const size_t kr_ask_form_count;

/* NULL for a number of no ask. */
const struct kr_ask_form *kr_ask_form(unsigned operation);

/* ---- frames.c: the frames ---- */

/* The longest frames, with the four bytes of their length. */
enum { KR_ASK_ROOM = 4 + 65536, KR_REPLY_ROOM = 4 + 262152 };

/* The error numbers of replies, and what they are called here. */
struct kr_status {
    uint32_t number;
    const char *name;
    int error;
};
extern const struct kr_status kr_statuses[];
extern const size_t kr_status_count;

/* Puts an ask's frame at `out`, which has KR_ASK_ROOM bytes, and answers its length; 0 where it fits no frame. */
size_t kr_encode_ask(uint8_t *out, uint64_t tag, const struct kr_ask_form *form, uint32_t context,
                     const struct kr_field *fields);

/* A reply's frame in pieces. */
struct kr_reply {
    size_t frame_length;
    uint32_t status;
    uint64_t tag;
    const uint8_t *body;
    size_t length;
};

enum kr_decoded { KR_PARTIAL, KR_WHOLE, KR_MALFORMED };

/* Reads the first reply of these bytes. KR_PARTIAL: more bytes are wanted. */
enum kr_decoded kr_decode_reply(const uint8_t *in, size_t length, struct kr_reply *reply);

/* Whether this reply is one to an ask of this form; then *error is errno's number for its status, or 0. */
bool kr_reply_fits(const struct kr_reply *reply, const struct kr_ask_form *form, int *error);

uint32_t kr_get_u32(const uint8_t *at);

/* Whether a key may have this number. As an id any other would be negative, and name something else. */
bool kr_is_serial(uint32_t number);

#endif
