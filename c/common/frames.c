/* frames.c: the frames of keyretain-protocol(7), and the records of queues. All numbers are little-endian. */
#include "frames.h"

enum { VERSION = 2, REPLY_HEAD = 16 };

#define STATUS(number, error) { number, #error, error }
const struct kr_status kr_statuses[] = {
    STATUS(1, EPERM), STATUS(2, ENOENT), STATUS(3, ESRCH), STATUS(9, EBADF), STATUS(11, EAGAIN), STATUS(12, ENOMEM),
    STATUS(13, EACCES), STATUS(16, EBUSY), STATUS(17, EEXIST), STATUS(19, ENODEV), STATUS(20, ENOTDIR),
    STATUS(22, EINVAL), STATUS(23, ENFILE), STATUS(28, ENOSPC), STATUS(35, EDEADLK), STATUS(40, ELOOP),
    STATUS(57, EBADSLT), STATUS(95, EOPNOTSUPP), STATUS(105, ENOBUFS), STATUS(126, ENOKEY),
    STATUS(127, EKEYEXPIRED), STATUS(128, EKEYREVOKED),
    STATUS(122, EDQUOT), /* keyretain-guard(8) says it, which has no place left for the user, and no daemon */
};
const size_t kr_status_count = sizeof kr_statuses / sizeof *kr_statuses;

/* ---- Asks ---- */

/* Where the next byte goes. Once something doesn't fit nothing more is put. */
struct writer {
    uint8_t *out;
    size_t length;
    bool fits;
};

static bool has_room(struct writer *writer, size_t length) {
    writer->fits = writer->fits && length <= KR_ASK_ROOM - writer->length;
    return writer->fits;
}

static void put_number(struct writer *writer, uint64_t number, size_t width) {
    if (!has_room(writer, width)) return;
    for (size_t i = 0; i < width; i++) writer->out[writer->length++] = (uint8_t)(number >> 8 * i);
}

/* A count of this width, then that many bytes. */
static void put_bytes(struct writer *writer, const struct kr_field *field, size_t width) {
    if (width == 2 && field->count > UINT16_MAX) writer->fits = false;
    put_number(writer, field->count, width);
    if (!has_room(writer, field->count) || field->count == 0) return;
    memcpy(writer->out + writer->length, field->items, field->count);
    writer->length += field->count;
}

/* A count, then that many items, each of this many numbers. */
static void put_items(struct writer *writer, const struct kr_field *field, size_t numbers) {
    const uint32_t *items = field->items;
    put_number(writer, field->count, 4);
    if (field->count > KR_ASK_ROOM) writer->fits = false;
    for (size_t i = 0; writer->fits && i < field->count * numbers; i++) put_number(writer, items[i], 4);
}

static void put_field(struct writer *writer, enum kr_field_form form, const struct kr_field *field) {
    switch (form) {
    case KR_U8: put_number(writer, field->number, 1); break;
    case KR_TEXT: put_bytes(writer, field, 2); break;
    case KR_BLOB: put_bytes(writer, field, 4); break;
    case KR_GROUPS: put_items(writer, field, 1); break;
    case KR_ENTRIES: put_items(writer, field, sizeof(struct kr_entry) / sizeof(uint32_t)); break;
    default: put_number(writer, field->number, 4);
    }
}

size_t kr_encode_ask(uint8_t *out, uint64_t tag, const struct kr_ask_form *form, uint32_t context,
                     const struct kr_field *fields) {
    struct writer writer = { .out = out, .fits = true };
    put_number(&writer, 0, 4);
    put_number(&writer, VERSION, 2);
    put_number(&writer, form->operation, 2);
    put_number(&writer, context, 4);
    put_number(&writer, tag, 8);
    for (size_t i = 0; form->fields[i] != KR_END; i++) put_field(&writer, form->fields[i], &fields[i]);
    if (!writer.fits) return 0;
    size_t length = writer.length;
    writer.length = 0;
    put_number(&writer, length - 4, 4);
    return length;
}

/* ---- Replies ---- */

uint32_t kr_get_u32(const uint8_t *at) {
    return at[0] | (uint32_t)at[1] << 8 | (uint32_t)at[2] << 16 | (uint32_t)at[3] << 24;
}

enum kr_decoded kr_decode_reply(const uint8_t *in, size_t length, struct kr_reply *reply) {
    if (length < 4) return KR_PARTIAL;
    reply->frame_length = 4 + (size_t)kr_get_u32(in);
    if (reply->frame_length < REPLY_HEAD || reply->frame_length > KR_REPLY_ROOM) return KR_MALFORMED;
    if (length < reply->frame_length) return KR_PARTIAL;
    reply->status = kr_get_u32(in + 4);
    reply->tag = kr_get_u32(in + 8) | (uint64_t)kr_get_u32(in + 12) << 32;
    reply->body = in + REPLY_HEAD;
    reply->length = reply->frame_length - REPLY_HEAD;
    return KR_WHOLE;
}

bool kr_is_serial(uint32_t number) { return number > 0 && number <= INT32_MAX; }

bool kr_reply_fits(const struct kr_reply *reply, const struct kr_ask_form *form, int *error) {
    const struct kr_status *status = kr_statuses, *end = kr_statuses + kr_status_count;
    while (status < end && status->number != reply->status) status++;
    *error = status < end ? status->error : 0;
    if (reply->status != 0) return reply->length == 0 && status < end;
    switch (form->answer) {
    case KR_NOTHING: return reply->length == 0;
    case KR_NUMBER: return reply->length == 4;
    case KR_SERIAL: return reply->length == 4 && kr_is_serial(kr_get_u32(reply->body));
    default: return true;
    }
}

/* ---- The records of a queue ---- */

enum { REMOVED_OR_LOST = 0, KEY_NOTE = 1, HEAD = 8, LONG_RECORD = 16 };

static const char *name_of(uint32_t type, uint32_t subtype) {
    static const char *const metas[] = { "removed", "lost" };
    static const char *const notes[] = { "instantiated", "updated", "linked", "unlinked",
                                         "cleared", "revoked", "invalidated", "setattr" };
    if (type == KEY_NOTE && subtype < sizeof notes / sizeof *notes) return notes[subtype];
    if (type == REMOVED_OR_LOST && subtype < sizeof metas / sizeof *metas) return metas[subtype];
    return "unknown";
}

int kr_next_note(const void **records, size_t *length, struct kr_note *note) {
    const uint8_t *at = *records;
    if (*length == 0) return 0;
    size_t size = *length >= HEAD ? kr_get_u32(at + 4) & 0x7f : 0;
    if (size < HEAD || size > *length) return fail_as(EPROTO);
    uint32_t head = kr_get_u32(at), type = head & 0xffffff, subtype = head >> 24;
    *note = (struct kr_note){ .name = name_of(type, subtype), .type = type, .subtype = subtype,
                              .watch = kr_get_u32(at + 4) >> 8 & 0xff };
    uint32_t key = size >= LONG_RECORD ? kr_get_u32(at + 8) : 0;
    uint32_t other = size >= LONG_RECORD && type == KEY_NOTE ? kr_get_u32(at + 12) : 0;
    if (key > INT32_MAX || other > INT32_MAX) return fail_as(EPROTO); /* no key has such a serial */
    note->key = (int32_t)key;
    note->other = (int32_t)other;
    *records = at + size;
    *length -= size;
    return 1;
}
