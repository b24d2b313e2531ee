/* fuzz.c: the entry of libFuzzer. The first byte of an input chooses what is tried, the others are a program for it:
 * which calls are made, and what the daemon does. A run ends by itself; what a client mustn't do is a fault, which
 * aborts. */
#define _GNU_SOURCE
#include "fuzz.h"

#include <stdlib.h>
#include <string.h>

#include "server.h"
#include "library/connection.h"

enum { UNTOUCHED = 0x5a /* what a buffer is filled with */ };

int LLVMFuzzerTestOneInput(const uint8_t *input, size_t length);

static char *text_of(uint8_t length) {
    char *text = malloc((size_t)length + 1);
    if (!text) abort();
    memset(text, 'a', length);
    text[length] = '\0';
    return text;
}

static void *buffer_of(size_t room) {
    void *buffer = malloc(room ? room : 1);
    if (!buffer) abort();
    memset(buffer, UNTOUCHED, room);
    return buffer;
}

struct words take_words(int32_t least, uint8_t longest, int more) {
    struct words words = { .number = server_byte() };
    words.id = words.number + least;
    words.type = text_of(words.number & longest);
    words.description = text_of(server_byte());
    words.room = (size_t)words.number << more;
    words.buffer = buffer_of(words.room);
    return words;
}

void free_words(struct words *words) {
    free(words->type);
    free(words->description);
    free(words->buffer);
}

int is_untouched(const void *buffer, size_t room) {
    const uint8_t *bytes = buffer;
    for (size_t i = 0; i < room; i++)
        if (bytes[i] != UNTOUCHED) return 0;
    return 1;
}

/* What docs/FORMAT.md says of bytes that begin so. */
static enum kr_decoded state_of(const uint8_t *received, size_t length) {
    uint64_t shortest = 12, longest = 262152, said;
    if (length < 4) return KR_PARTIAL;
    said = received[0] + received[1] * 256ULL + received[2] * 65536ULL + received[3] * 16777216ULL;
    if (said < shortest || said > longest) return KR_MALFORMED;
    return length - 4 < said ? KR_PARTIAL : KR_WHOLE;
}

/* A reply that is whole lies within what was received. */
static void look_at(const struct kr_reply *reply, const uint8_t *received, size_t length) {
    uint8_t sum = 0;
    int error;
    if (reply->frame_length > length) fault("a whole reply is longer than what came");
    if (reply->body + reply->length != received + reply->frame_length) fault("a body that isn't the frame's end");
    for (size_t i = 0; i < reply->length; i++) sum ^= reply->body[i];
    for (size_t i = 0; i < kr_ask_form_count; i++)
        if (kr_reply_fits(reply, &kr_ask_forms[i], &error) && reply->status != 0 && error == 0)
            fault("an error without a number");
    if (sum == 1) error = sum; /* the sum is used, so the bytes are read */
    (void)error;
}

/* The decoder alone, on memory that ends with the bytes. */
void fuzz_decoder(void) {
    const uint8_t *rest;
    size_t length = server_rest(&rest);
    uint8_t *received = malloc(length ? length : 1);
    struct kr_reply reply;
    if (!received) abort();
    if (length) memcpy(received, rest, length);
    enum kr_decoded decoded = kr_decode_reply(received, length, &reply);
    if (decoded != state_of(received, length)) fault("bytes are taken for what they aren't");
    if (decoded == KR_WHOLE) look_at(&reply, received, length);
    free(received);
}

int LLVMFuzzerTestOneInput(const uint8_t *input, size_t length) {
    setenv("KEYRETAIN_SOCKET", "/nowhere", 1);
    server_begin(input, length);
    switch (server_byte() % 4) {
    case 0: fuzz_decoder(); break;
    case 1: fuzz_keyutils(); break;
    default: fuzz_library();
    }
    return 0;
}
