/* fuzz.h: the parts of the harness. Each makes calls as the input says. */
#ifndef KEYRETAIN_FUZZ_H
#define KEYRETAIN_FUZZ_H

#include <stddef.h>
#include <stdint.h>

void fuzz_decoder(void);
void fuzz_library(void);
void fuzz_keyutils(void);

/* What a call is made with. Texts and the buffer lie in memory of their own length. */
struct words {
    uint8_t number;
    int32_t id;
    char *type, *description;
    size_t room;
    void *buffer;
};

/* As the input says: an id from the least on, a type of at most so many bytes, and so many bits more of room. */
struct words take_words(int32_t least, uint8_t longest, int more);
void free_words(struct words *words);

/* Whether all of a buffer is as it was. */
int is_untouched(const void *buffer, size_t room);

#endif
