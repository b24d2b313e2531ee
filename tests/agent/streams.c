/* streams.c SECONDS SEED: states that are changed at random, for the entry of fuzz.c, where no libFuzzer is there. */
#include <stdint.h>
#include <stdio.h>
#include <stdlib.h>
#include <string.h>
#include <time.h>

#include "seeds.h"

enum { ROOM = 4096 };

int LLVMFuzzerTestOneInput(const uint8_t *input, size_t length);

static unsigned below(unsigned most) { return (unsigned)rand() % most; }

/* Takes out, doubles, or replaces some bytes. */
static size_t change(char *bytes, size_t length) {
    static const char likely[] = "{}[]\",:\\u0e-.tfn \n";
    size_t at = below((unsigned)length), some = below(16) + 1;
    if (at + some > length) some = length - at;
    switch (below(4)) {
    case 0: bytes[at] = likely[below(sizeof likely - 1)]; return length;
    case 1: bytes[at] = (char)below(256); return length;
    case 2: memmove(bytes + at, bytes + at + some, length - at - some); return length - some ? length - some : 1;
    default:
        if (length + some > ROOM) return length;
        memmove(bytes + at + some, bytes + at, length - at);
        return length + some;
    }
}

int main(int count, char **words) {
    char bytes[ROOM + 1];
    unsigned long runs = 0;
    if (count != 3) return 2;
    srand((unsigned)atoi(words[2]));
    for (time_t end = time(NULL) + atoi(words[1]); time(NULL) < end;)
        for (int i = 0; i < 1000; i++, runs++) {
            size_t length = (size_t)snprintf(bytes, sizeof bytes, "%c%s", (char)(below(255) + 1), seeds[below(SEEDS)]);
            for (unsigned changes = below(6); changes > 0; changes--) length = change(bytes, length);
            LLVMFuzzerTestOneInput((const uint8_t *)bytes, length);
        }
    printf("streams: %lu passed, 0 failed\n", runs);
    return 0;
}
