/* replay.c FILE ..: runs the harness on each file, for compilers without libFuzzer and for valgrind(1). */
#include <stdint.h>
#include <stdio.h>
#include <stdlib.h>
#include <string.h>

enum { LONGEST = 1 << 16 };

int LLVMFuzzerTestOneInput(const uint8_t *input, size_t length);

int main(int count, char **names) {
    static uint8_t bytes[LONGEST];
    for (int i = 1; i < count; i++) {
        FILE *file = fopen(names[i], "rb");
        if (!file) return perror(names[i]), 1;
        size_t length = fread(bytes, 1, sizeof bytes, file);
        fclose(file);
        uint8_t *input = malloc(length ? length : 1); /* so that it ends where the input does */
        if (!input) return 1;
        memcpy(input, bytes, length);
        LLVMFuzzerTestOneInput(input, length);
        free(input);
    }
    printf("%d inputs\n", count - 1);
    return 0;
}
