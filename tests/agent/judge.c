/* judge.c: for each line of hexadecimal digits whether the bytes are a state that is taken: its id, how many
 * descriptors it names and which of them is the listener; or `refused`. */
#include <stdio.h>
#include <string.h>

#include "agent/keyretain-agent.h"

int main(void) {
    static char line[65536], bytes[sizeof line / 2];
    struct container_state state;
    unsigned byte;
    while (fgets(line, sizeof line, stdin)) {
        size_t length = 0;
        while (sscanf(line + 2 * length, "%2x", &byte) == 1) bytes[length++] = (char)byte;
        if (read_container_state(bytes, length, &state))
            printf("%s %u %u\n", state.id, state.descriptors, state.listener);
        else
            puts("refused");
    }
    return 0;
}
