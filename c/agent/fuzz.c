/* fuzz.c: the entry of libFuzzer: any bytes as what comes from a runtime. The first byte says where they are cut in
 * two. */
#include <stdint.h>
#include <stdio.h>
#include <stdlib.h>
#include <string.h>

#include "keyretain-agent.h"

int LLVMFuzzerTestOneInput(const uint8_t *input, size_t length);

static void hold(int right, const char *what) {
    if (right) return;
    fprintf(stderr, "fails: %s\n", what);
    abort();
}

/* Memory that ends with the bytes, so that a sanitizer sees who reads on. */
static char *copy_of(const char *bytes, size_t length) {
    char *copy = malloc(length + !length);
    if (!copy) abort();
    memcpy(copy, bytes, length);
    return copy;
}

/* How far an object reaches, however it is cut. */
static enum json_extent scan(const char *bytes, size_t length, size_t cut, size_t *used) {
    struct json_scan scan = { 0 };
    char *first = copy_of(bytes, cut), *second = copy_of(bytes + cut, length - cut);
    size_t more = 0;
    enum json_extent extent = json_scan(&scan, first, cut, used);
    if (extent == JSON_PARTIAL) extent = json_scan(&scan, second, length - cut, &more);
    *used += more;
    free(first);
    free(second);
    return extent;
}

static int is_of_id(char byte) {
    return (byte >= 'a' && byte <= 'z') || (byte >= 'A' && byte <= 'Z') || (byte >= '0' && byte <= '9') ||
           byte == '_' || byte == '+' || byte == '-' || byte == '.';
}

static int is_id(const char *id) {
    size_t length = strnlen(id, CONTAINER_ID_MAX + 1);
    for (size_t i = 0; i < length; i++)
        if (!is_of_id(id[i])) return 0;
    return length > 0 && length <= CONTAINER_ID_MAX;
}

int LLVMFuzzerTestOneInput(const uint8_t *input, size_t length) {
    struct container_state state;
    size_t used, used_whole;
    if (length == 0) return 0;
    const char *bytes = (const char *)input + 1;
    length--;
    enum json_extent extent = scan(bytes, length, length * input[0] / 256, &used);
    enum json_extent whole_extent = scan(bytes, length, 0, &used_whole);
    hold(extent == whole_extent && used == used_whole, "a cut changes how far an object reaches");
    hold(used <= length, "an object reaches farther than its bytes");
    char *whole = copy_of(bytes, used);
    if (read_container_state(whole, used, &state)) {
        hold(extent == JSON_WHOLE, "an object that hasn't ended is taken");
        hold(is_id(state.id), "an id of other characters");
        hold(state.listener < state.descriptors, "a listener that isn't among the descriptors");
    }
    free(whole);
    return 0;
}
