/* states.c: which states of containers are taken, by config-linux.md of the OCI runtime specification and RFC 8259, and
 * how far an object reaches, given in every way to cut it in two. */
#include "check.h"
#include "agent/keyretain-agent.h"

#define FIRST "{\"ociVersion\":\"1.0.2\",\"fds\":[\"seccompFd\"],"
#define STATE "\"state\":{\"ociVersion\":\"1.0.2\",\"id\":\"a\",\"status\":\"creating\",\"pid\":7,\"bundle\":\"/b\"}"

/* ---- What is taken ---- */

static const struct {
    const char *name, *text, *id;
    unsigned descriptors, listener;
} taken[] = {
    { "as runc(8) sends it", FIRST "\"pid\":7,\"metadata\":\"keyretain\"," STATE "}", "a", 1, 0 },
    { "a process id of 0, as crun(1) sends it", FIRST "\"pid\":0," STATE "}", "a", 1, 0 },
    { "the listener is the third", "{\"fds\":[\"x\",\"y\",\"seccompFd\"],\"state\":{\"id\":\"a\"}}", "a", 3, 2 },
    { "the state comes first", "{\"state\":{\"id\":\"a\"},\"fds\":[\"seccompFd\",\"x\"]}", "a", 2, 0 },
    { "spaces wherever they may be",
      " { \"fds\" : [ \"seccompFd\" ]\n,\t\"state\" : { \"id\" : \"a\" }\r} ", "a", 1, 0 },
    { "names written by escapes",
      "{\"f\\u0064s\":[\"seccomp\\u0046d\"],\"state\":{\"i\\u0064\":\"\\u0061\"}}", "a", 1, 0 },
    { "all that an id may have", FIRST "\"state\":{\"id\":\"azAZ09_+-.\"}}", "azAZ09_+-.", 1, 0 },
    { "members that nobody knows",
      FIRST "\"x\":[1,-2.5e+3,0,{\"y\":null},true,false,[]],\"z\":{}," STATE "}", "a", 1, 0 },
    { "an id where it isn't the container's", FIRST "\"id\":\"b\",\"x\":{\"id\":\"c\"},\"state\":{\"x\":{\"id\":\"d\"},"
      "\"id\":\"a\"}}", "a", 1, 0 },
    { "members whose names begin as those that are known", FIRST "\"fdss\":[],\"states\":{\"id\":\"b\"},"
      "\"state\":{\"id\":\"a\",\"ids\":\"b\",\"id \":\"c\"}}", "a", 1, 0 },
    { "brackets and quotes in texts",
      FIRST "\"state\":{\"annotations\":{\"}]\\\"{[\":\"\\\\\"},\"id\":\"a\"}}", "a", 1, 0 },
    { "a long name", FIRST "\"0123456789012345678901234567890123456789\":1," STATE "}", "a", 1, 0 },
    { "a profile with notes", FIRST "\"metadata\":\"keyretain with notes\"," STATE "}", "a", 1, 0 },
    { "a null character in an annotation",
      FIRST "\"state\":{\"annotations\":{\"b\":\"c\\u0000d\"},\"id\":\"a\"}}", "a", 1, 0 },
    { "bytes beyond ASCII", FIRST "\"x\":\"\xc3\xa4\\u00e4\\ud83d\\ude00\"," STATE "}", "a", 1, 0 },
};

static const struct {
    const char *name, *text;
} not_taken[] = {
    { "nothing", "" },
    { "an empty object", "{}" },
    { "an array", "[]" },
    { "no descriptors", "{" STATE "}" },
    { "no listener among them", "{\"fds\":[\"x\"]," STATE "}" },
    { "an empty list of them", "{\"fds\":[]," STATE "}" },
    { "two listeners", "{\"fds\":[\"seccompFd\",\"seccompFd\"]," STATE "}" },
    { "two lists", FIRST "\"fds\":[\"seccompFd\"]," STATE "}" },
    { "a list that is a text", "{\"fds\":\"seccompFd\"," STATE "}" },
    { "a list with a number", "{\"fds\":[\"seccompFd\",1]," STATE "}" },
    { "a listener with a null character behind its name", "{\"fds\":[\"seccompFd\\u0000\"]," STATE "}" },
    { "no state", FIRST "\"pid\":7}" },
    { "two states", FIRST STATE "," STATE "}" },
    { "a state that is a text", FIRST "\"state\":\"a\"}" },
    { "no id", FIRST "\"state\":{\"pid\":7}}" },
    { "two ids", FIRST "\"state\":{\"id\":\"a\",\"id\":\"b\"}}" },
    { "two ids, one written by escapes", FIRST "\"state\":{\"id\":\"a\",\"\\u0069d\":\"b\"}}" },
    { "an empty id", FIRST "\"state\":{\"id\":\"\"}}" },
    { "an id that is a number", FIRST "\"state\":{\"id\":1}}" },
    { "an id that leads out of a folder", FIRST "\"state\":{\"id\":\"../a\"}}" },
    { "an id with a slash as an escape", FIRST "\"state\":{\"id\":\"\\/a\"}}" },
    { "an id with a space", FIRST "\"state\":{\"id\":\"a b\"}}" },
    { "an id with a line end", FIRST "\"state\":{\"id\":\"a\\nb\"}}" },
    { "an id with a null character", FIRST "\"state\":{\"id\":\"a\\u0000b\"}}" },
    { "an id beyond ASCII", FIRST "\"state\":{\"id\":\"\xc3\xa4\"}}" },
    { "an id beyond ASCII as an escape", FIRST "\"state\":{\"id\":\"a\\u0161\"}}" },
    { "an object that doesn't end", FIRST STATE },
    { "something behind it", FIRST STATE "}x" },
    { "another object behind it", FIRST STATE "}{}" },
    { "a comma too many", FIRST STATE ",}" },
    { "a comma too many in a list", "{\"fds\":[\"seccompFd\",]," STATE "}" },
    { "a comma that lacks", "{\"fds\":[\"seccompFd\"]" STATE "}" },
    { "a comma at the beginning", "{,\"fds\":[\"seccompFd\"]," STATE "}" },
    { "a colon that lacks", "{\"fds\"[\"seccompFd\"]," STATE "}" },
    { "brackets that don't match", FIRST "\"x\":[1}," STATE "}" },
    { "a number with a zero before it", FIRST "\"pid\":07," STATE "}" },
    { "a number without digits", FIRST "\"pid\":-," STATE "}" },
    { "a number with an empty fraction", FIRST "\"pid\":1.," STATE "}" },
    { "a number with an empty exponent", FIRST "\"pid\":1e," STATE "}" },
    { "a word that isn't one", FIRST "\"pid\":nul," STATE "}" },
    { "a text with a line end", FIRST "\"x\":\"\n\"," STATE "}" },
    { "an escape that isn't one", FIRST "\"x\":\"\\x\"," STATE "}" },
    { "an escape of three digits", FIRST "\"x\":\"\\u12\"," STATE "}" },
    { "a text that doesn't end", FIRST STATE ",\"x" },
    { "a name without quotes", "{fds:[\"seccompFd\"]," STATE "}" },
    { "a member twice that nobody knows", FIRST "\"x\":1,\"x\":2," STATE "}" },
    { "an annotation twice", FIRST "\"state\":{\"id\":\"a\",\"annotations\":{\"b\":\"\",\"\\u0062\":\"\"}}}" },
    { "half of a surrogate pair", FIRST "\"x\":\"\\ud83d\"," STATE "}" },
    { "bytes that are no UTF-8", FIRST "\"x\":\"\xc3\"," STATE "}" },
    { "a listener with a byte too many", "{\"fds\":[\"seccompFdd\"]," STATE "}" },
};

static void try_states(void) {
    struct container_state state;
    for (size_t i = 0; i < sizeof taken / sizeof *taken; i++)
        check(taken[i].name, read_container_state(taken[i].text, strlen(taken[i].text), &state) &&
                              strcmp(state.id, taken[i].id) == 0 && state.descriptors == taken[i].descriptors &&
                              state.listener == taken[i].listener &&
                              state.has_pipes == (strstr(taken[i].text, "with notes") != NULL));
    for (size_t i = 0; i < sizeof not_taken / sizeof *not_taken; i++)
        check(not_taken[i].name, !read_container_state(not_taken[i].text, strlen(not_taken[i].text), &state));
}

/* A process id beyond those that there are is none, as 0 and what is no number. */
static void try_first(void) {
    static const struct {
        const char *text;
        int first;
    } ids[] = { { "7", 7 }, { "2147483647", 2147483647 }, { "2147483648", 0 }, { "4294967303", 0 }, { "-7", 0 },
                { "0", 0 }, { "\"7\"", 0 } };
    for (size_t i = 0; i < sizeof ids / sizeof *ids; i++) {
        struct container_state state;
        char text[128];
        snprintf(text, sizeof text, FIRST "\"state\":{\"id\":\"a\",\"pid\":%s}}", ids[i].text);
        check(text, read_container_state(text, strlen(text), &state) && state.first == ids[i].first);
    }
}

/* Ids of 255 and of 256 bytes; objects that are nested 32 and 33 deep. */
static void try_limits(void) {
    struct container_state state;
    char id[257] = "", nested[80] = "", text[1024];
    for (size_t length = 255; length <= 256; length++) {
        memset(id, 'a', length);
        snprintf(text, sizeof text, FIRST "\"state\":{\"id\":\"%s\"}}", id);
        check("the longest id", read_container_state(text, strlen(text), &state) == (length == 255));
    }
    for (size_t depth = 32; depth <= 33; depth++) {
        memset(nested, '[', depth - 1);
        memset(nested + depth - 1, ']', depth - 1);
        snprintf(text, sizeof text, FIRST "\"x\":%s," STATE "}", nested);
        check("the deepest value", read_container_state(text, strlen(text), &state) == (depth == 32));
        struct json_scan scan = { 0 };
        size_t used;
        check("the deepest value, scanned",
           json_scan(&scan, text, strlen(text), &used) == (depth == 32 ? JSON_WHOLE : JSON_BROKEN));
    }
}

/* A mebibyte of one text, and of things that take much more memory than they have bytes. */
static void try_much(void) {
    static char text[1024 * 1024];
    const char *const much[] = { "x", "\"},{\"y\":\"" };
    for (int i = 0; i < 2; i++) {
        struct container_state state;
        size_t length = (size_t)sprintf(text, FIRST "\"x\":[{\"y\":\"");
        while (length + 200 < sizeof text) length += (size_t)sprintf(text + length, "%s", much[i]);
        length += (size_t)sprintf(text + length, "\"}]," STATE "}");
        check("much memory", read_container_state(text, length, &state) == (i == 0));
    }
}

/* ---- How far it reaches ---- */

/* In two pieces, cut at each place, with something behind it. */
static void try_pieces(const char *text) {
    size_t whole = strlen(text), used, used_first;
    char longer[1024];
    snprintf(longer, sizeof longer, "%s}]\"x", text);
    for (size_t cut = 0; cut < whole; cut++) {
        struct json_scan scan = { 0 };
        int is_partial = json_scan(&scan, longer, cut, &used_first) == JSON_PARTIAL && used_first == cut;
        int is_whole = json_scan(&scan, longer + cut, strlen(longer) - cut, &used) == JSON_WHOLE;
        check("an object in two pieces", is_partial && is_whole && cut + used == whole);
    }
}

static void try_scans(void) {
    struct json_scan scan;
    size_t used;
    for (size_t i = 0; i < sizeof taken / sizeof *taken; i++) {
        char text[512];
        size_t length = strlen(taken[i].text);
        while (taken[i].text[length - 1] == ' ') length--; /* what stands behind it is no part of it */
        snprintf(text, sizeof text, "%.*s", (int)length, taken[i].text);
        try_pieces(text);
    }
    scan = (struct json_scan){ 0 };
    check("an array is no object", json_scan(&scan, "[]", 2, &used) == JSON_BROKEN);
    scan = (struct json_scan){ 0 };
    check("a word is no object", json_scan(&scan, "  x{}", 5, &used) == JSON_BROKEN);
}

int main(void) {
    try_states();
    try_first();
    try_limits();
    try_much();
    try_scans();
    return conclude("states");
}
