/* keyutils.c: the functions of libkeyutils 1.6.3. */
#include "common/caller.h"
#include "library/session.h"

#include <stdarg.h>

/* ---- Who answers ---- */

/* A library that a whole system may use is built with KEYRETAIN_ELSE_KERNEL: there keyretaind answers where the
 * environment names a session of it; elsewhere, and in a program that runs set-uid, the kernel. */
#ifdef KEYRETAIN_ELSE_KERNEL
static long call_kernel(int call, const unsigned long *at) {
    switch (call) {
    case CALL_ADD_KEY: return syscall(SYS_add_key, at[0], at[1], at[2], at[3], at[4]);
    case CALL_REQUEST_KEY: return syscall(SYS_request_key, at[0], at[1], at[3], at[2]);
    default: return syscall(SYS_keyctl, (long)call, at[0], at[1], at[2], at[3]);
    }
}

static long call_either(int call, struct arguments arguments) {
    const char *session = secure_getenv(KR_SESSION_VARIABLE);
    return session && *session ? key_call(call, arguments) : call_kernel(call, arguments.at);
}
#else
#define call_either key_call
#endif

#define CALL(call, ...) call_either(call, (struct arguments){ { __VA_ARGS__ } })

/* An argument as the system call has it: an id is widened by its sign. */
static unsigned long word(long number) { return (unsigned long)number; }
static unsigned long address(const void *at) { return (unsigned long)at; }

/* Each command is a function of it. */
#define COMMAND(type, name, parameters, ...) \
    type keyctl_##name parameters { return (type)CALL(__VA_ARGS__); }
#pragma GCC visibility push(default)
#include "keyutils.h"
#pragma GCC visibility pop

/* Programs copy both, so that their lengths are part of the interface. */
const char keyutils_version_string[] = "keyutils-1.6.3";
const char keyutils_build_string[] = "2022-12-18";

/* ---- System calls: weak, as in libkeyutils, so that a C library may have them ---- */

__attribute__((weak)) key_serial_t add_key(const char *type, const char *description, const void *payload,
                                           size_t length, key_serial_t ring) {
    return (key_serial_t)CALL(CALL_ADD_KEY, address(type), address(description), address(payload), length, word(ring));
}

__attribute__((weak)) key_serial_t request_key(const char *type, const char *description, const char *callout,
                                               key_serial_t destination) {
    return (key_serial_t)CALL(CALL_REQUEST_KEY, address(type), address(description), word(destination),
                              address(callout));
}

__attribute__((weak)) long keyctl(int command, ...) {
    struct arguments arguments = { { 0 } };
    va_list list;
    va_start(list, command);
    for (int i = 0; i < 4; i++) arguments.at[i] = va_arg(list, unsigned long);
    va_end(list);
    if (command < 0 || command >= CALL_ADD_KEY) return fail_as(EOPNOTSUPP);
    return call_either(command, arguments);
}


/* ---- Commands on keys of other types, which are in the kernel alone: else EOPNOTSUPP ---- */

long keyctl_dh_compute(key_serial_t private_key, key_serial_t prime, key_serial_t base, char *buffer, size_t room) {
    const struct keyctl_dh_params numbers = { .priv = private_key, .prime = prime, .base = base };
    return CALL(KEYCTL_DH_COMPUTE, address(&numbers), address(buffer), room, 0);
}

long keyctl_dh_compute_kdf(key_serial_t private_key, key_serial_t prime, key_serial_t base, char *hash, char *info,
                           size_t info_length, char *buffer, size_t room) {
    const struct keyctl_dh_params numbers = { .priv = private_key, .prime = prime, .base = base };
    const struct keyctl_kdf_params derived = { .hashname = hash, .otherinfo = info,
                                               .otherinfolen = (uint32_t)info_length };
    return CALL(KEYCTL_DH_COMPUTE, address(&numbers), address(buffer), room, address(&derived));
}

int keyctl_dh_compute_alloc(key_serial_t private_key, key_serial_t prime, key_serial_t base, void **buffer) {
    const long room = keyctl_dh_compute(private_key, prime, base, NULL, 0);
    char *bytes = room < 0 ? NULL : malloc((size_t)room + 1);
    if (!bytes) return -1;
    const long length = keyctl_dh_compute(private_key, prime, base, bytes, (size_t)room);
    if (length < 0 || length > room) {
        explicit_bzero(bytes, (size_t)room);
        free(bytes);
        return length < 0 ? -1 : fail_as(EOVERFLOW);
    }
    bytes[length] = '\0';
    *buffer = bytes;
    return (int)length;
}

COMMAND(long, pkey_query, (key_serial_t id, const char *info, struct keyctl_pkey_query *result),
        KEYCTL_PKEY_QUERY, word(id), 0, address(info), address(result))

/* A key, and the lengths of what comes in, and of what goes out or is compared. */
#define PKEY(name, type, command) \
    COMMAND(long, pkey_##name, \
            (key_serial_t id, const char *info, const void *data, size_t length, type out, size_t out_length), \
            command, address(&(const struct keyctl_pkey_params){ \
                .key_id = id, .in_len = (uint32_t)length, .out_len = (uint32_t)out_length }), \
            address(info), address(data), address(out))

PKEY(encrypt, void *, KEYCTL_PKEY_ENCRYPT)
PKEY(decrypt, void *, KEYCTL_PKEY_DECRYPT)
PKEY(sign, void *, KEYCTL_PKEY_SIGN)
PKEY(verify, const void *, KEYCTL_PKEY_VERIFY)

/* ---- Answers in memory of their own ---- */

enum { FIRST_ROOM = 256 };

/* The answer to a command into a buffer that is large enough, with a null byte after it; its length, or -1. The first
 * buffer does for most keys, so that one ask does, where the kernel's library always makes two. It has room for whole
 * serials: else the kernel doesn't read a keyring. */
static long read_all(int command, key_serial_t id, char **buffer) {
    size_t room = FIRST_ROOM;
    for (;;) {
        char *bytes = malloc(room + 1);
        if (!bytes) return -1;
        long length = CALL(command, word(id), address(bytes), room);
        if (length >= 0 && (size_t)length <= room) {
            bytes[length] = '\0';
            *buffer = bytes;
            return length;
        }
        free(bytes);
        if (length < 0) return -1;
        room = (size_t)length;
    }
}

/* A text's length doesn't count the null byte that it ends with. */
static int read_text(int command, key_serial_t id, char **buffer) {
    long length = read_all(command, id, buffer);
    return length < 0 ? -1 : (int)length - 1;
}

int keyctl_describe_alloc(key_serial_t id, char **buffer) { return read_text(KEYCTL_DESCRIBE, id, buffer); }
int keyctl_get_security_alloc(key_serial_t id, char **buffer) { return read_text(KEYCTL_GET_SECURITY, id, buffer); }

int keyctl_read_alloc(key_serial_t id, void **buffer) {
    char *bytes;
    long length = read_all(KEYCTL_READ, id, &bytes);
    if (length >= 0) *buffer = bytes;
    return (int)length;
}

/* ---- Scans ---- */

/* How deep libkeyutils goes. */
enum { DEEPEST = 800, SERIAL_WIDTH = 4, MOST_LINKS = 1 << 18, SCAN_MILLISECONDS = 30000 };

struct scan {
    recursive_key_scanner_t scanner;
    void *data;
    bool is_lost; /* there is no daemon any more: a next one has other keys, and none may keep each ask waiting */
    int left;     /* how many links more are followed, as a daemon may say any */
};

static int scan_key(struct scan *scan, key_serial_t parent, key_serial_t key, int depth);

/* After an ask that failed: an error that no daemon answers. */
static void note_loss(struct scan *scan) {
    scan->is_lost = errno == ECONNRESET || errno == ETIMEDOUT || errno == ENOSYS || errno == EPROTO;
}

static int scan_links(struct scan *scan, key_serial_t ring, int depth) {
    void *links;
    int length = keyctl_read_alloc(ring, &links), found = 0;
    if (length < 0) return note_loss(scan), 0;
    if (length / SERIAL_WIDTH > scan->left) scan->is_lost = true;
    scan->left -= length / SERIAL_WIDTH;
    for (int at = 0; at + SERIAL_WIDTH <= length && !scan->is_lost; at += SERIAL_WIDTH) {
        uint32_t serial = kr_get_u32((const uint8_t *)links + at);
        if (kr_is_serial(serial)) found += scan_key(scan, ring, (key_serial_t)serial, depth + 1);
    }
    free(links);
    return found;
}

/* What a keyring links is seen before the keyring itself. */
static int scan_key(struct scan *scan, key_serial_t parent, key_serial_t key, int depth) {
    char *description = NULL;
    int found = 0;
    if (depth > DEEPEST) return 0;
    int length = keyctl_describe_alloc(key, &description);
    if (length < 0) note_loss(scan);
    if (length > 0 && strncmp(description, "keyring;", 8) == 0) found = scan_links(scan, key, depth);
    if (!scan->is_lost) found += scan->scanner(parent, key, description, length, scan->data);
    free(description);
    return found;
}

/* Calls from here on end by the time that one may take, all together, or by the moment that was set before. */
static int64_t begin_scan(void) {
    int64_t end = kr_now() + SCAN_MILLISECONDS, before = caller_limit(end);
    if (before < end) caller_limit(before);
    return before;
}

int recursive_key_scan(key_serial_t key, recursive_key_scanner_t scanner, void *data) {
    struct scan scan = { scanner, data, false, MOST_LINKS };
    int64_t before = begin_scan();
    int found = scan_key(&scan, 0, key, 0);
    caller_limit(before);
    return found;
}

int recursive_session_key_scan(recursive_key_scanner_t scanner, void *data) {
    key_serial_t session = keyctl_get_keyring_ID(KEY_SPEC_SESSION_KEYRING, 0);
    return session > 0 ? recursive_key_scan(session, scanner, data) : 0;
}

struct wanted {
    const char *type, *description;
    key_serial_t found;
};

/* The description stands behind the type and four semicolons. */
static int look_at_key(key_serial_t parent, key_serial_t key, char *text, int length, void *data) {
    struct wanted *wanted = data;
    size_t type = strlen(wanted->type);
    int behind = 0;
    (void)parent;
    if (length < 0 || wanted->found || strncmp(text, wanted->type, type) != 0) return 0;
    sscanf(text + type, ";%*u;%*u;%*x;%n", &behind);
    if (behind > 0 && strcmp(text + type + behind, wanted->description) == 0) wanted->found = key;
    return 0;
}

/* libkeyutils looks through /proc/keys for what request_key(2) doesn't find. Here what this process's session and user
 * keyrings reach is looked through. */
static key_serial_t find_key(const char *type, const char *description, key_serial_t destination) {
    struct wanted wanted = { type, description, 0 };
    key_serial_t found = request_key(type, description, NULL, destination);
    int error = errno;
    if (found >= 0 || error == ENOMEM || error == ENOSYS) return found;
    for (key_serial_t head = KEY_SPEC_SESSION_KEYRING; head >= KEY_SPEC_USER_SESSION_KEYRING && !wanted.found; head--)
        if (keyctl_get_keyring_ID(head, 0) > 0) recursive_key_scan(head, look_at_key, &wanted);
    if (wanted.found == 0) return fail_as(error);
    return destination != 0 && keyctl_link(wanted.found, destination) < 0 ? -1 : wanted.found;
}

key_serial_t find_key_by_type_and_desc(const char *type, const char *description, key_serial_t destination) {
    int64_t before = begin_scan();
    key_serial_t found = find_key(type, description, destination);
    caller_limit(before);
    return found;
}
