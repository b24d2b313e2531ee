/* symbols: each symbol of libkeyutils.so.1 is there under its version, and each function is called once. */
#define _GNU_SOURCE
#include <malloc.h>

#include "check.h"
#include "keyutils/keyutils.h"

static const struct {
    const char *version, *names;
} symbols[] = {
    { "KEYUTILS_0.3",
      "add_key keyctl keyctl_chown keyctl_clear keyctl_describe keyctl_describe_alloc keyctl_get_keyring_ID "
      "keyctl_instantiate keyctl_join_session_keyring keyctl_link keyctl_negate keyctl_read keyctl_read_alloc "
      "keyctl_revoke keyctl_search keyctl_set_reqkey_keyring keyctl_setperm keyctl_unlink keyctl_update request_key" },
    { "KEYUTILS_1.0", "keyctl_assume_authority keyctl_set_timeout" },
    { "KEYUTILS_1.3", "keyctl_get_security keyctl_get_security_alloc keyctl_session_to_parent" },
    { "KEYUTILS_1.4",
      "keyctl_instantiate_iov keyctl_invalidate keyctl_reject recursive_key_scan recursive_session_key_scan" },
    { "KEYUTILS_1.5", "find_key_by_type_and_desc keyctl_get_persistent" },
    { "KEYUTILS_1.6",
      "keyctl_dh_compute keyctl_dh_compute_alloc keyctl_pkey_decrypt keyctl_pkey_encrypt keyctl_pkey_query "
      "keyctl_pkey_sign keyctl_pkey_verify" },
    { "KEYUTILS_1.7", "keyctl_dh_compute_kdf" },
    { "KEYUTILS_1.9", "keyctl_capabilities keyctl_move" },
    { "KEYUTILS_1.10", "keyctl_watch_key" },
    { NULL, "keyctl_restrict_keyring keyutils_build_string keyutils_version_string" },
};

static void see_symbols(void) {
    void *library = dlopen("libkeyutils.so.1", RTLD_NOW | RTLD_NOLOAD);
    check("the library", library != NULL);
    for (size_t i = 0; i < sizeof symbols / sizeof *symbols; i++) {
        char names[512];
        const char *version = symbols[i].version;
        strcpy(names, symbols[i].names);
        for (char *name = strtok(names, " "); name; name = strtok(NULL, " "))
            check(name, (version ? dlvsym(library, name, version) : dlsym(library, name)) != NULL);
    }
    check("what is the library's own is hidden", !dlsym(library, "kr_open") && !dlsym(library, "key_call"));
    check("the version", strcmp(keyutils_version_string, "keyutils-1.6.3") == 0 && *keyutils_build_string == '2');
}

static key_serial_t session, ring, key;

static void call_makers(void) {
    session = keyctl_join_session_keyring("symbols");
    ring = add_key("keyring", "ring", NULL, 0, KEY_SPEC_SESSION_KEYRING);
    key = add_key("user", "alpha", "s3", 2, ring);
    check("a session, a keyring, a key", session > 0 && ring > 0 && key > 0);
    check("keyctl_get_keyring_ID", keyctl_get_keyring_ID(KEY_SPEC_SESSION_KEYRING, 0) == session);
    check("request_key", request_key("user", "alpha", NULL, 0) == key);
    check("request_key, no such type", refused(request_key("none", "alpha", NULL, 0), ENOKEY));
    check("keyctl_search", keyctl_search(session, "user", "alpha", 0) == key);
    check("keyctl_search, nothing there", refused(keyctl_search(session, "user", "beta", 0), ENOKEY));
    check("keyctl_search, no description", refused(keyctl_search(session, "user", "", 0), ENOKEY));
    check("find_key_by_type_and_desc", find_key_by_type_and_desc("user", "alpha", 0) == key);
    check("find_key_by_type_and_desc, nothing there", refused(find_key_by_type_and_desc("user", "beta", 0), ENOKEY));
}

/* A key of a user's keyring alone, whose user may link it. */
static key_serial_t put_apart(const char *description, key_serial_t keyring) {
    key_serial_t put = add_key("user", description, "s3", 2, session);
    bool is_put = put > 0 && keyctl_setperm(put, 0x3f3f0000) == 0 && keyctl_link(put, keyring) == 0;
    return is_put && keyctl_unlink(put, session) == 0 ? put : -1;
}

/* What request_key(2) doesn't find is looked for in the user's keyrings too: of the whole type, with the whole
 * description. What is found is linked, where that is asked. */
static void call_finders(void) {
    key_serial_t own = put_apart("of;user", KEY_SPEC_USER_KEYRING);
    key_serial_t other = put_apart("of user session", KEY_SPEC_USER_SESSION_KEYRING);
    check("keys in keyrings of the user", own > 0 && other > 0);
    check("which no request finds", refused(request_key("user", "of;user", NULL, 0), ENOKEY));
    check("one of the user keyring", find_key_by_type_and_desc("user", "of;user", 0) == own);
    check("one of the user session keyring", find_key_by_type_and_desc("user", "of user session", 0) == other);
    check("another type", refused(find_key_by_type_and_desc("use", "of;user", 0), ENOKEY));
    check("not linked yet", refused(keyctl_search(ring, "user", "of;user", 0), ENOKEY));
    check("the same, linked", find_key_by_type_and_desc("user", "of;user", ring) == own &&
          keyctl_search(ring, "user", "of;user", 0) == own && keyctl_unlink(own, ring) == 0);
    check("a search by the number of its call, linked", keyctl(KEYCTL_SEARCH, ring, "user", "alpha", session) == key &&
          keyctl_unlink(key, session) == 0);
    check("a request, linked", request_key("user", "alpha", NULL, session) == key && keyctl_unlink(key, session) == 0);
    check("they go", keyctl_unlink(own, KEY_SPEC_USER_KEYRING) == 0 &&
          keyctl_unlink(other, KEY_SPEC_USER_SESSION_KEYRING) == 0);
}

/* As long as what the GNU C library has room for exactly, where it is asked for that. */
static const char none_to_spare[2056];

static void call_readers(void) {
    char buffer[64] = "untouched", *text = NULL;
    void *payload = NULL;
    check("keyctl_read", keyctl_read(key, buffer, sizeof buffer) == 2 && memcmp(buffer, "s3", 2) == 0);
    check("keyctl_read, an id of none", refused(keyctl_read(-99, buffer, sizeof buffer), ENOKEY));
    check("keyctl_read_alloc", keyctl_read_alloc(key, &payload) == 2 && strcmp(payload, "s3") == 0);
    free(payload);
    payload = NULL;
    key_serial_t tight = add_key("user", "tight", none_to_spare, sizeof none_to_spare, KEY_SPEC_PROCESS_KEYRING);
    check("keyctl_read_alloc, and a null byte behind it",
          keyctl_read_alloc(tight, &payload) == sizeof none_to_spare &&
              malloc_usable_size(payload) > sizeof none_to_spare);
    free(payload);
    strcpy(buffer, "untouched");
    long length = keyctl_describe(key, NULL, 0);
    check("keyctl_describe, the length", length > 20 && keyctl_describe(key, buffer, (size_t)length - 1) == length);
    check("keyctl_describe, too little room", strcmp(buffer, "untouched") == 0);
    check("keyctl_describe", keyctl_describe(key, buffer, sizeof buffer) == length &&
          strlen(buffer) == (size_t)length - 1 && strncmp(buffer, "user;", 5) == 0);
    check("keyctl_describe_alloc", keyctl_describe_alloc(key, &text) == length - 1 && strcmp(text, buffer) == 0);
    free(text);
    check("keyctl_get_security", keyctl_get_security(key, buffer, sizeof buffer) == 1 && *buffer == '\0');
    check("keyctl_get_security_alloc", keyctl_get_security_alloc(key, &text) == 0 && *text == '\0');
    free(text);
    check("keyctl", keyctl(KEYCTL_READ, key, buffer, sizeof buffer) == 2);
    check("keyctl, no such command", refused(keyctl(99), EOPNOTSUPP));
    check("keyctl, the daemon's own numbers", refused(keyctl(256), EOPNOTSUPP) && refused(keyctl(-1), EOPNOTSUPP));
}

static int count_key(key_serial_t parent, key_serial_t at, char *description, int length, void *seen) {
    if (length > 0 && description) *(int *)seen += 1;
    return 1;
}

static void call_changes(void) {
    check("keyctl_update", keyctl_update(key, "new", 3) == 0);
    check("keyctl_update, above a page", refused(keyctl_update(key, "new", 1 << 20), EINVAL));
    check("keyctl_setperm", keyctl_setperm(key, 0x3f3f0000) == 0);
    check("keyctl_chown", keyctl_chown(key, (uid_t)-1, (gid_t)-1) == 0);
    check("keyctl_set_timeout", keyctl_set_timeout(key, 1000) == 0 && keyctl_set_timeout(key, 0) == 0);
    check("keyctl_link", keyctl_link(key, session) == 0);
    int seen = 0;
    check("recursive_key_scan", recursive_key_scan(ring, count_key, &seen) == 2 && seen == 2);
    check("recursive_session_key_scan", recursive_session_key_scan(count_key, &seen) == 4 && seen == 6);
    check("keyctl_unlink", keyctl_unlink(key, session) == 0);
    check("keyctl_clear", keyctl_clear(ring) == 0);
    check("keyctl_clear, of a process keyring that isn't there yet", keyctl_clear(KEY_SPEC_PROCESS_KEYRING) == 0);
    key = add_key("user", "beta", "s3", 2, ring);
    check("keyctl_revoke", keyctl_revoke(key) == 0 && refused(keyctl_read(key, NULL, 0), EKEYREVOKED));
    check("keyctl_invalidate", keyctl_invalidate(ring) == 0 && refused(keyctl_read(ring, NULL, 0), ENOKEY));
}

/* These two are EOPNOTSUPP where the daemon doesn't carry them, and then leave everything as it was. */
static void call_newer(void) {
    unsigned char known[4] = { 9, 9, 9, 9 };
    key_serial_t from = add_key("keyring", "from", NULL, 0, KEY_SPEC_PROCESS_KEYRING);
    key_serial_t to = add_key("keyring", "to", NULL, 0, KEY_SPEC_PROCESS_KEYRING);
    key = add_key("user", "moves", "s3", 2, from);
    check("keyctl_capabilities", keyctl_capabilities(known, sizeof known) == 2 &&
          known[0] & KEYCTL_CAPS0_CAPABILITIES && known[2] == 0);
    bool can_move = known[0] & KEYCTL_CAPS0_MOVE, can_restrict = known[0] & KEYCTL_CAPS0_RESTRICT_KEYRING;
    long moved = keyctl_move(key, from, to, 0);
    check("keyctl_move", can_move ? moved == 0 : refused(moved, EOPNOTSUPP));
    check("keyctl_restrict_keyring, a type's own", refused(keyctl_restrict_keyring(to, "user", "any"),
          can_restrict ? ENOENT : EOPNOTSUPP));
    long restricted = keyctl_restrict_keyring(to, NULL, NULL);
    check("keyctl_restrict_keyring", can_restrict ? restricted == 0 : refused(restricted, EOPNOTSUPP));
    check("their process keyring is there", keyctl_read(key, NULL, 0) == 2);
    check("a closed keyring", !can_restrict || refused(add_key("user", "more", "s3", 2, to), EPERM));
    check("keyctl_move, an unknown flag", refused(keyctl_move(key, from, to, 2), EINVAL));
}

static void call_authority(void) {
    check("keyctl_instantiate", refused(keyctl_instantiate(key, "x", 1, 0), EPERM));
    check("keyctl_instantiate_iov", refused(keyctl_instantiate_iov(key, NULL, 0, 0), EPERM));
    check("keyctl_negate", refused(keyctl_negate(key, 1, 0), EPERM));
    check("keyctl_reject", refused(keyctl_reject(key, 1, EACCES, 0), EPERM));
    check("keyctl_assume_authority", keyctl_assume_authority(0) == 0 && refused(keyctl_assume_authority(key), ENOKEY));
    check("an authority's key", refused(keyctl_read(KEY_SPEC_REQKEY_AUTH_KEY, NULL, 0), ENOKEY));
    check("keyctl_set_reqkey_keyring", keyctl_set_reqkey_keyring(KEY_REQKEY_DEFL_USER_KEYRING) == 0 &&
          keyctl_set_reqkey_keyring(KEY_REQKEY_DEFL_NO_CHANGE) == KEY_REQKEY_DEFL_USER_KEYRING &&
          keyctl_set_reqkey_keyring(KEY_REQKEY_DEFL_REQUESTOR_KEYRING) == KEY_REQKEY_DEFL_USER_KEYRING &&
          refused(keyctl_set_reqkey_keyring(KEY_REQKEY_DEFL_GROUP_KEYRING), EINVAL));
}

static void call_left_out(void) {
    struct keyctl_pkey_query query;
    char hash[] = "sha256";
    void *buffer = NULL;
    check("keyctl_session_to_parent", refused(keyctl_session_to_parent(), EOPNOTSUPP));
    check("keyctl_get_persistent", refused(keyctl_get_persistent((uid_t)-1, session), EOPNOTSUPP));
    check("keyctl_watch_key", refused(keyctl_watch_key(key, 0, 0), EOPNOTSUPP));
    check("keyctl_dh_compute", refused(keyctl_dh_compute(1, 2, 3, NULL, 0), EOPNOTSUPP));
    check("keyctl_dh_compute_alloc", refused(keyctl_dh_compute_alloc(1, 2, 3, &buffer), EOPNOTSUPP));
    check("keyctl_dh_compute_kdf", refused(keyctl_dh_compute_kdf(1, 2, 3, hash, NULL, 0, NULL, 0), EOPNOTSUPP));
    check("keyctl_pkey_query", refused(keyctl_pkey_query(key, "", &query), EOPNOTSUPP));
    check("keyctl_pkey_encrypt", refused(keyctl_pkey_encrypt(key, "", "", 0, NULL, 0), EOPNOTSUPP));
    check("keyctl_pkey_decrypt", refused(keyctl_pkey_decrypt(key, "", "", 0, NULL, 0), EOPNOTSUPP));
    check("keyctl_pkey_sign", refused(keyctl_pkey_sign(key, "", "", 0, NULL, 0), EOPNOTSUPP));
    check("keyctl_pkey_verify", refused(keyctl_pkey_verify(key, "", "", 0, "", 0), EOPNOTSUPP));
}

int main(void) {
    see_symbols();
    call_makers();
    call_finders();
    call_readers();
    call_changes();
    call_newer();
    call_authority();
    call_left_out();
    return conclude("symbols");
}
