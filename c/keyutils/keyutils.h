/* keyutils.h: the interface of libkeyutils 1.6.3, as keyctl(3) and the manual pages that it names declare it. Programs
 * are built with the keyutils.h of libkeyutils; this one is for the library that takes its place, and isn't
 * installed. */
#ifndef KEYRETAIN_KEYUTILS_H
#define KEYRETAIN_KEYUTILS_H

#include <linux/keyctl.h>
#include <stddef.h>
#include <stdint.h>
#include <sys/types.h>
#include <sys/uio.h>

typedef int32_t key_serial_t;
typedef uint32_t key_perm_t;
typedef int (*recursive_key_scanner_t)(key_serial_t parent, key_serial_t key, char *description, int length,
                                       void *data);

extern const char keyutils_version_string[], keyutils_build_string[];

/* add_key(2), request_key(2), keyctl(2) */
key_serial_t add_key(const char *type, const char *description, const void *payload, size_t length,
                     key_serial_t ring);
key_serial_t request_key(const char *type, const char *description, const char *callout, key_serial_t destination);
long keyctl(int command, ...);

/* keyctl(3): the commands, a function each, with the call that it makes. keyutils.c defines them, all others declare
 * them. */
#ifndef COMMAND
#define COMMAND(type, name, parameters, ...) type keyctl_##name parameters;
#endif

COMMAND(key_serial_t, get_keyring_ID, (key_serial_t id, int create), KEYCTL_GET_KEYRING_ID, word(id), word(create))
COMMAND(key_serial_t, join_session_keyring, (const char *name), KEYCTL_JOIN_SESSION_KEYRING, address(name))
COMMAND(long, update, (key_serial_t id, const void *payload, size_t length),
        KEYCTL_UPDATE, word(id), address(payload), length)
COMMAND(long, revoke, (key_serial_t id), KEYCTL_REVOKE, word(id))
COMMAND(long, chown, (key_serial_t id, uid_t uid, gid_t gid), KEYCTL_CHOWN, word(id), uid, gid)
COMMAND(long, setperm, (key_serial_t id, key_perm_t mask), KEYCTL_SETPERM, word(id), mask)
COMMAND(long, describe, (key_serial_t id, char *buffer, size_t room), KEYCTL_DESCRIBE, word(id), address(buffer), room)
COMMAND(long, clear, (key_serial_t ring), KEYCTL_CLEAR, word(ring))
COMMAND(long, link, (key_serial_t id, key_serial_t ring), KEYCTL_LINK, word(id), word(ring))
COMMAND(long, unlink, (key_serial_t id, key_serial_t ring), KEYCTL_UNLINK, word(id), word(ring))
COMMAND(long, search, (key_serial_t ring, const char *type, const char *description, key_serial_t destination),
        KEYCTL_SEARCH, word(ring), address(type), address(description), word(destination))
COMMAND(long, read, (key_serial_t id, char *buffer, size_t room), KEYCTL_READ, word(id), address(buffer), room)
COMMAND(long, instantiate, (key_serial_t id, const void *payload, size_t length, key_serial_t ring),
        KEYCTL_INSTANTIATE, word(id), address(payload), length, word(ring))
COMMAND(long, negate, (key_serial_t id, unsigned timeout, key_serial_t ring),
        KEYCTL_NEGATE, word(id), timeout, word(ring))
COMMAND(long, set_reqkey_keyring, (int choice), KEYCTL_SET_REQKEY_KEYRING, word(choice))
COMMAND(long, set_timeout, (key_serial_t id, unsigned seconds), KEYCTL_SET_TIMEOUT, word(id), seconds)
COMMAND(long, assume_authority, (key_serial_t id), KEYCTL_ASSUME_AUTHORITY, word(id))
COMMAND(long, get_security, (key_serial_t id, char *buffer, size_t room),
        KEYCTL_GET_SECURITY, word(id), address(buffer), room)
COMMAND(long, session_to_parent, (void), KEYCTL_SESSION_TO_PARENT, 0)
COMMAND(long, reject, (key_serial_t id, unsigned timeout, unsigned error, key_serial_t ring),
        KEYCTL_REJECT, word(id), timeout, error, word(ring))
COMMAND(long, instantiate_iov, (key_serial_t id, const struct iovec *payload, unsigned count, key_serial_t ring),
        KEYCTL_INSTANTIATE_IOV, word(id), address(payload), count, word(ring))
COMMAND(long, invalidate, (key_serial_t id), KEYCTL_INVALIDATE, word(id))
COMMAND(long, get_persistent, (uid_t uid, key_serial_t id), KEYCTL_GET_PERSISTENT, uid, word(id))
COMMAND(long, restrict_keyring, (key_serial_t ring, const char *type, const char *restriction),
        KEYCTL_RESTRICT_KEYRING, word(ring), address(type), address(restriction))
COMMAND(long, move, (key_serial_t id, key_serial_t from, key_serial_t to, unsigned flags),
        KEYCTL_MOVE, word(id), word(from), word(to), flags)
COMMAND(long, capabilities, (unsigned char *buffer, size_t room), KEYCTL_CAPABILITIES, address(buffer), room)
COMMAND(long, watch_key, (key_serial_t id, int pipe, int watch), KEYCTL_WATCH_KEY, word(id), word(pipe), word(watch))

/* the same, on keys of other types */
long keyctl_dh_compute(key_serial_t private_key, key_serial_t prime, key_serial_t base, char *buffer, size_t room);
long keyctl_dh_compute_kdf(key_serial_t private_key, key_serial_t prime, key_serial_t base, char *hash, char *info,
                           size_t info_length, char *buffer, size_t room);
long keyctl_pkey_query(key_serial_t id, const char *info, struct keyctl_pkey_query *result);
long keyctl_pkey_encrypt(key_serial_t id, const char *info, const void *data, size_t data_length, void *out,
                         size_t out_length);
long keyctl_pkey_decrypt(key_serial_t id, const char *info, const void *data, size_t data_length, void *out,
                         size_t out_length);
long keyctl_pkey_sign(key_serial_t id, const char *info, const void *data, size_t data_length, void *out,
                      size_t out_length);
long keyctl_pkey_verify(key_serial_t id, const char *info, const void *data, size_t data_length,
                        const void *signature, size_t signature_length);

/* keyctl_describe(3), keyctl_read(3), keyctl_get_security(3), keyctl_dh_compute(3): into memory of their own */
int keyctl_describe_alloc(key_serial_t id, char **buffer);
int keyctl_read_alloc(key_serial_t id, void **buffer);
int keyctl_get_security_alloc(key_serial_t id, char **buffer);
int keyctl_dh_compute_alloc(key_serial_t private_key, key_serial_t prime, key_serial_t base, void **buffer);

/* recursive_key_scan(3), find_key_by_type_and_name(3) */
int recursive_key_scan(key_serial_t key, recursive_key_scanner_t scanner, void *data);
int recursive_session_key_scan(recursive_key_scanner_t scanner, void *data);
key_serial_t find_key_by_type_and_desc(const char *type, const char *description, key_serial_t destination);

#endif
