/* rows.c: the calls. */
#include "caller.h"

enum { ADD_MAX = 1024 * 1024 - 1 };

#define CALL(word, number, ...) .name = (word), .call = (number), .at = { __VA_ARGS__ }

const struct key_row key_rows[] = {
    { CALL("add_key", CALL_ADD_KEY, KEY_TYPE, KEY_TEXT, KEY_PAYLOAD, KEY_NUMBER, KEY_ID), .most = ADD_MAX,
      .answers_serial = true },
    { CALL("request_key", CALL_REQUEST_KEY, KEY_TYPE, KEY_TEXT, KEY_ID, KEY_TEXT), .effect = KEY_READS_WITHOUT_RING,
      .ring = 2, .answers_serial = true, .wants_session = true },
    { CALL("get_keyring_id", KEYCTL_GET_KEYRING_ID, KEY_ID), .effect = KEY_READS, .answers_serial = true },
    { CALL("join_session_keyring", KEYCTL_JOIN_SESSION_KEYRING, KEY_TEXT), .answers_serial = true, .is_of_user = true },
    { CALL("update", KEYCTL_UPDATE, KEY_ID, KEY_PAYLOAD) },
    { CALL("revoke", KEYCTL_REVOKE, KEY_ID) },
    { CALL("chown", KEYCTL_CHOWN, KEY_ID), .makes_special = true },
    { CALL("setperm", KEYCTL_SETPERM, KEY_ID), .makes_special = true },
    { CALL("describe", KEYCTL_DESCRIBE, KEY_ID, KEY_ROOM), .effect = KEY_READS },
    { CALL("clear", KEYCTL_CLEAR, KEY_ID), .makes_special = true },
    { CALL("link", KEYCTL_LINK, KEY_ID, KEY_ID) },
    { CALL("unlink", KEYCTL_UNLINK, KEY_ID, KEY_ID) },
    { CALL("search", KEYCTL_SEARCH, KEY_ID, KEY_TYPE, KEY_TEXT, KEY_ID), .effect = KEY_READS_WITHOUT_RING, .ring = 3,
      .answers_serial = true },
    { CALL("read", KEYCTL_READ, KEY_ID, KEY_ROOM), .effect = KEY_READS },
    { CALL("instantiate", KEYCTL_INSTANTIATE, KEY_ID), .refused = EPERM },
    { CALL("negate", KEYCTL_NEGATE, KEY_ID), .refused = EPERM },
    { CALL("set_reqkey_keyring", KEYCTL_SET_REQKEY_KEYRING, KEY_NUMBER) },
    { CALL("set_timeout", KEYCTL_SET_TIMEOUT, KEY_ID), .makes_special = true },
    { CALL("assume_authority", KEYCTL_ASSUME_AUTHORITY, KEY_ID) },
    { CALL("get_security", KEYCTL_GET_SECURITY, KEY_ID, KEY_ROOM), .effect = KEY_READS },
    { CALL("session_to_parent", KEYCTL_SESSION_TO_PARENT, KEY_NUMBER), .refused = EOPNOTSUPP },
    { CALL("reject", KEYCTL_REJECT, KEY_ID), .refused = EPERM },
    { CALL("instantiate_iov", KEYCTL_INSTANTIATE_IOV, KEY_ID), .refused = EPERM },
    { CALL("invalidate", KEYCTL_INVALIDATE, KEY_ID) },
    { CALL("restrict_keyring", KEYCTL_RESTRICT_KEYRING, KEY_ID, KEY_TYPE, KEY_TEXT) },
    { CALL("move", KEYCTL_MOVE, KEY_ID, KEY_ID, KEY_ID) },
    { CALL("capabilities", KEYCTL_CAPABILITIES, KEY_ROOM), .effect = KEY_READS },
    { CALL("watch_key", KEYCTL_WATCH_KEY, KEY_ID, KEY_NUMBER, KEY_NUMBER), .makes_special = true },
    { CALL("pipe2", CALL_PIPE2, KEY_NUMBER, KEY_NUMBER) },
    { CALL("set_size", CALL_SET_SIZE, KEY_NUMBER, KEY_NUMBER) },
    { CALL("set_filter", CALL_SET_FILTER, KEY_NUMBER, KEY_NUMBER) },
    { 0 }
};

/* Also of the commands on keys of other types and on persistent keyrings. */
static const struct key_row no_row = { CALL("", -1, KEY_ID), .refused = EOPNOTSUPP };

const struct key_row *key_row_of(int call) {
    for (const struct key_row *row = key_rows; row->name; row++)
        if (row->call == call) return row;
    return &no_row;
}

bool key_row_names(const struct key_row *row, const unsigned long at[KEY_ARGUMENTS], int32_t id) {
    for (int i = 0; i < KEY_ARGUMENTS; i++)
        if (row->at[i] == KEY_ID && (int32_t)(uint32_t)at[i] == id) return true;
    return false;
}

int key_row_argument(const struct key_row *row, enum key_argument kind) {
    for (int i = 0; i < KEY_ARGUMENTS; i++)
        if (row->at[i] == kind) return i;
    return -1;
}

long key_row_check_payload(const struct key_row *row, const unsigned long at[KEY_ARGUMENTS]) {
    int payload = key_row_argument(row, KEY_PAYLOAD);
    if (payload < 0 || at[payload + 1] == 0) return 0;
    if (at[payload + 1] > (row->most ? row->most : (unsigned long)sysconf(_SC_PAGESIZE))) return fail_as(EINVAL);
    return at[payload] ? 0 : fail_as(EFAULT);
}

bool key_row_only_reads(const struct key_row *row, const unsigned long at[KEY_ARGUMENTS]) {
    return row->effect == KEY_READS || (row->effect == KEY_READS_WITHOUT_RING && (int)at[row->ring] == 0);
}
