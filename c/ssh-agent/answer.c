/* answer.c: see agent.h. Numbers and names are those of draft-ietf-sshm-ssh-agent. */
#include <openssl/evp.h>
#include <openssl/rand.h>
#include <stdatomic.h>
#include <sys/mman.h>

#include "agent.h"
#include "library/session.h"

enum { FAILURE = 5, SUCCESS, REQUEST_IDENTITIES = 11, IDENTITIES_ANSWER, SIGN_REQUEST, SIGN_RESPONSE, ADD_IDENTITY = 17,
       REMOVE_IDENTITY, REMOVE_ALL_IDENTITIES, LOCK = 22, UNLOCK, ADD_ID_CONSTRAINED = 25 };
enum { CONSTRAIN_LIFETIME = 1, CONSTRAIN_CONFIRM = 2 };
enum { PATIENCE_MILLISECONDS = 10000, PAYLOAD_MOST = 32767, ENTRIES_MOST = 1024, NAME_ROOM = 80, COMMENT_MOST = 200,
       LINKS_MOST = 65535, QUESTION_ROOM = 512, ANSWER_ROOM = 16, SALT_SIZE = 16, HASH_SIZE = 32, ROUNDS = 100000 };

static const char ring_name[] = "ssh-agent", lock_name[] = "ssh-agent lock";

/* What the process has of the daemon. The keyring's serial is none where there is no keyring yet. */
static struct kr *connection;
static uint32_t context;
static int32_t head, keyring;
static unsigned char payload[PAYLOAD_MOST], made_lock[SALT_SIZE + HASH_SIZE]; /* the second is a lock */
static int32_t entries[LINKS_MOST];
static _Atomic uint64_t *known; /* by all processes: the keyring as it was found last, and behind it the daemon */

bool share_ring(void) {
    known = mmap(NULL, sizeof *known, PROT_READ | PROT_WRITE, MAP_SHARED | MAP_ANONYMOUS, -1, 0);
    return known != MAP_FAILED;
}

/* The keyring and the daemon, as they are known. */
static uint64_t knowledge(int32_t ring) {
    int32_t process;
    kr_peer(connection, NULL, NULL, &process);
    return (uint64_t)ring << 32 | (uint32_t)process;
}

/* How many links a keyring has, and which; -1 with errno. */
static int64_t read_ring(int32_t ring) {
    int64_t length = kr_read(connection, context, ring, entries, sizeof entries);
    return length < 0 || length > (int64_t)sizeof entries ? -1 : length / (int64_t)sizeof *entries;
}

/* 0 where its user has none there, and -1 where the daemon doesn't tell. Who possesses another user's would possess
 * private keys. One that isn't linked there itself is the user keyring's, which sessions link. */
static int32_t find_ring(void) {
    int32_t found = kr_find_own(connection, context, head, "keyring", ring_name);
    int64_t all = found < 0 ? -1 : read_ring(head);
    for (int64_t i = 0; i < all; i++)
        if (entries[i] == found) return found;
    return all >= 0 || kr_found_none() ? 0 : -1;
}

static bool open_context(void) {
    struct kr_identity identity;
    close_ring();
    kr_own_identity(&identity);
    connection = kr_open_with(NULL, 0, PATIENCE_MILLISECONDS);
    int64_t made = connection ? kr_hello_as(connection, &identity) : -1;
    context = (uint32_t)made;
    return made >= 0;
}

/* As open_ring(), by few asks: the keyring that an earlier message's process has found. As long as that daemon runs no
 * other key has its serial, and no other session's keyring that of the session. */
static bool open_known_ring(void) {
    struct kr_session session;
    const char *text = getenv(KR_SESSION_VARIABLE);
    uint64_t last = atomic_load(known);
    keyring = (int32_t)(last >> 32);
    if (keyring <= 0 || !open_context() || knowledge(keyring) != last) return false;
    if (!text || !kr_parse_session(&session, text)) return true;
    return session.serial > 0 && kr_join(connection, context, session.name) == session.serial;
}

int open_ring(void) {
    int entered = open_context() ? kr_enter_session(connection, context, NULL) : -1;
    head = entered > 0 ? KEY_SPEC_SESSION_KEYRING : KEY_SPEC_USER_KEYRING;
    if (entered < 0 || (keyring = find_ring()) < 0) return -1; /* or the daemon doesn't tell */
    atomic_store(known, knowledge(keyring));
    return kr_descriptor(connection);
}

/* What was read stays. */
static void close_connection(void) {
    if (connection) kr_close(connection);
    connection = NULL;
}

static void wipe(void) {
    OPENSSL_cleanse(payload, sizeof payload);
    OPENSSL_cleanse(made_lock, sizeof made_lock);
}

void close_ring(void) {
    wipe();
    close_connection();
}

/* Another client may make one at the same time, in which its key is: that is taken then, and displaced by none. */
static bool have_ring(void) {
    if (keyring > 0) return true;
    int32_t made = kr_add(connection, context, "keyring", ring_name, NULL, 0, KEY_SPEC_PROCESS_KEYRING);
    if (made < 0) return false;
    bool is_first = kr_move(connection, context, made, KEY_SPEC_PROCESS_KEYRING, head, KEYCTL_MOVE_EXCL) == 0;
    if (!is_first && errno != EEXIST) return false;
    keyring = is_first ? made : find_ring();
    if (keyring == 0 && kr_link(connection, context, made, head) == 0) keyring = made; /* another user's was there */
    if (keyring > 0) atomic_store(known, knowledge(keyring));
    return keyring > 0;
}

/* In the place of an entry of this name; for so many seconds, or for 0 as long as the ring. The ring has it once it has
 * its timeout; till then it is this connection's alone. */
static bool put_entry(const char *name, struct bytes bytes, uint32_t seconds) {
    int32_t entry = kr_add(connection, context, "user", name, bytes.at, bytes.length, KEY_SPEC_PROCESS_KEYRING);
    return have_ring() && entry > 0 && kr_set_timeout(connection, context, entry, seconds) == 0
           && kr_link(connection, context, entry, keyring) == 0;
}

/* -1 with errno where there is none: ENOKEY, or EKEYREVOKED and so on. */
static int32_t find_entry(const char *name) {
    errno = ENOKEY;
    return keyring > 0 ? kr_search(connection, context, keyring, "user", name, 0) : -1;
}

/* The payload, until another one is read; empty where there is none. */
static struct bytes read_entry(int32_t entry) {
    int64_t length = entry > 0 ? kr_read(connection, context, entry, payload, sizeof payload) : 0;
    return (struct bytes){ payload, length > 0 && length <= PAYLOAD_MOST ? (size_t)length : 0 };
}

static bool drop_entry(int32_t entry) { return entry > 0 && kr_invalidate(connection, context, entry) == 0; }

/* A lock that can't be read locks, too. */
static bool is_locked(void) { return find_entry(lock_name) > 0 || errno != ENOKEY; }

/* Takes out those whose time is over, which the daemon would keep in memory. How many are left. */
static int64_t sweep(void) {
    int64_t all = keyring > 0 ? read_ring(keyring) : 0, left = all;
    for (int64_t i = 0; i < all; i++)
        if (kr_read(connection, context, entries[i], NULL, 0) < 0 && errno == EKEYEXPIRED)
            left -= kr_unlink(connection, context, entries[i], keyring) == 0;
    return left;
}

void sweep_ring(void) {
    if (open_ring() >= 0 && !is_locked()) sweep();
    close_ring();
}

/* ---- Keys: an entry is the message that has added it ---- */

/* Its name, until the next one is asked for: the sum is as ssh-add(1) shows it. */
static const char *name_of(struct bytes public_key) {
    static char name[NAME_ROOM];
    unsigned char digest[HASH_SIZE] = { 0 };
    int length = snprintf(name, sizeof name, "%s SHA256:", ring_name);
    EVP_Q_digest(NULL, "SHA256", NULL, public_key.at, public_key.length, digest, NULL);
    length += EVP_EncodeBlock((unsigned char *)name + length, digest, HASH_SIZE);
    name[length - 1] = '\0'; /* in the place of what fills base64 up */
    return name;
}

/* False for what isn't known here: a key is not kept with less than was asked for. */
static bool read_added(struct bytes message, struct key *key) {
    bool is_constrained = take_number(&message, BYTE) == ADD_ID_CONSTRAINED;
    if (!take_key(&message, key)) return false;
    while (is_constrained && message.length) {
        uint32_t constraint = take_number(&message, BYTE);
        if (constraint == CONSTRAIN_CONFIRM) key->is_confirmed = true;
        else if (constraint != CONSTRAIN_LIFETIME || !(key->lifetime = take_number(&message, NUMBER))) return false;
    }
    return message.at && !message.length;
}

static struct bytes shown(struct bytes comment) {
    return take(&comment, comment.length < COMMENT_MOST ? comment.length : COMMENT_MOST);
}

/* As many as there is room for, so that nobody's keys hide all. */
static void put_identities(struct writer *reply) {
    int64_t all = keyring > 0 && !is_locked() ? read_ring(keyring) : 0;
    size_t count = 0, counted = reply->length + BYTE;
    reply->is_bad |= all < 0;
    struct key key;
    put_number(reply, IDENTITIES_ANSWER, BYTE);
    put_number(reply, 0, NUMBER);
    for (int64_t i = 0; i < all; i++) {
        if (!read_added(read_entry(entries[i]), &key)) continue;
        size_t begin = reply->length;
        put_number(reply, 0, NUMBER);
        put_public(reply, &key);
        set_number(reply, begin, reply->length - begin - NUMBER);
        put_string(reply, shown(key.comment));
        if (reply->is_bad) {
            *reply = (struct writer){ .at = reply->at, .length = begin, .room = reply->room };
            break;
        }
        count++;
    }
    set_number(reply, counted, count);
}

static bool find_key(struct bytes public_key, struct key *key) {
    return read_added(read_entry(find_entry(name_of(public_key))), key);
}

/* First by what a list has left open. */
static bool find_unlocked(struct bytes public_key, struct key *key) {
    return ((connection || open_known_ring()) && !is_locked() && find_key(public_key, key)) ||
           (open_ring() >= 0 && !is_locked() && find_key(public_key, key));
}

/* Whether the program of SSH_ASKPASS says yes, or nothing. Meanwhile neither a key nor a connection is held. */
static bool is_allowed(struct bytes public_key, struct bytes comment) {
    char question[QUESTION_ROOM], said[ANSWER_ROOM] = "";
    comment = shown(comment);
    snprintf(question, sizeof question, "Allow use of key %.*s?\n%s", (int)comment.length, comment.at,
             name_of(public_key));
    close_ring();
    setenv("SSH_ASKPASS_PROMPT", "confirm", 1);
    setenv("KEYRETAIN_QUESTION", question, 1);
    FILE *program = popen("exec \"${SSH_ASKPASS:-ssh-askpass}\" \"$KEYRETAIN_QUESTION\"", "re");
    if (program && !fgets(said, sizeof said, program)) *said = '\0';
    said[strcspn(said, "\r\n")] = '\0';
    bool is_yes = program && pclose(program) == 0 && (!*said || strcasecmp(said, "yes") == 0);
    return is_yes && open_ring() >= 0 && !is_locked();
}

static bool sign(struct bytes asked, struct writer *reply) {
    struct bytes public_key = take_string(&asked), data = take_string(&asked);
    uint32_t flags = take_number(&asked, NUMBER);
    struct key key;
    if (!asked.at || !find_unlocked(public_key, &key)) return false;
    if (key.is_confirmed && !(is_allowed(public_key, key.comment) && find_key(public_key, &key))) return false;
    close_connection(); /* a heavy key holds up nobody but who uses it */
    put_number(reply, SIGN_RESPONSE, BYTE);
    return put_signature(reply, &key, data, flags);
}

/* A key that can't sign isn't kept. What is put into the reply to see that is taken out again. */
static bool add(struct bytes message, uint32_t lifetime, struct writer *reply) {
    size_t begin = reply->length;
    struct key key;
    close_connection();
    if (!read_added(message, &key) || !put_signature(reply, &key, key.comment, SHA2_512_WANTED)) return false;
    if (open_ring() < 0 || is_locked()) return false;
    reply->length = begin;
    put_public(reply, &key);
    struct bytes public_key = { reply->at + begin, reply->length - begin };
    reply->length = begin;
    bool has_room = sweep() < ENTRIES_MOST || find_entry(name_of(public_key)) > 0;
    return has_room && !reply->is_bad &&
           put_entry(name_of(public_key), message, key.lifetime ? key.lifetime : lifetime);
}

/* Locks, or unlocks by the same passphrase. The lock is a salt, and the passphrase's hash. */
static bool turn_lock(bool unlocks, struct bytes passphrase) {
    struct bytes lock = { made_lock, sizeof made_lock }, kept = unlocks ? read_entry(find_entry(lock_name)) : lock;
    if (!passphrase.at || kept.length != lock.length) return false;
    if (unlocks) memcpy(made_lock, kept.at, SALT_SIZE);
    else if (RAND_bytes(made_lock, SALT_SIZE) != 1) return false;
    if (PKCS5_PBKDF2_HMAC((const char *)passphrase.at, (int)passphrase.length, made_lock, SALT_SIZE, ROUNDS,
                          EVP_sha256(), HASH_SIZE, made_lock + SALT_SIZE) != 1)
        return false;
    if (!unlocks) return put_entry(lock_name, lock, 0);
    return CRYPTO_memcmp(kept.at, made_lock, sizeof made_lock) == 0 && drop_entry(find_entry(lock_name));
}

/* Whether the message is carried out; what it answers beyond that is in the reply. */
static bool carry_out(struct bytes message, uint32_t lifetime, struct writer *reply) {
    struct bytes asked = message;
    uint32_t kind = take_number(&asked, BYTE);
    if (kind == SIGN_REQUEST) return sign(asked, reply);
    if (open_ring() < 0) return false;
    if (kind == UNLOCK) return turn_lock(true, take_string(&asked));
    if (kind == REQUEST_IDENTITIES) return put_identities(reply), true;
    if (is_locked()) return false;
    if (kind == ADD_IDENTITY || kind == ADD_ID_CONSTRAINED) return add(message, lifetime, reply);
    if (kind == REMOVE_IDENTITY) return drop_entry(find_entry(name_of(take_string(&asked))));
    if (kind == REMOVE_ALL_IDENTITIES) return keyring <= 0 || kr_clear(connection, context, keyring) == 0;
    return kind == LOCK && turn_lock(false, take_string(&asked));
}

bool is_guess(struct bytes message) { return take_number(&message, BYTE) == UNLOCK; }

bool answer(struct bytes message, uint32_t lifetime, struct writer *reply) {
    put_number(reply, 0, NUMBER);
    bool is_done = carry_out(message, lifetime, reply) && !reply->is_bad;
    if (is_done && *message.at == REQUEST_IDENTITIES) wipe();
    else close_ring();
    if (!is_done) *reply = (struct writer){ .at = reply->at, .length = NUMBER, .room = reply->room };
    if (reply->length == NUMBER) put_number(reply, is_done ? SUCCESS : FAILURE, BYTE);
    set_number(reply, 0, reply->length - NUMBER);
    return is_done;
}
