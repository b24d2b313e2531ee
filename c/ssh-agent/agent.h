/* agent.h: the parts of keyretain-ssh-agent(1). A process serves one client, by one connection at a time
 * to keyretaind(8). */
#ifndef KEYRETAIN_SSH_AGENT_H
#define KEYRETAIN_SSH_AGENT_H

#include <stdbool.h>
#include <stdint.h>
#include <string.h>

/* ---- Numbers and strings of RFC 4251, section 5 ---- */

enum { BYTE = 1, NUMBER = 4, MESSAGE_MOST = 256 * 1024 }; /* how many bytes each has */

/* Bytes of somebody else's. None, where `at` is NULL. */
struct bytes {
    const unsigned char *at;
    size_t length;
};

/* Bytes that are put at the end. Once there was no room `is_bad` stays true, and nothing more is put. */
struct writer {
    unsigned char *at;
    size_t length, room;
    bool is_bad;
};

static inline struct bytes text(const char *text) { return (struct bytes){ (const void *)text, strlen(text) }; }

static inline bool is_same(struct bytes one, struct bytes other) {
    return one.length == other.length && (!one.length || memcmp(one.at, other.at, one.length) == 0);
}

/* From the front. Once there were too few there are none from then on, and none are taken. */
static inline struct bytes take(struct bytes *from, size_t length) {
    struct bytes taken = { from->at, length };
    if (!from->at || length > from->length) return *from = (struct bytes){ 0 };
    from->at += length;
    from->length -= length;
    return taken;
}

static inline uint32_t take_number(struct bytes *from, size_t size) {
    struct bytes number = take(from, size);
    uint32_t value = 0;
    for (size_t i = 0; i < number.length; i++) value = value << 8 | number.at[i];
    return value;
}

static inline struct bytes take_string(struct bytes *from) { return take(from, take_number(from, NUMBER)); }

static inline void put_bytes(struct writer *writer, struct bytes bytes) {
    if (bytes.length > writer->room - writer->length) writer->is_bad = true;
    if (writer->is_bad || !bytes.length) return;
    memcpy(writer->at + writer->length, bytes.at, bytes.length);
    writer->length += bytes.length;
}

static inline void put_number(struct writer *writer, size_t number, size_t size) {
    unsigned char bytes[NUMBER];
    for (size_t i = size; i-- > 0; number >>= 8) bytes[i] = (unsigned char)number;
    put_bytes(writer, (struct bytes){ bytes, size });
}

static inline void put_string(struct writer *writer, struct bytes bytes) {
    put_number(writer, bytes.length, NUMBER);
    put_bytes(writer, bytes);
}

/* Changes a number of four bytes that was put there before. */
static inline void set_number(struct writer *writer, size_t at, size_t number) {
    struct writer there = { .at = writer->at + at, .room = NUMBER };
    if (!writer->is_bad) put_number(&there, number, NUMBER);
}

/* ---- key.c: private keys, whose parts lie in somebody else's memory. The cryptography is OpenSSL's ---- */

struct key {
    const struct key_type *type;
    struct bytes certificate, parts[6], comment;
    uint32_t lifetime; /* seconds; 0 where it has none */
    bool is_confirmed; /* each use is to be confirmed */
};

/* Takes a key and its comment, as SSH2_AGENTC_ADD_IDENTITY has them. False for what is none of Ed25519, ECDSA and RSA,
 * with or without a certificate. */
bool take_key(struct bytes *from, struct key *key);

/* The public key, or the certificate: by which the agent's clients name it. */
void put_public(struct writer *writer, const struct key *key);

/* The signature of the data, as SSH_AGENT_SIGN_RESPONSE has it. False where it can't be made. */
enum { SHA2_256_WANTED = 2, SHA2_512_WANTED = 4 };
bool put_signature(struct writer *writer, const struct key *key, struct bytes data, uint32_t flags);

/* answer.c: whether a message has a passphrase that is to unlock. */
bool is_guess(struct bytes message);

/* Puts the answer to a message, with its length before it. `lifetime` is for keys added without one. False where it was
 * refused. A list leaves the connection open: who has asked for it signs next. */
bool answer(struct bytes message, uint32_t lifetime, struct writer *reply);

/* Before there are other processes: they then tell one another which keyring they have found. False without memory. */
bool share_ring(void);

/* Takes keys whose time is over out of the daemon's memory. */
void sweep_ring(void);

/* Connects to the daemon, and has its keyring `ssh-agent`: that of the session, or of the user where there is none.
 * Answers what tells of the connection's end; -1 where there is no daemon, or the session is gone. close_ring() wipes
 * what was read, too. */
int open_ring(void);
void close_ring(void);

#endif
