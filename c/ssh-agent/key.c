/* key.c: see agent.h. */
#include <openssl/bn.h>
#include <openssl/evp.h>
#include <openssl/param_build.h>

#include "agent.h"

enum { SEED = 32, RSA_BITS_LEAST = 1024, PART_MOST = 2048, IS_LONG = 0x80 };
enum { PUBLIC = 0, PRIVATE = 1, CURVE = 0, POINT = 1, SCALAR = 2 };
enum { N, E, D, IQMP, P, Q, D_OF_P, D_OF_Q, RSA_PARTS };

/* `plain` is NULL where it is no certificate's. Digits name parts: as a public key has them, and as they are added. */
struct key_type {
    const char *name, *plain, *in_public, *added, *algorithm, *curve, *group, *hash;
};

#define PLAIN_AND_CERTIFICATE(name, in_public, added, behind_certificate, ...)                                         \
    { name, NULL, in_public, added, __VA_ARGS__ },                                                                     \
    { name "-cert-v01@openssh.com", name, in_public, behind_certificate, __VA_ARGS__ }

static const struct key_type types[] = {
    PLAIN_AND_CERTIFICATE("ssh-ed25519", "0", "01", "01", NULL, NULL, NULL, NULL),
    PLAIN_AND_CERTIFICATE("ssh-rsa", "10", "012345", "2345", "RSA", NULL, NULL, NULL),
    PLAIN_AND_CERTIFICATE("ecdsa-sha2-nistp256", "01", "012", "2", "EC", "nistp256", "P-256", "SHA256"),
    PLAIN_AND_CERTIFICATE("ecdsa-sha2-nistp384", "01", "012", "2", "EC", "nistp384", "P-384", "SHA384"),
    PLAIN_AND_CERTIFICATE("ecdsa-sha2-nistp521", "01", "012", "2", "EC", "nistp521", "P-521", "SHA512"),
};

static void take_parts(struct bytes *from, struct key *key, const char *order) {
    for (; *order; order++) key->parts[*order - '0'] = take_string(from);
}

bool take_key(struct bytes *from, struct key *key) {
    struct bytes name = take_string(from);
    const struct key_type *type = types, *end = types + sizeof types / sizeof *types;
    while (type < end && !is_same(name, text(type->name))) type++;
    *key = (struct key){ .type = type };
    if (type == end) return false;
    if (type->plain) {
        struct bytes inner = key->certificate = take_string(from);
        if (!is_same(take_string(&inner), name)) return false;
        take_string(&inner); /* the nonce */
        take_parts(&inner, key, type->in_public);
        if (!inner.at) return false;
    }
    take_parts(from, key, type->added);
    key->comment = take_string(from);
    if (type->curve && !is_same(key->parts[CURVE], text(type->curve))) return false;
    if (!type->algorithm && (key->parts[PUBLIC].length != SEED || key->parts[PRIVATE].length != 2 * SEED)) return false;
    return from->at;
}

void put_public(struct writer *writer, const struct key *key) {
    put_bytes(writer, key->certificate);
    if (key->certificate.length) return;
    put_string(writer, text(key->type->name));
    for (const char *part = key->type->in_public; *part; part++) put_string(writer, key->parts[*part - '0']);
}

/* ---- OpenSSL's keys: numbers are those of a BN_CTX, which wipes them ---- */

/* NULL for a number that is negative, zero or too long. */
static BIGNUM *number_of(BN_CTX *numbers, struct bytes bytes) {
    bool is_good = bytes.length && bytes.length <= PART_MOST && !(*bytes.at & IS_LONG);
    BIGNUM *number = is_good ? BN_CTX_get(numbers) : NULL;
    return number && BN_bin2bn(bytes.at, (int)bytes.length, number) && !BN_is_zero(number) ? number : NULL;
}

static bool give_rsa(OSSL_PARAM_BLD *given, BN_CTX *numbers, const struct key *key) {
    static const char *const names[] = { "n", "e", "d", "rsa-coefficient1", "rsa-factor1", "rsa-factor2",
                                         "rsa-exponent1", "rsa-exponent2" };
    BIGNUM *parts[RSA_PARTS], *less = BN_CTX_get(numbers);
    for (int part = N; part <= Q; part++)
        if (!(parts[part] = number_of(numbers, key->parts[part]))) return false;
    BN_set_flags(parts[D], BN_FLG_CONSTTIME);
    for (int part = D_OF_P, prime = P; prime <= Q; part++, prime++) { /* d modulo the prime less one */
        parts[part] = BN_CTX_get(numbers);
        if (!parts[part] || !BN_sub(less, parts[prime], BN_value_one())) return false;
        if (!BN_mod(parts[part], parts[D], less, numbers)) return false;
    }
    for (int part = N; part < RSA_PARTS; part++)
        if (!OSSL_PARAM_BLD_push_BN(given, names[part], parts[part])) return false;
    return BN_num_bits(parts[N]) >= RSA_BITS_LEAST;
}

static bool give_curve(OSSL_PARAM_BLD *given, BN_CTX *numbers, const struct key *key) {
    struct bytes point = key->parts[POINT];
    BIGNUM *scalar = number_of(numbers, key->parts[SCALAR]);
    return scalar && OSSL_PARAM_BLD_push_utf8_string(given, "group", key->type->group, 0)
           && OSSL_PARAM_BLD_push_octet_string(given, "pub", point.at, point.length)
           && OSSL_PARAM_BLD_push_BN(given, "priv", scalar);
}

static EVP_PKEY *make(const struct key *key) {
    if (!key->type->algorithm)
        return EVP_PKEY_new_raw_private_key(EVP_PKEY_ED25519, NULL, key->parts[PRIVATE].at, SEED);
    EVP_PKEY_CTX *context = EVP_PKEY_CTX_new_from_name(NULL, key->type->algorithm, NULL);
    OSSL_PARAM_BLD *given = OSSL_PARAM_BLD_new();
    BN_CTX *numbers = BN_CTX_secure_new();
    OSSL_PARAM *parameters = NULL;
    EVP_PKEY *made = NULL;
    if (numbers) BN_CTX_start(numbers);
    if (context && given && numbers && (key->type->group ? give_curve : give_rsa)(given, numbers, key))
        parameters = OSSL_PARAM_BLD_to_param(given);
    if (parameters && EVP_PKEY_fromdata_init(context) > 0)
        EVP_PKEY_fromdata(context, &made, EVP_PKEY_KEYPAIR, parameters);
    if (numbers) BN_CTX_end(numbers);
    OSSL_PARAM_free(parameters);
    BN_CTX_free(numbers);
    OSSL_PARAM_BLD_free(given);
    EVP_PKEY_CTX_free(context);
    return made;
}

/* Two numbers (RFC 5656, section 3.1.2), where OpenSSL has DER: an INTEGER's bytes are those of a number of SSH. */
static void put_halves(struct writer *writer, struct bytes der) {
    size_t begin = writer->length;
    put_number(writer, 0, NUMBER);
    take(&der, der.at[BYTE] & IS_LONG ? 3 * BYTE : 2 * BYTE); /* that it is a SEQUENCE, and how long */
    for (int half = 0; half < 2 && take_number(&der, BYTE); half++)
        put_string(writer, take(&der, take_number(&der, BYTE)));
    set_number(writer, begin, writer->length - begin - NUMBER);
}

/* Who doesn't want SHA-2 has RSA with SHA-1 (RFC 8332). */
bool put_signature(struct writer *writer, const struct key *key, struct bytes data, uint32_t flags) {
    const char *hash = key->type->hash, *name = key->type->plain ? key->type->plain : key->type->name;
    unsigned char signature[PART_MOST];
    size_t length = sizeof signature, begin = writer->length;
    if (key->type->algorithm && !hash) {
        hash = flags & SHA2_512_WANTED ? "SHA512" : flags & SHA2_256_WANTED ? "SHA256" : "SHA1";
        name = flags & SHA2_512_WANTED ? "rsa-sha2-512" : flags & SHA2_256_WANTED ? "rsa-sha2-256" : name;
    }
    EVP_PKEY *made = make(key);
    EVP_MD_CTX *context = EVP_MD_CTX_new();
    bool is_signed = made && context && EVP_DigestSignInit_ex(context, NULL, hash, NULL, NULL, made, NULL) > 0
                     && EVP_DigestSign(context, signature, &length, data.at, data.length) > 0;
    EVP_MD_CTX_free(context);
    EVP_PKEY_free(made);
    if (!is_signed) return false;
    put_number(writer, 0, NUMBER);
    put_string(writer, text(name));
    if (key->type->group) put_halves(writer, (struct bytes){ signature, length });
    else put_string(writer, (struct bytes){ signature, length });
    set_number(writer, begin, writer->length - begin - NUMBER);
    return true;
}
