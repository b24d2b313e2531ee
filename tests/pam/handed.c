/* handed: what a libkeyutils that asks the kernel hands to keyctl(2), of calls whose parameters are in memory. It has a
 * syscall(2) of its own, which the library finds: so no kernel with such keys is wanted. */
#define _GNU_SOURCE
#include <linux/keyctl.h>
#include <stdarg.h>
#include <sys/syscall.h>

#include "check.h"
#include "keyutils/keyutils.h"

enum { WORDS = 5, PAGE = 4096, DERIVED = 4, LENGTH = 7 };

/* The last call: its words, and what stands where the first behind the command points to. */
static struct {
    long number, words[WORDS];
    struct keyctl_dh_params numbers;
    struct keyctl_pkey_params both;
    struct keyctl_kdf_params derived;
} last;

static void copy(void *to, long from, size_t length) {
    if (from >= PAGE) memcpy(to, (const void *)from, length);
}

/* Answers the length that a key is to have, and puts so much where there is room. */
long syscall(long number, ...) {
    va_list list;
    memset(&last, 0, sizeof last);
    last.number = number;
    va_start(list, number);
    for (int i = 0; i < WORDS; i++) last.words[i] = va_arg(list, long);
    va_end(list);
    if (last.words[0] != KEYCTL_DH_COMPUTE) {
        copy(&last.both, last.words[1], sizeof last.both);
        return 0;
    }
    copy(&last.numbers, last.words[1], sizeof last.numbers);
    copy(&last.derived, last.words[DERIVED], sizeof last.derived);
    if (last.words[2] && last.words[3] >= LENGTH) memcpy((void *)last.words[2], "a key..", LENGTH);
    return LENGTH;
}

static int is_call(int command, const void *second, const void *third, const void *fourth) {
    const long wanted[] = { (long)second, (long)third, (long)fourth };
    return last.number == SYS_keyctl && last.words[0] == command && memcmp(last.words + 2, wanted, sizeof wanted) == 0;
}

static int has_both(int key, unsigned in, unsigned out) {
    return last.both.key_id == key && last.both.in_len == in && last.both.out_len == out;
}

static int has_numbers(void) { return last.numbers.priv == 3 && last.numbers.prime == 4 && last.numbers.base == 5; }

static void try_two(void) {
    char out[9];
    keyctl_pkey_encrypt(3, "enc=raw", "in", 2, out, sizeof out);
    check("keyctl_pkey_encrypt", is_call(KEYCTL_PKEY_ENCRYPT, "enc=raw", "in", out) && has_both(3, 2, sizeof out));
    keyctl_pkey_decrypt(3, "enc=raw", "in", 2, out, sizeof out);
    check("keyctl_pkey_decrypt", is_call(KEYCTL_PKEY_DECRYPT, "enc=raw", "in", out) && has_both(3, 2, sizeof out));
    keyctl_pkey_sign(3, "enc=raw", "in", 2, out, sizeof out);
    check("keyctl_pkey_sign", is_call(KEYCTL_PKEY_SIGN, "enc=raw", "in", out) && has_both(3, 2, sizeof out));
    keyctl_pkey_verify(3, "enc=raw", "in", 2, out, sizeof out);
    check("keyctl_pkey_verify", is_call(KEYCTL_PKEY_VERIFY, "enc=raw", "in", out) && has_both(3, 2, sizeof out));
}

static void try_numbers(void) {
    char out[9], hash[] = "sha256", info[] = "in";
    void *made = NULL;
    check("keyctl_dh_compute's length", keyctl_dh_compute(3, 4, 5, out, sizeof out) == LENGTH && has_numbers());
    check("keyctl_dh_compute", is_call(KEYCTL_DH_COMPUTE, out, (void *)sizeof out, NULL));
    keyctl_dh_compute_kdf(3, 4, 5, hash, info, 2, out, sizeof out);
    check("keyctl_dh_compute_kdf", last.words[2] == (long)out && last.words[3] == sizeof out && has_numbers());
    check("what it derives by", last.derived.hashname == hash && last.derived.otherinfo == info &&
                                    last.derived.otherinfolen == 2);
    check("keyctl_dh_compute_alloc", keyctl_dh_compute_alloc(3, 4, 5, &made) == LENGTH && made && has_numbers() &&
                                         memcmp(made, "a key..", LENGTH + 1) == 0);
    free(made);
}

int main(void) {
    unsetenv("KEYRETAIN_SESSION");
    try_two();
    try_numbers();
    return conclude("handed");
}
