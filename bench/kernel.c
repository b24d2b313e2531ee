/* kernel: nanoseconds of the kernel's own key asks, by the rounds of `krs_bench growth` that it has too: one ask or two
 * that belong together, in a new session keyring that links ten keys. A line for each: its word, and the median of ten
 * runs of a thousand rounds. A row that the kernel refuses is printed as -. It leaves nothing behind but keys that the
 * kernel collects. */
#define _GNU_SOURCE
#include <linux/keyctl.h>
#include <stdbool.h>
#include <stdio.h>
#include <stdlib.h>
#include <string.h>
#include <sys/syscall.h>
#include <time.h>
#include <unistd.h>

enum { LINKS = 10, RUNS = 10, ROUNDS = 1000, PAYLOAD = 32 };

static const char payload[PAYLOAD];
static long key, spare, small;
static char name[32];

static long control(int operation, long first, long second, long third, long fourth) {
    return syscall(SYS_keyctl, operation, first, second, third, fourth);
}

static long add(const char *type, const char *description, long ring) {
    bool has_payload = strcmp(type, "keyring") != 0;
    return syscall(SYS_add_key, type, description, has_payload ? payload : NULL, has_payload ? sizeof payload : 0,
                   ring);
}

/* A description that no key has. */
static const char *new_name(void) {
    static unsigned count;
    snprintf(name, sizeof name, "new %u", count++);
    return name;
}

static long read_key(void) {
    char room[PAYLOAD];
    return control(KEYCTL_READ, key, (long)room, sizeof room, 0);
}

static long list_ring(void) {
    int room[2 * LINKS + 16];
    return control(KEYCTL_READ, KEY_SPEC_SESSION_KEYRING, (long)room, sizeof room, 0);
}

static long describe(void) {
    char room[128];
    return control(KEYCTL_DESCRIBE, key, (long)room, sizeof room, 0);
}

static long identify(void) { return control(KEYCTL_GET_KEYRING_ID, key, 0, 0, 0); }
static long update(void) { return control(KEYCTL_UPDATE, key, (long)payload, sizeof payload, 0); }
static long change_owner(void) { return control(KEYCTL_CHOWN, key, -1, -1, 0); }
static long set_mask(void) { return control(KEYCTL_SETPERM, key, 0x3f010000, 0, 0); }
static long set_timeout(void) { return control(KEYCTL_SET_TIMEOUT, key, 3600, 0, 0); }
static long match(void) { return add("user", "key 5", KEY_SPEC_SESSION_KEYRING); }
static long search(void) { return control(KEYCTL_SEARCH, KEY_SPEC_SESSION_KEYRING, (long)"user", (long)"key 5", 0); }
static long request(void) { return syscall(SYS_request_key, "user", "key 5", NULL, 0); }

static long add_and_unlink(void) {
    long made = add("user", new_name(), KEY_SPEC_SESSION_KEYRING);
    return made < 0 ? made : control(KEYCTL_UNLINK, made, KEY_SPEC_SESSION_KEYRING, 0, 0);
}

static long link_and_unlink(void) {
    long refused = control(KEYCTL_LINK, spare, KEY_SPEC_SESSION_KEYRING, 0, 0);
    return refused < 0 ? refused : control(KEYCTL_UNLINK, spare, KEY_SPEC_SESSION_KEYRING, 0, 0);
}

static long move(void) {
    long refused = control(KEYCTL_MOVE, key, KEY_SPEC_SESSION_KEYRING, small, 0);
    return refused < 0 ? refused : control(KEYCTL_MOVE, key, small, KEY_SPEC_SESSION_KEYRING, 0);
}

static long clear_new(void) {
    long made = add("user", new_name(), small);
    return made < 0 ? made : control(KEYCTL_CLEAR, small, 0, 0, 0);
}

static long revoke_new(void) {
    long made = add("user", new_name(), small);
    return made < 0 ? made : control(KEYCTL_REVOKE, made, 0, 0, 0);
}

static long invalidate_new(void) {
    long made = add("user", new_name(), small);
    return made < 0 ? made : control(KEYCTL_INVALIDATE, made, 0, 0, 0);
}

static const struct row {
    const char *word;
    long (*round)(void);
} rows[] = {
    {"read", read_key},       {"list", list_ring},         {"describe", describe}, {"id", identify},
    {"update", update},       {"chown", change_owner},     {"setperm", set_mask},  {"timeout", set_timeout},
    {"match", match},         {"add", add_and_unlink},     {"search", search},     {"request", request},
    {"link", link_and_unlink}, {"move", move},             {"clear", clear_new},       {"revoke", revoke_new},
    {"invalidate", invalidate_new},
};

static double now(void) {
    struct timespec at;
    clock_gettime(CLOCK_MONOTONIC, &at);
    return (double)at.tv_sec * 1e9 + (double)at.tv_nsec;
}

static int compare(const void *a, const void *b) {
    double one = *(const double *)a, other = *(const double *)b;
    return (one > other) - (one < other);
}

static void time_row(const struct row *row) {
    double took[RUNS];
    for (int run = 0; run < RUNS; run++) {
        double start = now();
        for (int round = 0; round < ROUNDS; round++)
            if (row->round() < 0) {
                printf("%-10s         -\n", row->word);
                return;
            }
        took[run] = (now() - start) / ROUNDS;
        /* what is revoked or invalidated stays linked until the collector has been there */
        control(KEYCTL_CLEAR, small, 0, 0, 0);
    }
    qsort(took, RUNS, sizeof *took, compare);
    printf("%-10s%10.0f\n", row->word, took[RUNS / 2]);
}

int main(void) {
    if (control(KEYCTL_JOIN_SESSION_KEYRING, 0, 0, 0, 0) < 0) {
        perror("kernel: there are no kernel keyrings here");
        return 1;
    }
    for (int i = 0; i < LINKS; i++) {
        char description[32];
        snprintf(description, sizeof description, "key %d", i);
        long made = add("user", description, KEY_SPEC_SESSION_KEYRING);
        if (i == LINKS / 2) key = made;
    }
    small = add("keyring", "small", KEY_SPEC_PROCESS_KEYRING);
    spare = add("user", "spare", KEY_SPEC_PROCESS_KEYRING);
    for (size_t i = 0; i < sizeof rows / sizeof *rows; i++) time_row(&rows[i]);
    return 0;
}
