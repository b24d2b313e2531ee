/* fuzz SECONDS: calls at random by many threads of many processes, which end, are killed and execute something else.
 * The supervisor is built with sanitizers, and must be there afterwards. */
#define _GNU_SOURCE
#include <stdint.h>
#include <sys/ioctl.h>
#include <sys/mman.h>
#include <time.h>

#include "calls.h"

enum { PAGE = 4096, AREA = 8 * PAGE, PROCESSES = 4, THREADS = 5, COMMANDS = 36 };

static char *area; /* two pages, two that aren't there, two that can only be read, two */
static time_t end;

static const char *const types[] = { "user", "keyring", "logon", "", ".x", "big_key",
                                     "userxxxxxxxxxxxxxxxxxxxxxxxxxxxxxxxxxx" };

static unsigned pick(unsigned *seed, unsigned below) { return (unsigned)rand_r(seed) % below; }

static unsigned long any(unsigned *seed) {
    unsigned long value = 0;
    for (int i = 0; i < 4; i++) value = value << 16 ^ (unsigned long)rand_r(seed);
    return value;
}

static unsigned long pointer(unsigned *seed) {
    const unsigned long base = (unsigned long)area;
    switch (pick(seed, 9)) {
    case 0: return 0;
    case 1: return any(seed);
    case 2: return base + 2 * PAGE - pick(seed, 40);
    case 3: return base + 4 * PAGE + pick(seed, 2 * PAGE);
    case 4:
    case 5: return (unsigned long)types[pick(seed, sizeof types / sizeof *types)];
    default: return base + pick(seed, 2 * PAGE);
    }
}

static unsigned long length(unsigned *seed) {
    static const unsigned long edges[] = { 0, 1, 4096, 4097, 32767, 32768, 65535, 65537, 70000, 1048575, 1048576 };
    switch (pick(seed, 4)) {
    case 0: return any(seed);
    case 1: return edges[pick(seed, sizeof edges / sizeof *edges)];
    default: return pick(seed, 300);
    }
}

static unsigned long id(unsigned *seed) {
    switch (pick(seed, 4)) {
    case 0: return any(seed);
    case 1: return pick(seed, 60000);
    default: return (unsigned long)-(long)pick(seed, 9);
    }
}

/* What would end the session or the user keyring for all is left for one in eight. */
static int command(unsigned *seed) {
    int command = (int)pick(seed, COMMANDS);
    bool is_end = command == KEYCTL_REVOKE || command == KEYCTL_CLEAR || command == KEYCTL_INVALIDATE;
    return is_end && pick(seed, 8) != 0 ? KEYCTL_READ : command;
}

/* Pipes of notes that may be anywhere in the first numbers. */
static void call_for_notes(unsigned *seed) {
    int end = (int)(3 + pick(seed, 30));
    switch (pick(seed, 8)) {
    case 0: syscall(SYS_pipe2, pointer(seed), O_EXCL | (pick(seed, 4) ? O_NONBLOCK : any(seed))); break;
    case 1: ioctl(end, 0x5760, length(seed)); break;
    case 2: ioctl(end, 0x5761, pointer(seed)); break;
    case 3: recv(end, area, pick(seed, PAGE), MSG_DONTWAIT); break;
    case 4: close(end); break;
    default: keyctl(KEYCTL_WATCH_KEY, id(seed), (unsigned long)end, pick(seed, 300) - 2, 0);
    }
}

static void call(unsigned *seed) {
    area[pick(seed, 2 * PAGE)] = (char)rand_r(seed);
    switch (pick(seed, 12)) {
    case 10:
    case 11: call_for_notes(seed); break;
    case 0:
    case 1:
    case 2: syscall(SYS_add_key, pointer(seed), pointer(seed), pointer(seed), length(seed), id(seed)); break;
    case 3: syscall(SYS_request_key, pointer(seed), pointer(seed), pointer(seed), id(seed)); break;
    default:
        syscall(SYS_keyctl, (unsigned long)command(seed), pick(seed, 3) ? id(seed) : pointer(seed),
                pick(seed, 2) ? pointer(seed) : id(seed), pick(seed, 2) ? length(seed) : pointer(seed),
                pick(seed, 2) ? id(seed) : any(seed));
    }
}

static void *run(void *data) {
    unsigned seed = (unsigned)(uintptr_t)data;
    while (time(NULL) < end) call(&seed);
    return NULL;
}

/* A process that ends in one of three ways while its threads ask. */
static void live(unsigned seed) {
    pthread_t threads[THREADS];
    for (unsigned i = 0; i < THREADS; i++)
        pthread_create(&threads[i], NULL, run, (void *)(uintptr_t)(seed * THREADS + i));
    usleep(100000 + pick(&seed, 400000));
    if (pick(&seed, 3) == 0) _exit(0);
    if (pick(&seed, 2) == 0) execl("/proc/self/exe", "fuzz", "0", (char *)NULL);
    abort();
}

static void fork_often(unsigned seed) {
    while (time(NULL) < end) {
        pid_t child = fork();
        if (child == 0) live(seed);
        seed += PROCESSES;
        waitpid(child, NULL, 0);
    }
    _exit(0);
}

int main(int count, char **words) {
    if (count != 2) return 2;
    int seconds = atoi(words[1]);
    end = time(NULL) + seconds;
    area = mmap(NULL, AREA, PROT_READ | PROT_WRITE, MAP_PRIVATE | MAP_ANONYMOUS, -1, 0);
    if (area == MAP_FAILED || munmap(area + 2 * PAGE, 2 * PAGE) < 0 ||
        mprotect(area + 4 * PAGE, 2 * PAGE, PROT_READ) < 0)
        return 2;
    if (seconds == 0) return 0;
    memset(area, 'a', 2 * PAGE);
    for (unsigned i = 0; i < PROCESSES; i++)
        if (fork() == 0) fork_often((unsigned)getpid() * 7919 + i);
    while (wait(NULL) > 0) continue;
    puts(join(NULL) > 0 && ring_of(KEY_SPEC_SESSION_KEYRING, 0) > 0 ? "served" : strerror(errno));
    return 0;
}
