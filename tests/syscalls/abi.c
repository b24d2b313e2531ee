/* abi: the calls by the other ways into the kernel that a program of x86-64 has: int 0x80, whose numbers and pointers
 * are those of 32 bits, and the numbers of x32. And that their neighbours are the kernel's still. */
#define _GNU_SOURCE
#include <sys/mman.h>

#include "calls.h"

enum { ADD_KEY_32 = 286, REQUEST_KEY_32, KEYCTL_32, IOPRIO_SET_32 };

static long call_32(long number, long one, long two, long three, long four, long five) {
    long answer;
    __asm__ volatile("int $0x80"
                     : "=a"(answer)
                     : "a"(number), "b"(one), "c"(two), "d"(three), "S"(four), "D"(five)
                     : "memory", "r8", "r9", "r10", "r11");
    return answer;
}

/* What is told of a call that is made with nothing that it takes. */
static const char *refusal(long number) {
    _Static_assert(SYS_waitid == SYS_add_key - 1 && SYS_ioprio_set == SYS_keyctl + 1, "the numbers beside the three");
    return syscall(number, -1L, 0L, 0L, 0L, 0L) >= 0 ? "done" : errno == EINVAL ? "EINVAL" : "another error";
}

int main(void) {
    char *low = mmap(NULL, 4096, PROT_READ | PROT_WRITE, MAP_PRIVATE | MAP_ANONYMOUS | MAP_32BIT, -1, 0);
    if (low == MAP_FAILED) return 2;
    char *type = strcpy(low, "user"), *description = strcpy(low + 16, "i386"), *payload = strcpy(low + 32, "pay");
    char *buffer = low + 64;
    const long high = 1L << 40; /* of which the kernel sees the low 32 bits there */
    long key = call_32(ADD_KEY_32, high + (long)type, (long)description, (long)payload, 3, KEY_SPEC_SESSION_KEYRING);
    long length = call_32(KEYCTL_32, KEYCTL_READ, key, high + (long)buffer, 100, 0);
    printf("int 0x80: added %d, read %ld %s\n", key > 0, length, buffer);
    printf("int 0x80: requested %d\n", call_32(REQUEST_KEY_32, (long)type, (long)description, 0, 0, 0) == key);
    printf("int 0x80: an address that isn't there %ld\n", call_32(KEYCTL_32, KEYCTL_READ, key, 16, 100, 0));
    printf("by 64 bits: %d\n", request_key("user", "i386", NULL, 0) == key);
    printf("int 0x80: the number behind them %ld\n", call_32(IOPRIO_SET_32, -1, 0, 0, 0, 0));
    printf("the numbers beside them: %s, %s\n", refusal(SYS_waitid), refusal(SYS_ioprio_set));
    long ring = syscall(0x40000000 | SYS_keyctl, (long)KEYCTL_GET_KEYRING_ID, (long)KEY_SPEC_SESSION_KEYRING, 0L);
    printf("x32: %s\n", ring == ring_of(KEY_SPEC_SESSION_KEYRING, 0) ? "served" : "not served");
    return 0;
}
