/* tree MODE [N]: many processes and threads that ask, in one line. Each part has modes of its own. */
#define _GNU_SOURCE
#include "tree.h"

int main(int count, char **words) {
    int (*const parts[])(const char *, int, int, char **) = {
        many_modes, ends_modes, keys_modes, users_modes, logins_modes
    };
    static const char *const of_any_number[] = { "serial", "putting", "owner", "often", "read", "others", "gives" };
    const char *mode = count > 1 ? words[1] : "";
    int many = count > 2 ? atoi(words[2]) : 0, status = -1;
    bool is_any = many <= MOST;
    for (size_t i = 0; i < sizeof of_any_number / sizeof *of_any_number; i++)
        if (strcmp(mode, of_any_number[i]) == 0) is_any = true;
    if (!is_any) return 2;
    if (strcmp(mode, "sleep") == 0) return count > 2 && ring_of(KEY_SPEC_PROCESS_KEYRING, 1) < 0 ? 2 : pause();
    if (strcmp(mode, "session") == 0) return printf("%ld\n", ring_of(KEY_SPEC_SESSION_KEYRING, 0)) < 0;
    for (size_t i = 0; i < sizeof parts / sizeof *parts && status < 0; i++) status = parts[i](mode, many, count, words);
    return status < 0 ? 2 : status;
}
