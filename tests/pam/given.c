/* given WORD ..: in the keeper's place, writes down in the file GIVEN what it was given: its descriptors, its standard
 * error, its folder, how many variables, whose session of setsid(2), with which goes a terminal, its ids, its signals,
 * and its words. It is no shell, as some set their signals anew when they begin. */
#define _GNU_SOURCE
#include "check.h"

extern char **environ;

static void put_descriptors(FILE *to) {
    for (int i = 0; i < 1024; i++)
        if (fcntl(i, F_GETFD) >= 0 && i != fileno(to)) fprintf(to, "%d\n", i);
}

static void put_link(FILE *to, const char *path) {
    char text[4096];
    ssize_t length = readlink(path, text, sizeof text);
    fprintf(to, "%.*s\n", length > 0 ? (int)length : 0, text);
}

static void put_status(FILE *to) {
    static const char *const names[] = { "Uid:", "Gid:", "Groups:", "SigBlk:", "SigIgn:" };
    FILE *status = fopen("/proc/self/status", "r");
    char line[4096];
    while (status && fgets(line, sizeof line, status))
        for (size_t i = 0; i < sizeof names / sizeof *names; i++)
            if (strncmp(line, names[i], strlen(names[i])) == 0) fputs(line, to);
    if (status) fclose(status);
}

int main(int count, char **words) {
    int variables = 0;
    FILE *to = fopen(GIVEN, "w");
    if (!to) return 2;
    while (environ[variables]) variables++;
    put_descriptors(to);
    put_link(to, "/proc/self/fd/2");
    put_link(to, "/proc/self/cwd");
    fprintf(to, "%d\n%s\n", variables, getsid(0) == getpid() ? "a session of its own" : "its caller's session");
    put_status(to);
    for (int i = 0; i < count; i++) fprintf(to, "%s%s", words[i], i + 1 < count ? " " : "\n");
    return fclose(to);
}
