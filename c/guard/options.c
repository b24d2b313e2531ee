/* options.c: see guard.h. */
#include "guard.h"

#include <getopt.h>

static const char USAGE_TEXT[] =
    "usage: keyretain-guard --daemon PATH [--listen PATH] [--mode OCTAL] [--connections N] [--per-uid N]\n"
    "         [--hello-seconds N] [--trust UID].. [--no-filter]\n";
static const char HELP_TEXT[] =
    "\nLets each user speak for itself alone to a keyretaind that believes its clients.\n\n"
    "  --daemon PATH      the socket of the daemon\n"
    "  --listen PATH      where clients connect; without it systemd passes the socket\n"
    "  --mode OCTAL       the mode of that socket: 666\n"
    "  --connections N    the most connections, 1 to 256: 64\n"
    "  --per-uid N        the most of a uid: 64\n"
    "  --hello-seconds N  how long a client may stay silent at first, or 0 for ever: 60\n"
    "  --trust UID        may speak for anybody; at most 16 times\n"
    "  --no-filter        takes no filter of system calls\n"
    "  -h, --help         prints this\n"
    "  --version          prints the version\n";

struct options options = { .connections = 64, .per_uid = 64, .hello_seconds = 60, .mode = 0666, .has_filter = true };

_Noreturn void fail(const char *why, enum status status) {
    const char *path = options.listen_path ? options.listen_path : "(passed)";
    fprintf(stderr, "keyretain-guard: %s: %s\n", path, strerror(errno));
    puts(why);
    exit(status);
}

_Noreturn void fail_usage(void) {
    fputs(USAGE_TEXT, stderr);
    exit(USAGE);
}

/* Which word is wrong, and why. */
static _Noreturn void refuse_word(const char *why, const char *word) {
    fprintf(stderr, "keyretain-guard: %s: %s\n", why, word);
    fail_usage();
}

static unsigned number(const char *text, int base, unsigned long least, unsigned long most) {
    int64_t value = number_in(text, base, least, most);
    const char *form = base == 8 ? "keyretain-guard: an octal number from %lo to %lo is wanted\n"
                                 : "keyretain-guard: a number from %lu to %lu is wanted\n";
    if (value < 0) fprintf(stderr, form, least, most);
    if (value < 0) refuse_word("this is none", text);
    return (unsigned)value;
}

static void read_option(int option) {
    switch (option) {
    case 'l': options.listen_path = optarg; break;
    case 'd':
        if (!put_address(&options.daemon, optarg)) refuse_word("a path of 1 to 107 bytes", optarg);
        break;
    case 'c': options.connections = number(optarg, 10, 1, CONNECTIONS_MAX); break;
    case 'u': options.per_uid = number(optarg, 10, 1, CONNECTIONS_MAX); break;
    case 's': options.hello_seconds = number(optarg, 10, 0, 1000000); break;
    case 'm': options.mode = number(optarg, 8, 0, 0777); break;
    case 't':
        if (options.trusted_count == TRUSTED_MAX) refuse_word("more than 16 times --trust", optarg);
        options.trusted[options.trusted_count++] = number(optarg, 10, 0, UINT32_MAX - 1);
        break;
    case 'n': options.has_filter = false; break;
    case 'h': answer_option("--help", USAGE_TEXT, HELP_TEXT, ""); break;
    case 'v': answer_option("--version", USAGE_TEXT, HELP_TEXT, "keyretain-guard " KEYRETAIN_VERSION); break;
    default: fail_usage();
    }
}

void read_options(int count, char **words) {
    static const struct option all[] = {
        { "listen", 1, 0, 'l' }, { "daemon", 1, 0, 'd' }, { "connections", 1, 0, 'c' }, { "per-uid", 1, 0, 'u' },
        { "hello-seconds", 1, 0, 's' }, { "mode", 1, 0, 'm' }, { "trust", 1, 0, 't' }, { "no-filter", 0, 0, 'n' },
        { "help", 0, 0, 'h' }, { "version", 0, 0, 'v' }, { 0, 0, 0, 0 } };
    for (int option; (option = getopt_long(count, words, "h", all, NULL)) != -1;) read_option(option);
    if (optind != count) refuse_word("no option", words[optind]);
    if (options.daemon.sun_family != AF_UNIX) refuse_word("an option is missing", "--daemon PATH");
}

/* Not even uid 0, unless the administrator says so: a connection that root has made may be inherited by a process that
 * isn't root any more. Who acts for others uses the daemon's own socket. */
bool is_trusted_uid(uint32_t uid) {
    for (unsigned i = 0; i < options.trusted_count; i++)
        if (options.trusted[i] == uid) return true;
    return false;
}
