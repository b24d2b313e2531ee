/* keyretain-ssh-agent: the protocol of ssh-agent(1) over keyretaind(8). See keyretain-ssh-agent(1).
 *
 * One process listens, and forks one for each client, which ends with its connection. No key is kept between two
 * messages: each opens a connection to keyretaind, or goes on with that of the list just before it, and private keys
 * are wiped once they have signed. */
#include "library/session.h"

#include <err.h>
#include <getopt.h>
#include <openssl/crypto.h>

#include "common/listener.h"
#include "agent.h"

/* A client may say nothing for as long as a server gives a login (LoginGraceTime in sshd_config(5)). */
enum { CLIENTS_MOST = 256, IDLE_SECONDS = 120, STALL_SECONDS = 10, SWEEP_SECONDS = 60, MILLISECONDS = 1000,
       TURN_MILLISECONDS = 100, SOON_MILLISECONDS = 1000 };
enum { USAGE = 2, DECIMAL = 10 };
enum { NOT_HELD = -1, NEVER_HELD = -2 };

static const char usage[] = "usage: keyretain-ssh-agent [-c | -s] [-D] [-a SOCKET] [-t LIFETIME]\n"
                            "       keyretain-ssh-agent [-a SOCKET] [-t LIFETIME] COMMAND [ARG ..]\n"
                            "       keyretain-ssh-agent [-c | -s] -k\n";
static char *path, folder[] = "/tmp/ssh-XXXXXX";
static bool stays, has_folder, is_csh; /* the last: commands are for csh(1) */
static char **command; /* NULL for none */
static uint32_t lifetime;
static pid_t listening;
static int turns; /* a file, locked by the client whose turn it is */

/* ---- One client: SIGALRM ends the process of one that takes too long ---- */

static bool take_turn(short type) {
    struct flock turn = { .l_type = type }; /* a process's, as fcntl(2) has it */
    return fcntl(turns, F_SETLK, &turn) == 0;
}

/* The passphrases of all clients are judged one after another, and a wrong one takes a second. Where a client has gone
 * meanwhile, its own isn't judged. */
static bool wait_in_turn(int client) {
    struct pollfd gone = { .fd = client };
    while (!take_turn(F_WRLCK))
        if (poll(&gone, 1, TURN_MILLISECONDS) != 0) return false;
    return poll(&gone, 1, 0) == 0;
}

static bool serve_message(int client) {
    static unsigned char message[MESSAGE_MOST], replied[NUMBER + MESSAGE_MOST];
    struct writer reply = { .at = replied, .room = sizeof replied };
    struct bytes head = { message, NUMBER };
    alarm(IDLE_SECONDS);
    if (poll(&(struct pollfd){ .fd = client, .events = POLLIN }, 1, SOON_MILLISECONDS) == 0) close_ring();
    if (recv(client, message, NUMBER, MSG_PEEK) <= 0) return false;
    alarm(STALL_SECONDS);
    if (recv(client, message, NUMBER, MSG_WAITALL) != NUMBER) return false;
    size_t length = take_number(&head, NUMBER);
    if (length == 0 || length > sizeof message) return false;
    if (recv(client, message, length, MSG_WAITALL) != (ssize_t)length) return false;
    alarm(0);
    struct bytes asked = { message, length };
    bool is_a_guess = is_guess(asked);
    if (is_a_guess && !wait_in_turn(client)) return false;
    bool is_done = answer(asked, lifetime, &reply);
    OPENSSL_cleanse(message, length);
    if (is_a_guess && !is_done) sleep(1);
    if (is_a_guess) take_turn(F_UNLCK);
    alarm(STALL_SECONDS);
    return send(client, replied, reply.length, MSG_NOSIGNAL) == (ssize_t)reply.length;
}

static void end(int number) {
    (void)number;
    if (getpid() == listening && path) unlink(path);
    if (getpid() == listening && has_folder) rmdir(folder);
    _exit(0);
}

static bool is_time_to_sweep(void) {
    static time_t next;
    time_t now = time(NULL);
    bool is_time = next != 0 && now >= next;
    if (next == 0 || is_time) next = now + SWEEP_SECONDS;
    return is_time;
}

/* Says so where there is none: on a terminal, or in a unit's journal. */
static void look_for_daemon(void) {
    struct kr_where where;
    struct kr *daemon = kr_locate(&where, NULL) == 0 ? kr_open_with(NULL, 0, 1) : NULL;
    if (daemon) return kr_close(daemon);
    const char *advice = kr_advice(NULL, errno);
    warn("%s: no key is kept until a daemon is there", where.path);
    if (advice) warnx("%s", advice);
}

/* With CLIENTS_MOST clients the next ones wait. Where there is no session, a connection holds the user keyring. */
static _Noreturn void serve(int listener) {
    const char *session = getenv("KEYRETAIN_SESSION");
    int clients = 0, held = session && *session ? NEVER_HELD : NOT_HELD;
    for (;;) {
        while (waitpid(-1, NULL, WNOHANG) > 0) clients--;
        if (held == NOT_HELD) held = open_ring();
        struct pollfd awaited[] = { { clients < CLIENTS_MOST ? listener : -1, POLLIN, 0 }, { held, 0, 0 } };
        int ready = poll(awaited, 2, MILLISECONDS * (clients || held == NOT_HELD ? 1 : SWEEP_SECONDS));
        if (ready > 0 && awaited[1].revents && (held = open_ring()) == NOT_HELD) look_for_daemon();
        int client = ready > 0 && awaited[0].revents ? accept4(listener, NULL, NULL, SOCK_CLOEXEC) : -1;
        bool sweeps = client < 0 && is_time_to_sweep(); /* by a process of its own, too */
        pid_t forked = sweeps || (client >= 0 && is_own_peer(client)) ? fork() : -1;
        if (forked == 0) {
            close(listener);
            close_ring();
            bool is_served = prctl(PR_SET_PDEATHSIG, SIGTERM) == 0 && getppid() == listening;
            if (is_served && sweeps) sweep_ring();
            while (is_served && !sweeps && serve_message(client)) continue;
            _exit(!is_served);
        }
        if (forked > 0) clients++;
        if (client >= 0) close(client);
    }
}

/* Seconds, or a number with a unit behind it; 0 for what is none. */
static uint32_t seconds_of(const char *words) {
    char *unit;
    unsigned long number = strtoul(words, &unit, DECIMAL), most = UINT32_MAX;
    unsigned long length = !*unit || *unit == 's' ? 1 : *unit == 'm' ? 60 : *unit == 'h' ? 60 * 60
                           : *unit == 'd' ? 24 * 60 * 60 : *unit == 'w' ? 7 * 24 * 60 * 60 : 0;
    bool is_one = unit != words && *words != '-' && (!*unit || !unit[1]);
    return is_one && length && number <= most / length ? (uint32_t)(number * length) : 0;
}

static _Noreturn void kill_agent(void) {
    const char *pid = getenv("SSH_AGENT_PID");
    if (!pid || atoi(pid) <= 1 || kill(atoi(pid), SIGTERM) < 0) errx(1, "SSH_AGENT_PID names no agent");
    const char *unset = is_csh ? "unsetenv" : "unset";
    printf("%1$s SSH_AUTH_SOCK;\n%1$s SSH_AGENT_PID;\necho Agent pid %2$d killed;\n", unset, atoi(pid));
    exit(0);
}

static void read_options(int count, char **words) {
    static const struct option none[1]; /* getopt() would name one letter of a long option */
    const char *shell = getenv("SHELL");
    size_t length = shell ? strlen(shell) : 0;
    bool kills = false;
    int option;
    is_csh = length >= 3 && strcmp(shell + length - 3, "csh") == 0;
    while ((option = getopt_long(count, words, "+a:cDdE:kP:st:", none, NULL)) != -1) {
        if (option == 'a') path = optarg;
        if (option == 'c' || option == 's') is_csh = option == 'c';
        if (option == 'D' || option == 'd') stays = true;
        if (option == 'k') kills = true;
        if (option == 't' && !(lifetime = seconds_of(optarg)))
            warnx("no lifetime: %s: seconds, or a number with s, m, h, d or w behind it", optarg), option = '?';
        if (option == '?') break;
    }
    command = words[optind] ? words + optind : NULL;
    bool is_well = option == -1 && !(command && (stays || kills));
    if (is_well && kills) kill_agent();
    if (is_well) return;
    fputs(usage, stderr);
    exit(USAGE);
}

/* Runs the command with the agent in its environment, or has a shell set that. */
static _Noreturn void hand_over(pid_t agent) {
    char pid[16];
    snprintf(pid, sizeof pid, "%d", (int)agent);
    if (!command) exit(0);
    if (setenv("SSH_AUTH_SOCK", path, 1) < 0 || setenv("SSH_AGENT_PID", pid, 1) < 0) err(1, "the environment");
    execvp(*command, command);
    warn("%s", *command);
    kill(agent, SIGTERM);
    exit(errno == ENOENT ? 127 : 126);
}

static void tell_shell(pid_t agent) {
    const char *form = is_csh ? "setenv SSH_AUTH_SOCK %1$s;\nsetenv SSH_AGENT_PID %2$d;\necho Agent pid %2$d;\n"
                              : "SSH_AUTH_SOCK=%1$s; export SSH_AUTH_SOCK;\nSSH_AGENT_PID=%2$d; export SSH_AGENT_PID;\n"
                                "echo Agent pid %2$d;\n";
    dprintf(STDOUT_FILENO, form, path, (int)agent);
}

/* In the background. With a command it ends when that does. */
static void leave(pid_t starter) {
    int nothing = open("/dev/null", O_RDWR | O_CLOEXEC);
    for (int standard = 0; standard <= STDERR_FILENO; standard++) dup2(nothing, standard);
    setsid();
    if (command && (prctl(PR_SET_PDEATHSIG, SIGTERM) < 0 || getppid() != starter)) end(SIGTERM);
}

/* At the path that is named, or a new one. Says where, and goes into the background unless it is to stay. */
static int begin_listening(void) {
    if (!path && (!(has_folder = mkdtemp(folder)) || asprintf(&path, "%s/agent.%d", folder, (int)getpid()) < 0))
        err(1, "%s", folder);
    int listener = open_listener(path, 0600, DESCRIPTORS_REFUSED);
    if (listener < 0 && has_folder) rmdir(folder);
    if (listener < 0) err(1, "%s", path);
    look_for_daemon();
    pid_t starter = getpid(), agent = stays ? starter : fork();
    if (agent < 0) err(1, "fork");
    if (agent && !command) tell_shell(agent);
    if (agent && !stays) hand_over(agent);
    if (!stays) listening = getpid(), leave(starter);
    return listener;
}

/* Whatever whoever has started it ignores or holds back: SIGALRM ends a client that takes too long, and one that has
 * ended is waited for, unless SIGCHLD is ignored. */
static void set_signals(void) {
    sigset_t none;
    sigemptyset(&none);
    signal(SIGTERM, end);
    signal(SIGINT, end);
    signal(SIGHUP, end);
    signal(SIGALRM, SIG_DFL);
    signal(SIGCHLD, SIG_DFL);
    sigprocmask(SIG_SETMASK, &none, NULL);
}

/* They name files whose code OpenSSL runs, and may be another user's, as after su(1). */
static void forget_variables(void) {
    static const char *const names[] = { "OPENSSL_CONF", "OPENSSL_CONF_INCLUDE", "OPENSSL_ENGINES", "OPENSSL_MODULES" };
    for (size_t i = 0; i < sizeof names / sizeof *names; i++) unsetenv(names[i]);
}

int main(int count, char **words) {
    if (count == 2) answer_option(words[1], usage, "", "keyretain-ssh-agent " KEYRETAIN_VERSION);
    if (!fill_standard_descriptors()) err(1, "files");
    read_options(count, words);
    int listener = take_passed_listener();
    closefrom(listener >= 0 ? listener + 1 : STDERR_FILENO + 1); /* others' locks, and what holds a session */
    if (listener >= 0) path = NULL, refuse_descriptors(listener), look_for_daemon();
    else listener = begin_listening();
    if (prctl(PR_SET_DUMPABLE, 0) < 0 || setrlimit(RLIMIT_CORE, &(struct rlimit){ 0, 0 }) < 0) err(1, "core files");
    if ((turns = memfd_create("turns", MFD_CLOEXEC)) < 0 || !share_ring()) err(1, "memory");
    listening = getpid();
    set_signals();
    forget_variables();
    OPENSSL_init_crypto(OPENSSL_INIT_LOAD_CONFIG, NULL); /* which each client then has at once */
    serve(listener);
}
