/* login FOLDER SERVICE USER ACT ..: what an application does that lets somebody log in, act by act. The services are in
 * the folder, as in /etc/pam.d. What is printed goes to descriptor OUT, wherever that is then. */
#define _GNU_SOURCE
#include <dirent.h>
#include <pwd.h>
#include <security/pam_appl.h>
#include <security/pam_ext.h>
#include <stdarg.h>

#include "check.h"

enum { OUT = 100, THREADS = 3, VICTIMS = 32, FIRST_FREE = 3 };

static pam_handle_t *handle;
static volatile sig_atomic_t children_seen;

/* In the place of libpam's: what the module tells the log stands on standard error. */
void pam_syslog(const pam_handle_t *of, int priority, const char *format, ...) {
    va_list words;
    va_start(words, format);
    dprintf(STDERR_FILENO, "log %d ", priority);
    vdprintf(STDERR_FILENO, format, words);
    dprintf(STDERR_FILENO, "\n");
    va_end(words);
}

static int converse(int count, const struct pam_message **messages, struct pam_response **answers, void *unused) {
    for (int i = 0; i < count; i++) fprintf(stderr, "told %d %s\n", messages[i]->msg_style, messages[i]->msg);
    return PAM_CONV_ERR;
}

static void tell(const char *act, const char *what) { dprintf(OUT, "%s %s\n", act, what); }

static void tell_status(const char *act, int status) {
    tell(act, status == PAM_SUCCESS ? "success" : pam_strerror(handle, status));
}

/* ---- Acts ---- */

static void open_session(const char *word) { tell_status("open", pam_open_session(handle, 0)); }
static void open_silently(const char *word) { tell_status("open", pam_open_session(handle, PAM_SILENT)); }

static void close_session(const char *word) { tell_status("close", pam_close_session(handle, 0)); }

static void end(const char *word) {
    tell_status("end", pam_end(handle, PAM_SUCCESS));
    handle = NULL;
}

/* What the login has of a variable: `NAME=VALUE`, or `NAME unset`. */
static void show_variable(const char *name) {
    const char *value = pam_getenv(handle, name);
    dprintf(OUT, "%s%s%s\n", name, value ? "=" : " unset", value ? value : "");
}

/* Runs a command in the environment of the login, as a shell would be. */
static void run_command(const char *command) {
    pid_t child = fork();
    if (child == 0) {
        char **variables = pam_getenvlist(handle);
        for (char **each = variables; each && *each; each++) putenv(*each);
        dup2(OUT, STDOUT_FILENO);
        close(OUT);
        execl("/bin/sh", "sh", "-c", command, NULL);
        _exit(127);
    }
    waitpid(child, NULL, 0);
}

static void act(const char *word);

/* Another process does it, which has the handle as it is. */
static void in_child(const char *word) {
    pid_t child = fork();
    if (child == 0) {
        act(word);
        _exit(0);
    }
    waitpid(child, NULL, 0);
}

static void repeat(const char *count) {
    int good = 0;
    for (int i = 0; i < atoi(count); i++) {
        good += pam_open_session(handle, 0) == PAM_SUCCESS && pam_getenv(handle, "KEYRETAIN_SESSION")[0] != '\0';
        pam_close_session(handle, 0);
    }
    dprintf(OUT, "%d sessions\n", good);
}

/* ---- What an application may be like ---- */

static void close_standard(const char *word) {
    for (int i = 0; i < FIRST_FREE; i++) close(i);
}

/* Closes all that it has, and has a file under each number. */
static void close_everything(const char *path) {
    for (int i = FIRST_FREE; i < VICTIMS; i++) {
        int file = open(path, O_WRONLY | O_CREAT | O_APPEND, 0600);
        dup2(file, i);
        if (file >= VICTIMS) close(file);
    }
}

static void show_everything(const char *path) {
    struct stat status, each;
    int open_still = 0;
    if (stat(path, &status) < 0) return;
    for (int i = FIRST_FREE; i < VICTIMS; i++)
        open_still += fstat(i, &each) == 0 && each.st_ino == status.st_ino && each.st_dev == status.st_dev;
    dprintf(OUT, "%d of %d open, %ld bytes\n", open_still, VICTIMS - FIRST_FREE, (long)status.st_size);
}

static void count_descriptors(const char *word) {
    int count = 0;
    for (int i = 0; i < OUT; i++) count += fcntl(i, F_GETFD) >= 0;
    dprintf(OUT, "%d descriptors\n", count);
}

static void on_child(int unused) {
    while (waitpid(-1, NULL, WNOHANG) > 0) continue;
    children_seen = 1;
}

static void handle_children(const char *how) {
    struct sigaction action = { .sa_handler = strcmp(how, "ignored") == 0 ? SIG_IGN : on_child };
    sigaction(SIGCHLD, &action, NULL);
}

static void hold_signals_back(const char *word) { hold_back(SIGTERM); }

/* Kills the keepers of a daemon, without a child that the application would see: by what they were executed with. */
static void kill_keepers(const char *path) {
    char name[300], words[512];
    DIR *processes = opendir("/proc");
    for (const struct dirent *each; (each = readdir(processes)) != NULL;) {
        snprintf(name, sizeof name, "/proc/%s/cmdline", each->d_name);
        int file = atoi(each->d_name) > 0 ? open(name, O_RDONLY | O_CLOEXEC) : -1;
        ssize_t length = file < 0 ? 0 : read(file, words, sizeof words - 1);
        if (file >= 0) close(file);
        words[length > 0 ? length : 0] = '\0';
        bool is_keeper = length > 0 && strcmp(words, "keyretain-keeper") == 0;
        if (is_keeper && memmem(words, (size_t)length, path, strlen(path))) kill(atoi(each->d_name), SIGKILL);
    }
    closedir(processes);
    usleep(200000);
}

/* Whether it has a child, also one of which no signal tells. */
static void show_offspring(const char *word) {
    dprintf(OUT, "%s\n", waitpid(-1, NULL, WNOHANG | __WALL) < 0 ? "no child" : "a child");
}

/* A signal each two milliseconds, by which calls are interrupted; or no more. */
static void interrupt_often(const char *word) { interrupt_after(*word ? 0 : 2000, *word ? 0 : 2000); }

/* A SIGPIPE that is there already, and held back. */
static void hold_pipe_signal(const char *word) {
    hold_back(SIGPIPE);
    raise(SIGPIPE);
}

static void show_pipe_signal(const char *word) {
    sigset_t pending;
    sigpending(&pending);
    dprintf(OUT, "SIGPIPE %s\n", sigismember(&pending, SIGPIPE) == 1 ? "held back" : "taken away");
}

static bool is_empty(const sigset_t *set) {
    for (int number = 1; number < NSIG; number++)
        if (sigismember(set, number) == 1) return false;
    return true;
}

/* As they were for the application: SIGCHLD as it was set, SIGPIPE as at first, none held back and none to come. */
static void show_signals(const char *how) {
    struct sigaction children, broken;
    sigset_t held, pending;
    sigaction(SIGCHLD, NULL, &children);
    sigaction(SIGPIPE, NULL, &broken);
    sigprocmask(SIG_BLOCK, NULL, &held);
    sigpending(&pending);
    bool is_same = children.sa_handler == (strcmp(how, "ignored") == 0 ? SIG_IGN : on_child);
    is_same = is_same && broken.sa_handler == SIG_DFL && is_empty(&held) && is_empty(&pending);
    const char *seen = children_seen ? "a child seen" : "no child seen";
    dprintf(OUT, "signals %s, %s\n", is_same ? "as before" : "changed", seen);
}

/* Takes and gives back memory and looks for users, so that the C library's locks are mostly held. */
static void *stay_busy(void *unused) {
    for (;;) {
        free(malloc(100));
        getpwuid(0);
    }
    return unused;
}

static void start_threads(const char *word) {
    for (int i = 0; i < THREADS; i++) {
        pthread_t thread;
        pthread_create(&thread, NULL, stay_busy, NULL);
        pthread_detach(thread);
    }
}

static void become(const char *uid) {
    if (setresuid((uid_t)atoi(uid), (uid_t)atoi(uid), (uid_t)atoi(uid)) < 0) tell("become", "no");
}

/* ---- */

static const struct {
    const char *name;
    void (*does)(const char *word);
} acts[] = {
    { "open", open_session }, { "silent", open_silently }, { "close", close_session }, { "end", end },
    { "show", show_variable }, { "run", run_command }, { "child", in_child }, { "repeat", repeat },
    { "close-standard", close_standard },
    { "close-everything", close_everything }, { "show-everything", show_everything },
    { "descriptors", count_descriptors }, { "children", handle_children }, { "block", hold_signals_back },
    { "kill-keepers", kill_keepers }, { "signals", show_signals }, { "offspring", show_offspring },
    { "interrupts", interrupt_often }, { "hold-pipe", hold_pipe_signal }, { "show-pipe", show_pipe_signal },
    { "threads", start_threads }, { "become", become },
};

/* NAME or NAME:WORD */
static void act(const char *text) {
    size_t length = strcspn(text, ":");
    for (size_t i = 0; i < sizeof acts / sizeof *acts; i++) {
        if (strlen(acts[i].name) != length || strncmp(acts[i].name, text, length) != 0) continue;
        acts[i].does(text[length] ? text + length + 1 : "");
        return;
    }
    tell("no such act:", text);
}

int main(int count, char **words) {
    struct pam_conv conversation = { converse, NULL };
    if (count < 4 || dup2(STDOUT_FILENO, OUT) < 0) return 2;
    int status = pam_start_confdir(words[2], words[3], &conversation, words[1], &handle);
    if (status != PAM_SUCCESS) tell("start", pam_strerror(handle, status));
    if (status != PAM_SUCCESS) return 1;
    alarm(120); /* nothing here takes so long */
    for (int i = 4; i < count; i++) act(words[i]);
    if (handle) pam_end(handle, PAM_SUCCESS);
    return 0;
}
