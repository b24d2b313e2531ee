/* pam_keyretain.so: a session of keyretaind for whoever logs in. See pam_keyretain(8).
 *
 * The module has no connection to a daemon and no code of a client. It executes a keeper as the user, and has a pipe to
 * it. It says PAM_SUCCESS whatever happens: a login without keys is better than no login. PAM_IGNORE would end a login
 * whose stack has no other module. */
#include "keeper.h"

#include <security/pam_ext.h>
#include <security/pam_modules.h>
#include <security/pam_modutil.h>
#include <syslog.h>

#define DATA "pam_keyretain"
#define EXPORTED __attribute__((visibility("default")))

struct options {
    bool is_forced, revokes, is_told;
    const char *socket, *library;
};

/* What a handle has from the first open to the last close; `keeper` is no_keeper where there is no session. */
struct held {
    struct keeper keeper;
    bool revokes;
    int opens;
};

/* ---- Words ---- */

/* The value of NAME=VALUE, or NULL. */
static const char *value_of(const char *word, const char *name) {
    size_t length = strlen(name);
    return strncmp(word, name, length) == 0 && word[length] == '=' ? word + length + 1 : NULL;
}

/* Programs would take a relative LD_LIBRARY_PATH for one in the folder where they happen to be. */
static struct options read_options(pam_handle_t *handle, int count, const char **words) {
    struct options options = { 0 };
    for (int i = 0; i < count; i++) {
        const char *socket = value_of(words[i], "socket"), *library = value_of(words[i], "library");
        if (socket)
            options.socket = socket;
        else if (library && *library == '/')
            options.library = library;
        else if (strcmp(words[i], "force") == 0)
            options.is_forced = true;
        else if (strcmp(words[i], "revoke") == 0)
            options.revokes = true;
        else if (strcmp(words[i], "debug") == 0)
            options.is_told = true;
        else
            pam_syslog(handle, LOG_ERR, "no such option: %s", words[i]);
    }
    return options;
}

/* ---- The environment of the session ---- */

static void put(pam_handle_t *handle, const char *name, const char *value) {
    char *text;
    bool is_made = asprintf(&text, "%s=%s", name, value) >= 0;
    if (!is_made || pam_putenv(handle, text) != PAM_SUCCESS) pam_syslog(handle, LOG_CRIT, "%s can't be set", name);
    if (is_made) free(text);
}

/* Both are set in any case, and never looked at: a plain su keeps its caller's environment, with the caller's session
 * and, worse, the caller's daemon. */
static void put_session(pam_handle_t *handle, const struct options *options, const struct answer *answer) {
    put(handle, "KEYRETAIN_SESSION", answer->session ? answer->session : "");
    put(handle, "KEYRETAIN_SOCKET", answer->session ? answer->socket : "");
    if (answer->session && options->library) put(handle, "LD_LIBRARY_PATH", options->library);
}

/* ---- What a handle has ---- */

/* In each process that has the handle: what it says is for this process alone, so that pam_end in a child ends
 * nothing. */
static void release(pam_handle_t *handle, void *data, int status) {
    struct held *held = data;
    (void)handle, (void)status;
    let_go_of_keeper(&held->keeper);
    free(held);
}

/* NULL before the first open, and after the last close. */
static struct held *held_of(pam_handle_t *handle) {
    const void *data = NULL;
    return pam_get_data(handle, DATA, &data) == PAM_SUCCESS ? (struct held *)data : NULL;
}

static struct held *hold_nothing(pam_handle_t *handle) {
    struct held *held = calloc(1, sizeof *held);
    if (!held) return NULL;
    held->keeper = no_keeper;
    if (pam_set_data(handle, DATA, held, release) == PAM_SUCCESS) return held;
    free(held);
    return NULL;
}

/* ---- Sessions ---- */

/* The user's terminal shows none of the keeper's words: who runs as the user may have said them. They begin with two
 * for programs, of which the second is errno. */
static void tell(pam_handle_t *handle, const char *user, const char *words, bool is_silent) {
    int error = 0, length = 0;
    sscanf(words, "%*[a-z] %d %n", &error, &length);
    pam_syslog(handle, LOG_NOTICE, "no session for %s: %s", user, words + length);
    if (!is_silent)
        pam_error(handle, "keyretain: this login has no session of its own (%s): keyretain-session begins one, or says "
                  "what to do", length && error > 0 ? strerrordesc_np(error) : "the log says why");
}

static void begin(pam_handle_t *handle, const struct options *options, struct keeper *keeper, bool is_silent) {
    struct answer answer = { .text = "" };
    const void *name = NULL;
    const struct passwd *user = NULL;
    *keeper = no_keeper;
    if (pam_get_item(handle, PAM_USER, &name) == PAM_SUCCESS && name) user = pam_modutil_getpwnam(handle, name);
    if (!user)
        snprintf(answer.text, sizeof answer.text, "no such user");
    else
        start_keeper(keeper, user, options->socket, &answer);
    put_session(handle, options, &answer);
    if (!answer.session)
        tell(handle, user ? user->pw_name : "?", answer.text, is_silent);
    else if (options->is_told)
        pam_syslog(handle, LOG_DEBUG, "session %s at %s", answer.session, answer.socket);
}

static void end(pam_handle_t *handle, const struct keeper *keeper) {
    if (!end_keeper(keeper)) pam_syslog(handle, LOG_NOTICE, "the session's keeper goes on, as if it was stopped");
}

EXPORTED int pam_sm_open_session(pam_handle_t *handle, int flags, int count, const char **words) {
    struct options options = read_options(handle, count, words);
    struct held *held = held_of(handle);
    bool is_new = !held || (options.is_forced && has_keeper(&held->keeper));
    if (!held) held = hold_nothing(handle);
    if (!held) {
        put_session(handle, &options, &(struct answer){ .text = "" });
        pam_syslog(handle, LOG_CRIT, "no memory");
        return PAM_SUCCESS;
    }
    held->opens++;
    held->revokes |= options.revokes;
    if (is_new) {
        end(handle, &held->keeper);
        let_go_of_keeper(&held->keeper);
        begin(handle, &options, &held->keeper, flags & PAM_SILENT);
    }
    if (held->revokes) revoke_at_end(&held->keeper);
    return PAM_SUCCESS;
}

/* The process may be another one than that of the open, and may have become the user. */
EXPORTED int pam_sm_close_session(pam_handle_t *handle, int flags, int count, const char **words) {
    struct options options = read_options(handle, count, words);
    struct held *held = held_of(handle);
    (void)flags;
    if (!held || --held->opens > 0) return PAM_SUCCESS;
    if (options.is_told)
        pam_syslog(handle, LOG_DEBUG, has_keeper(&held->keeper) ? "ends the session" : "no session to end");
    end(handle, &held->keeper);
    pam_set_data(handle, DATA, NULL, NULL);
    return PAM_SUCCESS;
}
