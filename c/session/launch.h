/* launch.h: a command whose key calls are answered by keyretaind. */
#ifndef KEYRETAIN_LAUNCH_H
#define KEYRETAIN_LAUNCH_H

/* What keyretain-session(1) ends with. */
enum { REFUSED = 1, USAGE = 2, NO_CONNECTION = 3, NOT_EXECUTABLE = 126, NOT_FOUND = 127 };

/* Prints why, with errno, and ends this process. */
void fail(int status, const char *what) __attribute__((noreturn));

/* Runs a command in a session of this name, or one of its own for NULL, of the daemon at `path`, and ends with the
 * command's status. It doesn't return. Where these processes are supervised already, it joins the session by keyctl(2)
 * and executes the command. */
void launch(const char *path, const char *name, char **command) __attribute__((noreturn));

#endif
