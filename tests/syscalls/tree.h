/* tree.h: what the parts of the program tree have in common: answers of children, and how they wait. */
#ifndef KEYRETAIN_TREE_H
#define KEYRETAIN_TREE_H

#include <grp.h>
#include <poll.h>
#include <sched.h>
#include <sys/mman.h>
#include <sys/prctl.h>
#include <sys/resource.h>

#include "calls.h"

enum { MOST = 1000, LOOK_MICROSECONDS = 20000, PAGE = 4096, NOBODY = 4105 };

struct answer {
    long value;
    int error;
};

extern int answers[2], gates[2]; /* children write to the one, and wait on the other */

void give(long value);
void wait_at_gate(void);
_Noreturn void end_with(long value);
_Noreturn void live_on(long value);
_Noreturn void execute_to_give(const char *file, const char *mode);
struct answer take(void);
void begin(void);
const char *text_of(int id);
void describe(int id, unsigned *owner, unsigned *mask);
void become_nobody(void);
long own_session(void);
void copy_tag(pid_t process);

/* The status of one of the modes of each part, or -1. */
int many_modes(const char *mode, int many, int count, char **words);
int ends_modes(const char *mode, int many, int count, char **words);
int keys_modes(const char *mode, int many, int count, char **words);
int users_modes(const char *mode, int many, int count, char **words);
int logins_modes(const char *mode, int many, int count, char **words);

#endif
