/* hooks.h: of hooks.c, for a test that is linked to it. */
#ifndef KEYRETAIN_HOOKS_H
#define KEYRETAIN_HOOKS_H

/* From here on the Nth ask, memory or call of the system, as `of` says, fails; and whether it has, which ends that. */
void fail_nth(const char *of, long number);
int has_failed(void);

#endif
