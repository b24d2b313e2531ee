/* server.h: a hostile daemon in memory, and the input that says what it does. */
#ifndef KEYRETAIN_FUZZ_SERVER_H
#define KEYRETAIN_FUZZ_SERVER_H

#include <stdbool.h>
#include <stddef.h>
#include <stdint.h>

/* A new daemon and a new clock, which do what these bytes say. Where they end, zeros follow. */
void server_begin(const uint8_t *input, size_t length);

/* From the first to the second the calls of this thread to the kernel are answered by the daemon. */
void server_enter(void);
void server_leave(void);

/* The rest of the input: what is called, and with what. */
uint8_t server_byte(void);
uint32_t server_word(void);
size_t server_rest(const uint8_t **rest);

/* All bodies of bytes together are no longer than this: each four may be a key that a walk then looks at. */
void server_limit_bodies(size_t length);

/* Whoever listens may be told anything, as the client was told so. */
void server_allow_anybody(void);

/* Whether the last ask that came may have been answered: a reply with its tag was sent, or bytes that may be one. */
bool server_may_have_answered(void);

/* Milliseconds of the clock that the client sees. */
int64_t server_time(void);

/* Ends the run: the client did what it mustn't. */
_Noreturn void fault(const char *what);

#endif
