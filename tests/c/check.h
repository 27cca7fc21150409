/* What the C tests share: counting, and pages with inaccessible ones on both sides. C99 and C++. */

#ifndef CHECK_H
#define CHECK_H

#include <stddef.h>
#include <stdint.h>

/* Runs a test and counts it as passed if no check inside it failed. */
void run(const char *name, void (*test)(void));

/* Fails the running test, with a word about the first few causes. */
void check(int holds, const char *format, ...);

/* Prints "NAME: N passed, M failed"; gives the exit status. */
int close_tests(const char *name);

/* A page that can be written, between two that cannot be touched. Mapped once; its size in *size. */
uint8_t *guarded_page(size_t *size);

/* Fills bytes with a pattern that varies with turn and holds no byte of any text. */
void fill(uint8_t *bytes, size_t len, unsigned turn);

/* Whether bytes are as fill left them, but for text at place. */
int filled_but(const uint8_t *bytes, size_t len, unsigned turn, size_t place, const char *text, size_t text_len);

#endif
