/* Counting, guard pages and watched bytes for the C tests. */

#define _DEFAULT_SOURCE
#include "check.h"

#include <stdarg.h>
#include <stdio.h>
#include <stdlib.h>
#include <string.h>
#include <sys/mman.h>
#include <unistd.h>

enum { SHOWN_CAUSES = 3 };

static unsigned passed, failed, causes;

void run(const char *name, void (*test)(void))
{
    causes = 0;
    test();
    if (causes == 0) {
        passed++;
    } else {
        failed++;
        printf("  %s: failed, %u checks\n", name, causes);
    }
}

void check(int holds, const char *format, ...)
{
    va_list words;

    if (holds || causes++ >= SHOWN_CAUSES)
        return;
    printf("  ");
    va_start(words, format);
    vprintf(format, words);
    va_end(words);
    printf("\n");
}

int close_tests(const char *name)
{
    printf("%s: %u passed, %u failed\n", name, passed, failed);
    return failed == 0 && passed > 0 ? EXIT_SUCCESS : EXIT_FAILURE;
}

uint8_t *guarded_page(size_t *size)
{
    static uint8_t *page;

    *size = (size_t)sysconf(_SC_PAGESIZE);
    if (page == NULL) {
        void *pages = mmap(NULL, 3 * *size, PROT_NONE, MAP_PRIVATE | MAP_ANONYMOUS, -1, 0);
        if (pages == MAP_FAILED) {
            perror("mmap");
            exit(EXIT_FAILURE);
        }
        page = (uint8_t *)pages + *size;
        if (mprotect(page, *size, PROT_READ | PROT_WRITE) != 0) {
            perror("mprotect");
            exit(EXIT_FAILURE);
        }
    }
    return page;
}

/* The top bit is set, so no digit, sign or letter is like it. */
static uint8_t filler(size_t place, unsigned turn)
{
    return (uint8_t)(0x80 | (place * 37 + turn * 11));
}

void fill(uint8_t *bytes, size_t len, unsigned turn)
{
    size_t place;

    for (place = 0; place < len; place++)
        bytes[place] = filler(place, turn);
}

int filled_but(const uint8_t *bytes, size_t len, unsigned turn, size_t place, const char *text, size_t text_len)
{
    size_t at;

    for (at = 0; at < len; at++) {
        int in_text = at >= place && at - place < text_len;
        if (bytes[at] != (in_text ? (uint8_t)text[at - place] : filler(at, turn)))
            return 0;
    }
    return 1;
}
