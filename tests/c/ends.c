/* The end entries from C: every buffer length 0 to 24 for every limit, against snprintf. C99 and C++. */

#include "check.h"
#include "larguviet.h"

#include <inttypes.h>
#include <stdio.h>
#include <stdlib.h>
#include <string.h>

enum { LONGEST = 24 };

/* A number for one of the entries. */
struct number {
    int is_signed;
    uint64_t pattern;
};

static size_t write_end(struct number number, uint8_t *out, size_t len)
{
    return number.is_signed ? lgv_decimal_end_i64((int64_t)number.pattern, out, len)
                            : lgv_decimal_end_u64(number.pattern, out, len);
}

static size_t text_of(struct number number, char text[LONGEST + 1])
{
    return (size_t)(number.is_signed ? snprintf(text, LONGEST + 1, "%" PRId64, (int64_t)number.pattern)
                                     : snprintf(text, LONGEST + 1, "%" PRIu64, number.pattern));
}

/* Calls visit with each power of ten and of two and its neighbours, and with the pattern of each negated, for both entries. */
static void each_limit(void (*visit)(struct number))
{
    static const unsigned bases[] = {2, 10};
    size_t base;

    for (base = 0; base < sizeof bases / sizeof *bases; base++) {
        uint64_t power = 1;
        for (;;) {
            int step;
            for (step = -1; step <= 1; step++) {
                struct number number;
                number.pattern = power + (uint64_t)step;
                for (number.is_signed = 0; number.is_signed <= 1; number.is_signed++) {
                    visit(number);
                    number.pattern = 0 - number.pattern;
                    visit(number);
                }
            }
            if (power > UINT64_MAX / bases[base])
                break;
            power *= bases[base];
        }
    }
}

/* One call in watched bytes: out[0..len) lies somewhere in all[0..all_len). */
static void try_in(struct number number, uint8_t *all, size_t all_len, uint8_t *out, size_t len)
{
    static unsigned turn;
    char text[LONGEST + 1];
    size_t text_len = text_of(number, text);
    int fits = text_len <= len;
    size_t wanted = fits ? len - text_len : len;
    size_t start;

    fill(all, all_len, ++turn);
    start = write_end(number, out, len);
    check(start == wanted, "%s into %zu bytes: start %zu, wanted %zu", text, len, start, wanted);
    check(filled_but(all, all_len, turn, (size_t)(out - all) + wanted, text, fits ? text_len : 0),
          "%s into %zu bytes: a byte is wrong, or one outside of the text has changed", text, len);
}

/* The bytes of a page that are watched beside the buffer. */
enum { WATCHED = 64 };

static void before_guard(struct number number)
{
    size_t size, len;
    uint8_t *page = guarded_page(&size);

    for (len = 0; len <= LONGEST; len++)
        try_in(number, page + size - WATCHED, WATCHED, page + size - len, len);
}

static void behind_guard(struct number number)
{
    size_t size, len;
    uint8_t *page = guarded_page(&size);

    for (len = 0; len <= LONGEST; len++)
        try_in(number, page, WATCHED, page, len);
}

/* Blocks of exact size whose bytes were never set: valgrind sees a read of any of them. */
static void in_block(struct number number)
{
    char text[LONGEST + 1];
    size_t text_len = text_of(number, text);
    size_t len;

    for (len = 0; len <= LONGEST; len++) {
        uint8_t *block = (uint8_t *)malloc(len);
        size_t start = write_end(number, block, len);
        if (text_len <= len)
            check(start == len - text_len && memcmp(block + start, text, text_len) == 0, "%s into a block of %zu", text, len);
        else
            check(start == len, "%s into a block of %zu: start %zu", text, len, start);
        free(block);
    }
}

static void limits_before_guard(void) { each_limit(before_guard); }
static void limits_behind_guard(void) { each_limit(behind_guard); }
static void limits_in_blocks(void) { each_limit(in_block); }

static void no_buffer(void)
{
    check(lgv_decimal_end_u64(0, NULL, 0) == 0, "0 into NULL");
    check(lgv_decimal_end_u64(UINT64_MAX, NULL, 0) == 0, "the largest into NULL");
    check(lgv_decimal_end_i64(0, NULL, 0) == 0, "signed 0 into NULL");
    check(lgv_decimal_end_i64(INT64_MIN, NULL, 0) == 0, "the smallest into NULL");
}

static void known_texts(void)
{
    uint8_t out[8];

    memcpy(out, "abcdefgh", 8);
    check(lgv_decimal_end_u64(1972, out, 8) == 4 && memcmp(out, "abcd1972", 8) == 0, "1972 into 8 bytes");
    check(lgv_decimal_end_i64(-1972, out, 4) == 4 && memcmp(out, "abcd1972", 8) == 0, "-1972 into 4 bytes");
    check(lgv_decimal_end_i64(-7, out, 2) == 0 && memcmp(out, "-7cd1972", 8) == 0, "-7 into 2 bytes");
    check(lgv_decimal_end_u64(0, out, 1) == 0 && memcmp(out, "07cd1972", 8) == 0, "0 into 1 byte");
}

/* Each size just fits the longest text of its type: one byte less is refused. */
static void sizes(void)
{
    static const struct {
        struct number longest;
        size_t size;
    } types[] = {
        {{0, UINT8_MAX}, LGV_U8_BUF_SIZE},
        {{1, (uint64_t)INT8_MIN}, LGV_I8_BUF_SIZE},
        {{0, UINT16_MAX}, LGV_U16_BUF_SIZE},
        {{1, (uint64_t)INT16_MIN}, LGV_I16_BUF_SIZE},
        {{0, UINT32_MAX}, LGV_U32_BUF_SIZE},
        {{1, (uint64_t)INT32_MIN}, LGV_I32_BUF_SIZE},
        {{0, UINT64_MAX}, LGV_U64_BUF_SIZE},
        {{1, (uint64_t)INT64_MIN}, LGV_I64_BUF_SIZE},
    };
    uint8_t out[LONGEST];
    size_t at;

    for (at = 0; at < sizeof types / sizeof *types; at++) {
        check(write_end(types[at].longest, out, types[at].size) == 0, "type %zu does not just fit", at);
        check(write_end(types[at].longest, out, types[at].size - 1) == types[at].size - 1, "type %zu fits in less", at);
    }
}

int main(void)
{
    run("every limit, every length, before a guard page", limits_before_guard);
    run("every limit, every length, behind a guard page", limits_behind_guard);
    run("every limit, every length, in a block of its own", limits_in_blocks);
    run("NULL with length 0", no_buffer);
    run("known texts", known_texts);
    run("the buffer sizes", sizes);
    return close_tests("ends");
}
