/* The writing entries in buffers of exact size beside pages that cannot be touched: every length 0 to 70, for each type and
   format with several layouts, and for refused calls. What the text is, a wide buffer has told. C99 and C++. */

#include "check.h"
#include "larguviet.h"

#include <stdlib.h>
#include <string.h>

enum { LONGEST = 70, WATCHED = 96, WIDE = 200 };

struct call {
    uint32_t bits, is_signed;
    uint64_t value;
    uint32_t format;
    lgv_options options;
};

static lgv_answer write_call(const struct call *call, uint8_t *out, size_t len)
{
    return lgv_write_with(call->bits, call->is_signed, call->value, call->format, call->options, out, len);
}

/* Calls visit with each type, format and layout at 0, 1, the ends of the type and a number between, and with faults. */
static void each_call(void (*visit)(const struct call *))
{
    static const lgv_options layouts[] = {
        {0, 0, 0, 0, 0, 0, 0, 0},
        {1, 1, 1, 0, 0, 40, 3, 1},
        {0, 1, 0, '*', LGV_CENTRE, 69, 0, 0},
        {1, 0, 0, '.', LGV_LEFT, 30, 62, 1},
    };
    static const struct call faults[] = {
        {12, 0, 1972, LGV_DECIMAL, {0, 0, 0, 0, 0, 30, 0, 0}},
        {8, 0, 1972, LGV_DECIMAL, {0, 0, 0, 0, 0, 30, 0, 0}},
        {16, 0, 1972, 7, {0, 0, 0, 0, 0, 30, 0, 0}},
        {16, 0, 1972, LGV_DECIMAL, {0, 0, 0, 7, 0, 30, 0, 0}},
        {16, 0, 1972, LGV_DECIMAL, {0, 0, 0, 0, 4, 30, 0, 0}},
    };
    struct call call;
    size_t at, layout;

    for (call.bits = 8; call.bits <= 64; call.bits *= 2)
        for (call.is_signed = 0; call.is_signed <= 1; call.is_signed++) {
            const uint64_t half = (uint64_t)1 << (call.bits - 1);
            const uint64_t values[] = {0, 1, call.is_signed ? 0 - half : half, half - 1, half / 100 * 78};
            for (at = 0; at < sizeof values / sizeof *values; at++) {
                call.value = values[at];
                for (call.format = LGV_DECIMAL; call.format <= LGV_UPPER_EXP; call.format++)
                    for (layout = 0; layout < sizeof layouts / sizeof *layouts; layout++) {
                        call.options = layouts[layout];
                        visit(&call);
                    }
            }
        }
    for (at = 0; at < sizeof faults / sizeof *faults; at++)
        visit(&faults[at]);
}

/* The answer that a call must give in len bytes, from its answer in a wide buffer, to which its text goes. */
static lgv_answer wanted_in(const struct call *call, size_t len, uint8_t text[WIDE], size_t *text_len)
{
    lgv_answer answer = write_call(call, text, WIDE);

    *text_len = answer.number == LGV_DONE ? (size_t)answer.value : 0;
    if (*text_len > len) {
        answer.number = LGV_NO_ROOM;
        *text_len = 0;
    }
    return answer;
}

static void compare(const struct call *call, size_t len, lgv_answer answer, lgv_answer wanted)
{
    check(answer.number == wanted.number && answer.value == wanted.value,
          "%u bits, format %u, %u wide into %zu bytes: %u with %u, wanted %u with %u", (unsigned)call->bits,
          (unsigned)call->format, (unsigned)call->options.width, len, (unsigned)answer.number, (unsigned)answer.value,
          (unsigned)wanted.number, (unsigned)wanted.value);
}

/* One call in watched bytes: out[0..len) lies somewhere in all[0..WATCHED). */
static void try_in(const struct call *call, uint8_t *all, uint8_t *out, size_t len)
{
    static unsigned turn;
    uint8_t text[WIDE];
    size_t text_len;
    lgv_answer wanted = wanted_in(call, len, text, &text_len);

    fill(all, WATCHED, ++turn);
    compare(call, len, write_call(call, out, len), wanted);
    check(filled_but(all, WATCHED, turn, (size_t)(out - all), (const char *)text, text_len),
          "%u bits, format %u into %zu bytes: a byte is wrong, or one outside of the text has changed", (unsigned)call->bits,
          (unsigned)call->format, len);
}

static void before_guard(const struct call *call)
{
    size_t size, len;
    uint8_t *page = guarded_page(&size);

    for (len = 0; len <= LONGEST; len++)
        try_in(call, page + size - WATCHED, page + size - len, len);
}

static void behind_guard(const struct call *call)
{
    size_t size, len;
    uint8_t *page = guarded_page(&size);

    for (len = 0; len <= LONGEST; len++)
        try_in(call, page, page, len);
}

/* Blocks of exact size whose bytes were never set: valgrind sees a read of any of them. */
static void in_block(const struct call *call)
{
    size_t len;

    for (len = 0; len <= LONGEST; len++) {
        uint8_t *block = (uint8_t *)malloc(len);
        uint8_t text[WIDE];
        size_t text_len;
        lgv_answer wanted = wanted_in(call, len, text, &text_len);
        compare(call, len, write_call(call, block, len), wanted);
        check(text_len == 0 || memcmp(block, text, text_len) == 0, "format %u into a block of %zu", (unsigned)call->format, len);
        free(block);
    }
}

static void calls_before_guard(void) { each_call(before_guard); }
static void calls_behind_guard(void) { each_call(behind_guard); }
static void calls_in_blocks(void) { each_call(in_block); }

int main(void)
{
    run("every length, before a guard page", calls_before_guard);
    run("every length, behind a guard page", calls_behind_guard);
    run("every length, in a block of its own", calls_in_blocks);
    return close_tests("guards");
}
