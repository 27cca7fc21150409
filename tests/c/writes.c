/* The writing entries from C: the trials, every refusal and their order, the inline functions. C99 and C++. */

#include "check.h"
#include "larguviet.h"
#include "table.h"

#include <inttypes.h>
#include <string.h>

enum { ROOM = 80, SPARE = 8 };

/* What an entry answered and whether it left the bytes of out but for the text, and SPARE bytes behind len, as before. */
static void expect(const char *what, lgv_answer answer, uint64_t number, uint64_t value, const uint8_t *out, size_t len,
                   const char *text)
{
    check(answer.number == number && answer.value == value,
          "%s into %zu bytes: %" PRIu64 " with %" PRIu64 ", wanted %" PRIu64 " with %" PRIu64, what, len, answer.number,
          answer.value, number, value);
    check(filled_but(out, len + SPARE, (unsigned)len, 0, text, strlen(text)), "%s into %zu bytes: left \"%.*s\"", what, len,
          (int)len, (const char *)out);
}

static uint8_t *fresh(size_t len)
{
    static uint8_t out[ROOM + SPARE];

    fill(out, len + SPARE, (unsigned)len);
    return out;
}

static lgv_answer write_row(const struct row *row, uint8_t *out, size_t len)
{
    return lgv_write_with(row->bits, row->is_signed, row->value, row->format, row->options, out, len);
}

static void trials(void)
{
    size_t at, len;

    for (at = 0; at < ROWS; at++) {
        const struct row *row = &table[at];
        size_t needed = strlen(row->text);
        for (len = 0; len <= ROOM; len++) {
            int fits = needed <= len;
            uint8_t *out = fresh(len);
            expect(row->text, write_row(row, out, len), fits ? LGV_DONE : LGV_NO_ROOM, needed, out, len, fits ? row->text : "");
        }
    }
}

/* A call of lgv_write, faults and all. */
struct call {
    uint32_t bits, is_signed;
    uint64_t value;
    uint32_t format, fill, align;
};

static lgv_answer write_call(const struct call *call, uint8_t *out, size_t len)
{
    return lgv_write(call->bits, call->is_signed, call->value, call->format, 0, 0, 0, call->fill, call->align, 0, 0, 0, out, len);
}

/* With room and without, for the room comes last. */
static void refuses(const char *what, const struct call *call, uint64_t number)
{
    size_t len;

    for (len = 0; len <= ROOM; len += ROOM / 2) {
        uint8_t *out = fresh(len);
        expect(what, write_call(call, out, len), number, 0, out, len, "");
    }
    expect(what, write_call(call, NULL, 0), number, 0, fresh(0), 0, "");
}

static void bad_types(void)
{
    static const uint32_t bits[] = {0, 1, 7, 9, 15, 24, 31, 33, 63, 65, 128, 256, 256 + 8, 65536 + 64, 70000, UINT32_MAX};
    size_t at;

    for (at = 0; at < sizeof bits / sizeof *bits; at++) {
        const struct call alone = {bits[at], 0, 0, LGV_DECIMAL, ' ', LGV_UNSET};
        const struct call before_value = {bits[at], 1, UINT64_MAX / 2, LGV_DECIMAL, ' ', LGV_UNSET};
        const struct call before_all = {bits[at], 0, UINT64_MAX, 7, 0, 4};
        refuses("a type", &alone, LGV_TYPE);
        refuses("a type, before the value", &before_value, LGV_TYPE);
        refuses("a type, before value and options", &before_all, LGV_TYPE);
    }
}

static void bad_values(void)
{
    uint32_t bits;

    for (bits = 8; bits < 64; bits *= 2) {
        const uint64_t half = (uint64_t)1 << (bits - 1);
        const struct call unsigned_above = {bits, 0, 2 * half, LGV_DECIMAL, ' ', LGV_UNSET};
        const struct call unsigned_negative = {bits, 0, (uint64_t)-1, LGV_LOWER_HEX, ' ', LGV_UNSET};
        const struct call above = {bits, 1, half, LGV_DECIMAL, ' ', LGV_UNSET};
        const struct call below = {bits, 1, 0 - half - 1, LGV_DECIMAL, ' ', LGV_UNSET};
        const struct call before_options = {bits, 1, half, 7, 0, 4};
        refuses("2^bits unsigned", &unsigned_above, LGV_VALUE);
        refuses("-1 unsigned", &unsigned_negative, LGV_VALUE);
        refuses("one above the largest", &above, LGV_VALUE);
        refuses("one below the smallest", &below, LGV_VALUE);
        refuses("a value, before options", &before_options, LGV_VALUE);
    }
}

static void bad_options(void)
{
    static const uint32_t fills[] = {0, 31, 127, 128, 255, 256 + 32, 65536 + 42, 70000, UINT32_MAX};
    static const uint32_t codes[] = {7, 8, 255, 256, 256 + 1, 65536 + 2, 70000, UINT32_MAX};
    size_t at;

    for (at = 0; at < sizeof fills / sizeof *fills; at++) {
        const struct call call = {8, 0, 5, LGV_DECIMAL, fills[at], LGV_UNSET};
        refuses("a fill that is not used", &call, LGV_OPTIONS);
    }
    for (at = 0; at < sizeof codes / sizeof *codes; at++) {
        const struct call format = {8, 0, 5, codes[at], ' ', LGV_UNSET};
        const struct call align = {8, 0, 5, LGV_DECIMAL, ' ', codes[at] - 3};
        refuses("a format", &format, LGV_OPTIONS);
        if (align.align > LGV_RIGHT)
            refuses("an alignment that is not used", &align, LGV_OPTIONS);
    }
}

static void every_fill(void)
{
    uint32_t byte;

    for (byte = 32; byte <= 126; byte++) {
        char text[] = "...7";
        uint8_t *out = fresh(4);
        memset(text, (int)byte, 3);
        expect("a fill", lgv_write(8, 0, 7, LGV_DECIMAL, 0, 0, 0, byte, LGV_UNSET, 4, 0, 0, out, 4), LGV_DONE, 4, out, 4, text);
    }
}

/* Any number but 0 sets a flag, signedness or "precision given". */
static void wide_flags(void)
{
    static const uint32_t on[] = {1, 2, 128, 256, 65536, 0x80000000, UINT32_MAX};
    size_t at;

    for (at = 0; at < sizeof on / sizeof *on; at++) {
        uint32_t set = on[at];
        uint8_t *out = fresh(ROOM);
        expect("plus", lgv_write(8, 0, 7, LGV_DECIMAL, set, 0, 0, ' ', 0, 0, 0, 0, out, ROOM), LGV_DONE, 2, out, ROOM, "+7");
        out = fresh(ROOM);
        expect("alternate", lgv_write(8, 0, 7, LGV_OCTAL, 0, set, 0, ' ', 0, 0, 0, 0, out, ROOM), LGV_DONE, 3, out, ROOM, "0o7");
        out = fresh(ROOM);
        expect("zero", lgv_write(8, 0, 7, LGV_DECIMAL, 0, 0, set, ' ', 0, 3, 0, 0, out, ROOM), LGV_DONE, 3, out, ROOM, "007");
        out = fresh(ROOM);
        expect("signed", lgv_write(8, set, (uint64_t)-7, LGV_DECIMAL, 0, 0, 0, ' ', 0, 0, 0, 0, out, ROOM), LGV_DONE, 2, out, ROOM, "-7");
        out = fresh(ROOM);
        expect("signed, short", lgv_write_short(8, set, (uint64_t)-7, LGV_DECIMAL, out, ROOM), LGV_DONE, 2, out, ROOM, "-7");
        out = fresh(ROOM);
        expect("precision", lgv_write(8, 0, 75, LGV_LOWER_EXP, 0, 0, 0, ' ', 0, 0, set, 0, out, ROOM), LGV_DONE, 3, out, ROOM, "8e1");
    }
}

/* A precision that is not given does not matter. */
static void no_precision(void)
{
    uint8_t *out = fresh(ROOM);

    expect("none", lgv_write(8, 0, 75, LGV_LOWER_EXP, 0, 0, 0, ' ', 0, 0, 0, 9, out, ROOM), LGV_DONE, 5, out, ROOM, "7.5e1");
}

static void no_buffer(void)
{
    size_t at;

    for (at = 0; at < ROWS; at++)
        expect(table[at].text, write_row(&table[at], NULL, 0), LGV_NO_ROOM, strlen(table[at].text), fresh(0), 0, "");
    expect("short", lgv_write_short(64, 0, 1972, LGV_DECIMAL, NULL, 0), LGV_NO_ROOM, 4, fresh(0), 0, "");
}

static void longest(void)
{
    enum { WIDEST = 65535, LENGTH = 1 + 1 + 1 + WIDEST + 1 + 2 };
    static uint8_t out[LENGTH + 1];
    static const lgv_options precise = {1, 0, 0, 0, 0, 0, WIDEST, 1};
    static const lgv_options wide = {0, 0, 1, 0, 0, WIDEST, 0, 0};
    lgv_answer answer = lgv_write_u64(UINT64_MAX, LGV_LOWER_EXP, precise, out, LENGTH - 1);
    size_t at, zeros;

    check(answer.number == LGV_NO_ROOM && answer.value == LENGTH && out[0] == 0, "65,535 digits and no room");
    answer = lgv_write_u64(UINT64_MAX, LGV_LOWER_EXP, precise, out, sizeof out);
    check(answer.number == LGV_DONE && answer.value == LENGTH, "65,535 digits: %" PRIu64, answer.number);
    check(memcmp(out, "+1.8446744073709551615", 22) == 0 && memcmp(out + LENGTH - 3, "e19", 4) == 0, "both ends of 65,535 digits");
    for (at = 22, zeros = 0; out[at] == '0'; at++)
        zeros++;
    check(zeros == WIDEST - 19, "65,535 digits: %zu zeros", zeros);

    answer = lgv_write_i8(-1, LGV_DECIMAL, wide, out, WIDEST);
    check(answer.number == LGV_DONE && answer.value == WIDEST && out[0] == '-' && out[WIDEST - 1] == '1', "65,535 wide");
    for (at = 1, zeros = 0; out[at] == '0'; at++)
        zeros++;
    check(zeros == WIDEST - 2 && out[WIDEST] == '0', "65,535 wide: %zu zeros", zeros);
}

/* The short form is lgv_write with options of zeros. */
static void short_form(void)
{
    static const lgv_options none = NONE;
    size_t at, len;

    for (at = 0; at < ROWS; at++) {
        const struct row *row = &table[at];
        for (len = 0; len <= ROOM; len++) {
            uint8_t text[ROOM + 1] = {0};
            lgv_answer wanted = lgv_write_with(row->bits, row->is_signed, row->value, row->format, none, text, len);
            uint8_t *out = fresh(len);
            expect(row->text, lgv_write_short(row->bits, row->is_signed, row->value, row->format, out, len), wanted.number,
                   wanted.value, out, len, (const char *)text);
        }
    }
}

/* As lgv_write does: the type first, then the value, the format and the room. */
static void short_form_refuses(void)
{
    uint8_t *out = fresh(3);

    expect("type", lgv_write_short(12, 0, 256, 7, out, 3), LGV_TYPE, 0, out, 3, "");
    expect("value", lgv_write_short(8, 0, 256, 7, out, 3), LGV_VALUE, 0, out, 3, "");
    expect("format", lgv_write_short(16, 0, 1972, 7, out, 3), LGV_OPTIONS, 0, out, 3, "");
    expect("room", lgv_write_short(16, 0, 1972, LGV_DECIMAL, out, 3), LGV_NO_ROOM, 4, out, 3, "");
}

/* The functions for a type, at both of its ends. */
static void typed(void)
{
    static const lgv_options none = NONE;
    uint8_t *out;

#define TYPED(name, smallest, largest, small_text, large_text)                                                        \
    out = fresh(ROOM);                                                                                                \
    expect(#name, lgv_write_##name(smallest, LGV_DECIMAL, none, out, ROOM), 0, strlen(small_text), out, ROOM, small_text); \
    out = fresh(ROOM);                                                                                                \
    expect(#name, lgv_write_##name(largest, LGV_DECIMAL, none, out, ROOM), 0, strlen(large_text), out, ROOM, large_text); \
    out = fresh(ROOM);                                                                                                \
    expect(#name, lgv_write_##name(1, 7, none, out, ROOM), LGV_OPTIONS, 0, out, ROOM, "")
    TYPED(u8, 0, UINT8_MAX, "0", "255");
    TYPED(i8, INT8_MIN, INT8_MAX, "-128", "127");
    TYPED(u16, 0, UINT16_MAX, "0", "65535");
    TYPED(i16, INT16_MIN, INT16_MAX, "-32768", "32767");
    TYPED(u32, 0, UINT32_MAX, "0", "4294967295");
    TYPED(i32, INT32_MIN, INT32_MAX, "-2147483648", "2147483647");
    TYPED(u64, 0, UINT64_MAX, "0", "18446744073709551615");
    TYPED(i64, INT64_MIN, INT64_MAX, "-9223372036854775808", "9223372036854775807");
#undef TYPED

    out = fresh(ROOM);
    expect("i8 in hex", lgv_write_i8(-1, LGV_LOWER_HEX, none, out, ROOM), LGV_DONE, 2, out, ROOM, "ff");
    out = fresh(ROOM);
    expect("i32 in hex", lgv_write_i32(-1, LGV_LOWER_HEX, none, out, ROOM), LGV_DONE, 8, out, ROOM, "ffffffff");
}

int main(void)
{
    run("the trials, every length", trials);
    run("bits that are no type", bad_types);
    run("values outside of the type", bad_values);
    run("options that do not exist", bad_options);
    run("every fill", every_fill);
    run("flags of 32 bits", wide_flags);
    run("a precision that is not given", no_precision);
    run("NULL with length 0", no_buffer);
    run("the widest and the most precise", longest);
    run("the short form", short_form);
    run("what the short form refuses", short_form_refuses);
    run("a function for each type", typed);
    return close_tests("writes");
}
