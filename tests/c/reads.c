/* The reader from C: the trials, every refusal and their order, texts between pages that cannot be touched, and what
   lgv_write_short wrote. C99 and C++. */

#include "check.h"
#include "larguviet.h"

#include <inttypes.h>
#include <string.h>

enum { LONGEST = 70 };

struct row {
    uint32_t bits, is_signed, format;
    const char *text;
    uint64_t number, value;
};

static const struct row table[] = {
    {8, 0, LGV_DECIMAL, "255", LGV_DONE, 255},
    {8, 0, LGV_DECIMAL, "256", LGV_RANGE, 0},
    {8, 0, LGV_DECIMAL, "007", LGV_NOT_CANONICAL, 0},
    {8, 1, LGV_DECIMAL, "-128", LGV_DONE, (uint64_t)-128},
    {8, 1, LGV_DECIMAL, "-129", LGV_RANGE, 0},
    {8, 1, LGV_DECIMAL, "-0", LGV_NOT_CANONICAL, 0},
    {8, 1, LGV_DECIMAL, "-", LGV_SHAPE, 1},
    {8, 0, LGV_DECIMAL, "-1", LGV_SHAPE, 0},
    {8, 0, LGV_DECIMAL, "12a", LGV_SHAPE, 2},
    {8, 0, LGV_DECIMAL, "", LGV_EMPTY, 0},
    {64, 0, LGV_LOWER_EXP, "1e19", LGV_DONE, 10000000000000000000u},
    {64, 0, LGV_LOWER_EXP, "1e20", LGV_RANGE, 0},
    {64, 0, LGV_LOWER_EXP, "1.5e", LGV_SHAPE, 4},
    /* What no row above has. */
    {8, 1, LGV_BINARY, "11111111", LGV_DONE, UINT64_MAX},
    {8, 1, LGV_BINARY, "100000000", LGV_RANGE, 0},
    {8, 1, LGV_BINARY, "-1", LGV_SHAPE, 0},
    {16, 0, LGV_OCTAL, "177777", LGV_DONE, UINT16_MAX},
    {16, 0, LGV_OCTAL, "178", LGV_SHAPE, 2},
    {32, 1, LGV_LOWER_HEX, "80000000", LGV_DONE, (uint64_t)INT32_MIN},
    {32, 1, LGV_LOWER_HEX, "8000000G", LGV_SHAPE, 7},
    {32, 0, LGV_LOWER_HEX, "FF", LGV_SHAPE, 0},
    {32, 0, LGV_UPPER_HEX, "0FF", LGV_NOT_CANONICAL, 0},
    {32, 0, LGV_UPPER_HEX, "0xFF", LGV_SHAPE, 1},
    {64, 1, LGV_LOWER_EXP, "-9.223372036854775808e18", LGV_DONE, (uint64_t)INT64_MIN},
    {64, 1, LGV_LOWER_EXP, "9.223372036854775808e18", LGV_RANGE, 0},
    {64, 1, LGV_UPPER_EXP, "0E0", LGV_DONE, 0},
    {64, 1, LGV_UPPER_EXP, "-0E0", LGV_NOT_CANONICAL, 0},
    {64, 1, LGV_UPPER_EXP, "1e0", LGV_SHAPE, 1},
    {64, 0, LGV_LOWER_EXP, "0e1", LGV_NOT_CANONICAL, 0},
    {64, 0, LGV_LOWER_EXP, "1.50e3", LGV_NOT_CANONICAL, 0},
    {64, 0, LGV_LOWER_EXP, "1e01", LGV_NOT_CANONICAL, 0},
    {64, 0, LGV_LOWER_EXP, "1.25e1", LGV_NOT_CANONICAL, 0},
    {64, 0, LGV_LOWER_EXP, "1.e1", LGV_SHAPE, 2},
    {64, 0, LGV_LOWER_EXP, "12e1", LGV_SHAPE, 1},
    {64, 0, LGV_LOWER_EXP, "1e100", LGV_SHAPE, 4},
    {64, 0, LGV_DECIMAL, "18446744073709551615", LGV_DONE, UINT64_MAX},
    {64, 0, LGV_DECIMAL, "18446744073709551616", LGV_RANGE, 0},
    {64, 0, LGV_DECIMAL, "99999999999999999999999999999999999999999999999999999999999999", LGV_RANGE, 0},
    /* The call before the text. */
    {12, 0, 7, "", LGV_TYPE, 0},
    {256 + 8, 0, LGV_DECIMAL, "1", LGV_TYPE, 0},
    {8, 0, 7, "", LGV_OPTIONS, 0},
    {8, 0, 256, "1", LGV_OPTIONS, 0},
    {8, 0, 70000, "x", LGV_OPTIONS, 0},
};

enum { ROWS = sizeof table / sizeof *table };

static void expect(const struct row *row, lgv_answer answer)
{
    check(answer.number == row->number && answer.value == row->value,
          "\"%s\": %" PRIu64 " with %" PRIu64 ", wanted %" PRIu64 " with %" PRIu64, row->text, answer.number, answer.value,
          row->number, row->value);
}

static lgv_answer read_row(const struct row *row, const uint8_t *text)
{
    return lgv_read(row->bits, row->is_signed, row->format, text, strlen(row->text));
}

/* The last byte of the text is the last, or its first byte the first, that can be touched. */
static void between_guards(void)
{
    size_t size, at;
    uint8_t *page = guarded_page(&size);

    for (at = 0; at < ROWS; at++) {
        size_t len = strlen(table[at].text);
        uint8_t *places[2];
        int side;
        places[0] = page;
        places[1] = page + size - len;
        for (side = 0; side < 2; side++) {
            memcpy(places[side], table[at].text, len);
            expect(&table[at], read_row(&table[at], places[side]));
            check(memcmp(places[side], table[at].text, len) == 0, "\"%s\" has changed", table[at].text);
        }
    }
}

static void no_text(void)
{
    check(lgv_read(64, 0, LGV_DECIMAL, NULL, 0).number == LGV_EMPTY, "NULL");
    check(lgv_read(64, 0, 7, NULL, 0).number == LGV_OPTIONS, "NULL in no format");
    check(lgv_read(63, 0, 7, NULL, 0).number == LGV_TYPE, "NULL as no type");
}

static void wide_sign(void)
{
    static const uint32_t on[] = {1, 2, 256, 65536, 0x80000000, UINT32_MAX};
    const uint8_t text[] = {'-', '7'};
    size_t at;

    for (at = 0; at < sizeof on / sizeof *on; at++)
        check(lgv_read(8, on[at], LGV_DECIMAL, text, 2).value == (uint64_t)-7, "signed by %u", (unsigned)on[at]);
}

/* Every digit of the type in turn: what is written is read, and every shorter piece of it is read or refused by itself. */
static void written(void)
{
    size_t size;
    uint8_t *end = guarded_page(&size) + size;
    uint32_t bits, is_signed, format;
    unsigned shift;

    for (bits = 8; bits <= 64; bits *= 2)
        for (is_signed = 0; is_signed <= 1; is_signed++)
            for (format = LGV_DECIMAL; format <= LGV_UPPER_EXP; format++)
                for (shift = 64 - bits + is_signed; shift < 64; shift++) {
                    uint64_t value = UINT64_C(0xb504f333f9de6484) >> shift;
                    uint64_t number = is_signed && shift % 2 ? 0 - value : value;
                    uint8_t text[LONGEST];
                    lgv_answer answer = lgv_write_short(bits, is_signed, number, format, text, sizeof text);
                    size_t len = (size_t)answer.value, piece;
                    check(answer.number == LGV_DONE, "%" PRIu64 " of %u bits is not written", number, (unsigned)bits);
                    for (piece = 0; piece <= len; piece++) {
                        memcpy(end - piece, text, piece);
                        answer = lgv_read(bits, is_signed, format, end - piece, piece);
                    }
                    check(answer.number == LGV_DONE && answer.value == number, "\"%.*s\" is read as %" PRIu64 " with %" PRIu64,
                          (int)len, (const char *)text, answer.number, answer.value);
                }
}

int main(void)
{
    run("the trials, between guard pages", between_guards);
    run("NULL with length 0", no_text);
    run("signed by any number but 0", wide_sign);
    run("what was written, and its pieces", written);
    return close_tests("reads");
}
