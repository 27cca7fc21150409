/* Each constant of the header through the archive: a call that must give it or show what it means. LGV_PART and
   LGV_EXPONENT, which no call gives, tests/c/run holds against the crates. C99 and C++. */

#include "check.h"
#include "larguviet.h"

#include <inttypes.h>
#include <string.h>

enum { ROOM = 32 };

static int is(lgv_answer answer, const uint8_t *out, const char *text)
{
    return answer.number == LGV_DONE && answer.value == strlen(text) && memcmp(out, text, strlen(text)) == 0;
}

static void formats(void)
{
    static const struct {
        uint32_t format;
        const char *text;
    } rows[] = {
        {LGV_DECIMAL, "1972"},   {LGV_BINARY, "11110110100"}, {LGV_OCTAL, "3664"},        {LGV_LOWER_HEX, "7b4"},
        {LGV_UPPER_HEX, "7B4"}, {LGV_LOWER_EXP, "1.972e3"},  {LGV_UPPER_EXP, "1.972E3"},
    };
    size_t at;
    uint8_t out[ROOM];

    for (at = 0; at < sizeof rows / sizeof *rows; at++) {
        lgv_answer answer = lgv_write_short(16, 0, 1972, rows[at].format, out, ROOM);
        check(is(answer, out, rows[at].text), "1972 in format %u is not %s", (unsigned)rows[at].format, rows[at].text);
        answer = lgv_read(16, 0, rows[at].format, (const uint8_t *)rows[at].text, strlen(rows[at].text));
        check(answer.number == LGV_DONE && answer.value == 1972, "%s is read as %" PRIu64, rows[at].text, answer.value);
    }
}

static void alignments(void)
{
    static const struct {
        uint32_t align;
        const char *text;
    } rows[] = {{LGV_UNSET, "*****42"}, {LGV_LEFT, "42*****"}, {LGV_CENTRE, "**42***"}, {LGV_RIGHT, "*****42"}};
    size_t at;
    uint8_t out[ROOM];

    for (at = 0; at < sizeof rows / sizeof *rows; at++) {
        const lgv_options options = {0, 0, 0, '*', rows[at].align, 7, 0, 0};
        check(is(lgv_write_u8(42, LGV_DECIMAL, options, out, ROOM), out, rows[at].text), "alignment %u is not %s",
              (unsigned)rows[at].align, rows[at].text);
    }
}

static void gives(lgv_answer answer, uint64_t number, uint64_t value, const char *name)
{
    check(answer.number == number && answer.value == value, "%s is %" PRIu64 " with %" PRIu64 ", and %" PRIu64 " with %" PRIu64
          " is given", name, number, value, answer.number, answer.value);
}

static lgv_answer read_u8(const char *text) { return lgv_read(8, 0, LGV_DECIMAL, (const uint8_t *)text, strlen(text)); }

static void refusals(void)
{
    uint8_t out[ROOM];

    gives(lgv_write_short(8, 0, 42, LGV_DECIMAL, out, ROOM), LGV_DONE, 2, "LGV_DONE");
    gives(lgv_write_short(12, 0, 42, LGV_DECIMAL, out, ROOM), LGV_TYPE, 0, "LGV_TYPE");
    gives(lgv_write_short(8, 0, 256, LGV_DECIMAL, out, ROOM), LGV_VALUE, 0, "LGV_VALUE");
    gives(lgv_write_short(8, 0, 42, LGV_UPPER_EXP + 1, out, ROOM), LGV_OPTIONS, 0, "LGV_OPTIONS");
    gives(lgv_write(8, 0, 42, 0, 0, 0, 0, 32, LGV_RIGHT + 1, 0, 0, 0, out, ROOM), LGV_OPTIONS, 0, "LGV_OPTIONS");
    gives(lgv_write_short(8, 0, 42, LGV_DECIMAL, out, 1), LGV_NO_ROOM, 2, "LGV_NO_ROOM");
    gives(read_u8("42"), LGV_DONE, 42, "LGV_DONE");
    gives(read_u8(""), LGV_EMPTY, 0, "LGV_EMPTY");
    gives(read_u8("4x"), LGV_SHAPE, 1, "LGV_SHAPE");
    gives(read_u8("042"), LGV_NOT_CANONICAL, 0, "LGV_NOT_CANONICAL");
    gives(read_u8("256"), LGV_RANGE, 0, "LGV_RANGE");
    gives(lgv_read(12, 0, LGV_DECIMAL, out, 1), LGV_TYPE, 0, "LGV_TYPE");
    gives(lgv_read(8, 0, LGV_UPPER_EXP + 1, out, 1), LGV_OPTIONS, 0, "LGV_OPTIONS");
}

/* The greatest length that the decimal of a power of ten or of two, one less or their negatives has in a type. */
static uint64_t greatest_length(uint32_t bits, uint32_t is_signed)
{
    uint64_t greatest = 0, power;
    unsigned base, step;

    for (base = 2; base <= 10; base += 8)
        for (power = 1;; power *= base) {
            for (step = 0; step < 4; step++) {
                const uint64_t magnitude = power - step / 2;
                uint8_t out[ROOM];
                lgv_answer answer = lgv_write_short(bits, is_signed, step % 2 ? 0 - magnitude : magnitude, LGV_DECIMAL, out, ROOM);
                if (answer.number == LGV_DONE && answer.value > greatest)
                    greatest = answer.value;
            }
            if (power > UINT64_MAX / base)
                break;
        }
    return greatest;
}

static void sizes(void)
{
    static const struct {
        uint32_t bits, is_signed;
        uint64_t size;
    } types[] = {
        {8, 0, LGV_U8_BUF_SIZE},   {8, 1, LGV_I8_BUF_SIZE},   {16, 0, LGV_U16_BUF_SIZE}, {16, 1, LGV_I16_BUF_SIZE},
        {32, 0, LGV_U32_BUF_SIZE}, {32, 1, LGV_I32_BUF_SIZE}, {64, 0, LGV_U64_BUF_SIZE}, {64, 1, LGV_I64_BUF_SIZE},
    };
    size_t at;

    for (at = 0; at < sizeof types / sizeof *types; at++) {
        const uint64_t greatest = greatest_length(types[at].bits, types[at].is_signed);
        check(greatest == types[at].size, "%u bits, signed %u: %" PRIu64 " bytes, and the header says %" PRIu64,
              (unsigned)types[at].bits, (unsigned)types[at].is_signed, greatest, types[at].size);
    }
}

int main(void)
{
    run("the formats", formats);
    run("the alignments", alignments);
    run("the refusals", refusals);
    run("the buffer sizes", sizes);
    return close_tests("constants");
}
