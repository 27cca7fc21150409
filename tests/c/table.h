/* The trials of the rules: a call of lgv_write for each row, with its text. C99 and C++. */

#ifndef TABLE_H
#define TABLE_H

#include "larguviet.h"

struct row {
    uint32_t bits, is_signed;
    uint64_t value;
    uint32_t format;
    lgv_options options;
    const char *text;
};

/* Options in the order of the struct, as C++11 has no names here. */
#define NONE {0, 0, 0, 0, 0, 0, 0, 0}
#define PLUS {1, 0, 0, 0, 0, 0, 0, 0}
#define ALTERNATE {0, 1, 0, 0, 0, 0, 0, 0}
#define ZERO(width) {0, 0, 1, 0, 0, width, 0, 0}
#define WIDTH(fill, align, width) {0, 0, 0, fill, align, width, 0, 0}
#define PRECISION(digits) {0, 0, 0, 0, 0, 0, digits, 1}

static const struct row table[] = {
    {8, 0, 0, LGV_DECIMAL, NONE, "0"},
    {32, 1, (uint64_t)-1972, LGV_DECIMAL, NONE, "-1972"},
    {64, 1, (uint64_t)INT64_MIN, LGV_DECIMAL, NONE, "-9223372036854775808"},
    {8, 1, (uint64_t)-1, LGV_LOWER_HEX, PLUS, "+ff"},
    {8, 0, 255, LGV_UPPER_HEX, ALTERNATE, "0xFF"},
    {8, 0, 5, LGV_BINARY, {0, 1, 1, 0, 0, 10, 0, 0}, "0b00000101"},
    {32, 1, (uint64_t)-1, LGV_DECIMAL, ZERO(8), "-0000001"},
    {8, 0, 42, LGV_DECIMAL, WIDTH('*', LGV_CENTRE, 7), "**42***"},
    {64, 0, 0, LGV_LOWER_EXP, PRECISION(2), "0.00e0"},
    {64, 0, 15, LGV_LOWER_EXP, PRECISION(0), "2e1"},
    {64, 0, 25, LGV_LOWER_EXP, PRECISION(0), "2e1"},
    {64, 0, 95, LGV_LOWER_EXP, PRECISION(0), "1e2"},
    {64, 0, 9995, LGV_LOWER_EXP, PRECISION(2), "1.00e4"},
    {64, 0, UINT64_MAX, LGV_LOWER_EXP, PRECISION(0), "2e19"},
    {64, 0, 12345, LGV_LOWER_EXP, PRECISION(2), "1.23e4"},
    {64, 0, 12350, LGV_LOWER_EXP, PRECISION(2), "1.24e4"},
    {64, 0, 1200, LGV_LOWER_EXP, ZERO(8), "0001.2e3"},
    {32, 0, 1972, LGV_DECIMAL, NONE, "1972"},
    /* The slips. */
    {64, 0, 1459, LGV_LOWER_EXP, PRECISION(0), "1e3"},
    {64, 1, (uint64_t)INT64_MIN, LGV_LOWER_EXP, NONE, "-9.223372036854775808e18"},
    {8, 1, (uint64_t)-1, LGV_UPPER_HEX, {0, 1, 1, 0, 0, 6, 0, 0}, "0x00FF"},
    /* What no row above has. */
    {8, 1, (uint64_t)-128, LGV_OCTAL, ALTERNATE, "0o200"},
    {64, 0, UINT64_MAX, LGV_BINARY, NONE, "1111111111111111111111111111111111111111111111111111111111111111"},
    {16, 0, 1972, LGV_UPPER_EXP, {1, 1, 0, 0, 0, 0, 0, 0}, "+1.972E3"},
    {16, 0, 0, LGV_UPPER_EXP, NONE, "0E0"},
    {16, 1, (uint64_t)-7, LGV_DECIMAL, WIDTH('~', LGV_LEFT, 5), "-7~~~"},
    {16, 1, (uint64_t)-7, LGV_DECIMAL, WIDTH('~', LGV_RIGHT, 5), "~~~-7"},
    {16, 1, (uint64_t)-7, LGV_DECIMAL, WIDTH(' ', LGV_UNSET, 5), "   -7"},
    {16, 0, 1972, LGV_DECIMAL, {1, 1, 1, '*', LGV_LEFT, 7, 3, 1}, "+001972"},
};

enum { ROWS = sizeof table / sizeof *table };

#endif
