/* Larguviet: numbers as text, proved. For C99 and later, and for C++.
 *
 *   lgv_write               a number as text, in any format and layout
 *   lgv_write_short         the same without options
 *   lgv_write_u8 .. _i64    lgv_write for a type of C, with a struct of options
 *   lgv_read                a text back to its number
 *   lgv_decimal_end_u64, _i64   plain decimal, at the end of a buffer
 *
 * Every entry works in the bytes that the caller lends it and nowhere else: it
 * allocates nothing, keeps nothing between calls and can be called from any
 * number of tasks at once, if each lends its own bytes. A NULL pointer with
 * length 0 is an empty buffer. No text has a terminating zero byte. */

#ifndef LARGUVIET_H
#define LARGUVIET_H

#include <stddef.h>
#include <stdint.h>

#ifdef __cplusplus
extern "C" {
#endif

/* Formats. */
#define LGV_DECIMAL 0   /* -1972 */
#define LGV_BINARY 1    /* 11110110100; a negative number as its two's complement */
#define LGV_OCTAL 2     /* 3664 */
#define LGV_LOWER_HEX 3 /* 7b4 */
#define LGV_UPPER_HEX 4 /* 7B4 */
#define LGV_LOWER_EXP 5 /* 1.972e3 */
#define LGV_UPPER_EXP 6 /* 1.972E3 */

/* Alignments in a width that the text does not fill. */
#define LGV_UNSET 0 /* as LGV_RIGHT */
#define LGV_LEFT 1
#define LGV_CENTRE 2 /* an odd byte goes behind */
#define LGV_RIGHT 3

/* The numbers of an answer: what each says, and what the answer's value then is. */
#define LGV_DONE 0           /* done: the length of the text, or the number read */
#define LGV_EMPTY 1          /* there is no text to read: 0 */
#define LGV_SHAPE 2          /* not a text of the format: the place where that shows */
#define LGV_NOT_CANONICAL 3  /* a text of the format that is never written: 0 */
#define LGV_RANGE 4          /* the number read is not in the type: 0 */
#define LGV_TYPE 5           /* bits are not 8, 16, 32 or 64: 0 */
#define LGV_OPTIONS 6        /* a format, an alignment or a fill that does not exist: 0 */
#define LGV_VALUE 7          /* the number to write is not in the type: 0 */
#define LGV_NO_ROOM 8        /* the text is longer than the buffer: the length that it needs */
#define LGV_PART 9           /* a part leaves its source; no entry here takes parts */
#define LGV_EXPONENT 10      /* an exponent above 99; no number of 64 bits has one */

/* What the writing entries and lgv_read return. */
typedef struct {
    uint64_t number; /* LGV_DONE, or the refusal */
    uint64_t value;  /* what the number says */
} lgv_answer;

/* Bytes that the longest decimal of each type takes, a minus sign included. */
#define LGV_U8_BUF_SIZE 3
#define LGV_I8_BUF_SIZE 4
#define LGV_U16_BUF_SIZE 5
#define LGV_I16_BUF_SIZE 6
#define LGV_U32_BUF_SIZE 10
#define LGV_I32_BUF_SIZE 11
#define LGV_U64_BUF_SIZE 20
#define LGV_I64_BUF_SIZE 20

/* Writes a number as text at the START of a buffer.
 *
 *   bits, is_signed   the type: 8, 16, 32 or 64 bits; signed if not 0
 *   value             the number; if signed, its 64-bit two's complement
 *   format            LGV_DECIMAL to LGV_UPPER_EXP
 *   plus              if not 0: a '+' in front of what has no '-'
 *   alternate         if not 0: 0b, 0o or 0x in front of the digits of
 *                     LGV_BINARY to LGV_UPPER_HEX
 *   zero              if not 0: zeros fill the width, behind sign and prefix, and
 *                     fill and align have no say
 *   fill              the byte that fills the width otherwise, 32 to 126
 *   align             LGV_UNSET to LGV_RIGHT
 *   width             the least length of the text
 *   has_precision     if not 0, the exponent forms have precision digits behind
 *   precision         the point, rounded to the nearest, ties to even; the other
 *                     formats ignore both
 *   out               out_len bytes, lent for the call
 *
 * If it is done, the text is out[0] to out[value - 1], and bytes behind it are as
 * before. The first that applies of these refuses: LGV_TYPE, LGV_VALUE,
 * LGV_OPTIONS, LGV_NO_ROOM. A code or fill is judged whether or not it has a use
 * in this call. After a refusal every byte is as before.
 *
 *     uint8_t out[8];
 *     lgv_answer answer = lgv_write(32, 1, (uint64_t)-1, LGV_DECIMAL,
 *                                   0, 0, 1, ' ', LGV_UNSET, 8, 0, 0, out, sizeof out);
 *     (-0000001, and answer is LGV_DONE with 8)
 */
lgv_answer lgv_write(uint32_t bits, uint32_t is_signed, uint64_t value, uint32_t format,
                     uint32_t plus, uint32_t alternate, uint32_t zero, uint32_t fill, uint32_t align,
                     uint16_t width, uint32_t has_precision, uint16_t precision, uint8_t *out, size_t out_len);

/* lgv_write without options: no flag, fill a space, align LGV_UNSET, width 0 and no
 * precision. 64 bytes are enough for any number in any format. */
lgv_answer lgv_write_short(uint32_t bits, uint32_t is_signed, uint64_t value, uint32_t format, uint8_t *out, size_t out_len);

/* Reads the number of a text that lgv_write_short writes for the type and format,
 * and of no other: no plus, prefix, padding, leading zero or "-0", and an exponent
 * form without precision.
 *
 *   bits, is_signed   the type, as for lgv_write
 *   format            LGV_DECIMAL to LGV_UPPER_EXP
 *   text              text_len bytes, which are only read
 *
 * If it is done, value is the number; if signed, its 64-bit two's complement, so
 * (int64_t)answer.value. The first that applies of these refuses: LGV_TYPE,
 * LGV_OPTIONS, LGV_EMPTY, LGV_SHAPE, LGV_NOT_CANONICAL, LGV_RANGE. The place that
 * goes with LGV_SHAPE is the offset of the first byte after which the bytes so far
 * begin no text of the format, or text_len if the text merely stops too early.
 *
 *     lgv_read(8, 0, LGV_DECIMAL, text, 3)   "255": LGV_DONE with 255
 *                                            "256": LGV_RANGE
 *                                            "12a": LGV_SHAPE with 2
 */
lgv_answer lgv_read(uint32_t bits, uint32_t is_signed, uint32_t format, const uint8_t *text, size_t text_len);

/* Writes the decimal of a number at the END of a buffer: no leading zeros, "0" for
 * zero, and for a negative number a '-' in front.
 *
 *   value     any number; narrower types widen to it
 *   out       out_len bytes, lent for the call
 *
 * Returns the offset at which the text starts: it is out[start] to
 * out[out_len - 1], so its length is out_len - start. Bytes in front of the text
 * are as before.
 *
 * Refuses if the text is longer than out_len: returns out_len, and every byte is
 * as before. No number has an empty text, so out_len is never the start of one.
 * LGV_U64_BUF_SIZE bytes are enough for any number.
 *
 *     uint8_t out[LGV_I64_BUF_SIZE];
 *     size_t start = lgv_decimal_end_i64(-1972, out, sizeof out);
 *     fwrite(out + start, 1, sizeof out - start, stdout);
 */
size_t lgv_decimal_end_u64(uint64_t value, uint8_t *out, size_t out_len);
size_t lgv_decimal_end_i64(int64_t value, uint8_t *out, size_t out_len);

#ifdef __cplusplus
}
#endif

/* Options for the functions below: those of lgv_write, but a fill of 0 is a space.
 * So whatever is left out is at its default, and all of it in a struct of zeros.
 *
 *     lgv_options const wide = { .zero = 1, .width = 8 };
 *     lgv_answer answer = lgv_write_i32(-1, LGV_DECIMAL, wide, out, sizeof out);
 */
typedef struct {
    uint32_t plus;
    uint32_t alternate;
    uint32_t zero;
    uint32_t fill;
    uint32_t align;
    uint16_t width;
    uint16_t precision;
    uint32_t has_precision;
} lgv_options;

/* lgv_write with a struct of options, and the same for each type: those by type take
 * a value of the type, so none of them refuses with LGV_TYPE or LGV_VALUE. */
static inline lgv_answer lgv_write_with(uint32_t bits, uint32_t is_signed, uint64_t value, uint32_t format,
                                        lgv_options options, uint8_t *out, size_t out_len)
{
    return lgv_write(bits, is_signed, value, format, options.plus, options.alternate, options.zero,
                     options.fill == 0 ? 32 : options.fill, options.align, options.width, options.has_precision,
                     options.precision, out, out_len);
}

static inline lgv_answer lgv_write_u8(uint8_t value, uint32_t format, lgv_options options, uint8_t *out, size_t out_len)
{
    return lgv_write_with(8, 0, value, format, options, out, out_len);
}

static inline lgv_answer lgv_write_i8(int8_t value, uint32_t format, lgv_options options, uint8_t *out, size_t out_len)
{
    return lgv_write_with(8, 1, (uint64_t)value, format, options, out, out_len);
}

static inline lgv_answer lgv_write_u16(uint16_t value, uint32_t format, lgv_options options, uint8_t *out, size_t out_len)
{
    return lgv_write_with(16, 0, value, format, options, out, out_len);
}

static inline lgv_answer lgv_write_i16(int16_t value, uint32_t format, lgv_options options, uint8_t *out, size_t out_len)
{
    return lgv_write_with(16, 1, (uint64_t)value, format, options, out, out_len);
}

static inline lgv_answer lgv_write_u32(uint32_t value, uint32_t format, lgv_options options, uint8_t *out, size_t out_len)
{
    return lgv_write_with(32, 0, value, format, options, out, out_len);
}

static inline lgv_answer lgv_write_i32(int32_t value, uint32_t format, lgv_options options, uint8_t *out, size_t out_len)
{
    return lgv_write_with(32, 1, (uint64_t)value, format, options, out, out_len);
}

static inline lgv_answer lgv_write_u64(uint64_t value, uint32_t format, lgv_options options, uint8_t *out, size_t out_len)
{
    return lgv_write_with(64, 0, value, format, options, out, out_len);
}

static inline lgv_answer lgv_write_i64(int64_t value, uint32_t format, lgv_options options, uint8_t *out, size_t out_len)
{
    return lgv_write_with(64, 1, (uint64_t)value, format, options, out, out_len);
}

#endif
