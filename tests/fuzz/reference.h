/* What lgv_write and lgv_read must answer, from the rules of document 01 alone: simple, slow, and made without a look at
   the archive's code or at the oracle's judge. Numbers of 128 bits hold every step. */

#ifndef REFERENCE_H
#define REFERENCE_H

#include "larguviet.h"

#include <string.h>

__extension__ typedef unsigned __int128 wide;
__extension__ typedef __int128 wide_signed;

/* Sign, a digit, a point, 65,535 digits, the letter, two digits; or a width of 65,535. */
enum { LONGEST_TEXT = 65535 + 6 };

struct text {
    size_t len;
    uint8_t bytes[LONGEST_TEXT];
};

static void put(struct text *text, char byte) { text->bytes[text->len++] = (uint8_t)byte; }

static void put_many(struct text *text, char byte, size_t count)
{
    while (count-- > 0)
        put(text, byte);
}

static void put_all(struct text *text, const struct text *other)
{
    size_t at;

    for (at = 0; at < other->len; at++)
        put(text, (char)other->bytes[at]);
}

/* Types. */

static int is_type(uint32_t bits) { return bits == 8 || bits == 16 || bits == 32 || bits == 64; }

static int in_range(uint32_t bits, int is_signed, wide_signed number)
{
    const wide_signed whole = (wide_signed)1 << bits;

    return is_signed ? -whole / 2 <= number && number < whole / 2 : 0 <= number && number < whole;
}

/* The number that a 64-bit pattern means. */
static wide_signed number_of(int is_signed, uint64_t pattern)
{
    return is_signed ? (wide_signed)(int64_t)pattern : (wide_signed)pattern;
}

/* Digits. */

static unsigned base_of(uint32_t format)
{
    static const unsigned bases[] = {10, 2, 8, 16, 16, 10, 10};

    return bases[format];
}

static int is_exponent_form(uint32_t format) { return format == LGV_LOWER_EXP || format == LGV_UPPER_EXP; }

static char letter_of(uint32_t format) { return format == LGV_LOWER_EXP ? 'e' : 'E'; }

static void put_digits(struct text *text, wide number, unsigned base, const char *alphabet)
{
    if (number >= base)
        put_digits(text, number / base, base, alphabet);
    put(text, alphabet[number % base]);
}

static wide ten_to(unsigned power)
{
    wide all = 1;

    while (power-- > 0)
        all *= 10;
    return all;
}

/* The exponent of a number: one less than its decimal digits. */
static unsigned exponent_of(wide number)
{
    unsigned power = 0;

    while (number >= ten_to(power + 1))
        power++;
    return power;
}

/* All digits of number, a point behind the first if there are more or zeros behind them, zeros, letter and exponent. */
static void put_exponent_form(struct text *text, wide number, size_t zeros, uint32_t format, unsigned exponent)
{
    static struct text digits;
    size_t at;

    digits.len = 0;
    put_digits(&digits, number, 10, "0123456789");
    put_many(&digits, '0', zeros);
    for (at = 0; at < digits.len; at++) {
        if (at == 1)
            put(text, '.');
        put(text, (char)digits.bytes[at]);
    }
    put(text, letter_of(format));
    put_digits(text, exponent, 10, "0123456789");
}

static void put_shortest(struct text *text, wide number, uint32_t format)
{
    const unsigned exponent = exponent_of(number);

    while (number >= 10 && number % 10 == 0)
        number /= 10;
    put_exponent_form(text, number, 0, format, exponent);
}

static void put_rounded(struct text *text, wide number, unsigned precision, uint32_t format)
{
    const unsigned exponent = exponent_of(number);
    wide scale, quotient, rest;

    if (precision >= exponent) {
        put_exponent_form(text, number, precision - exponent, format, exponent);
        return;
    }
    scale = ten_to(exponent - precision);
    quotient = number / scale;
    rest = number % scale;
    if (rest > scale / 2 || (rest == scale / 2 && quotient % 2 == 1))
        quotient += 1;
    if (quotient == ten_to(precision + 1))
        put_exponent_form(text, ten_to(precision), 0, format, exponent + 1);
    else
        put_exponent_form(text, quotient, 0, format, exponent);
}

/* Writing. */

struct write_call {
    uint32_t bits, is_signed;
    uint64_t value;
    uint32_t format, plus, alternate, zero, fill, align;
    uint16_t width;
    uint32_t has_precision;
    uint16_t precision;
};

/* The text of a call that only the room can refuse. */
static void put_text(struct text *text, const struct write_call *call)
{
    static struct text front, digits;
    const wide_signed number = number_of(call->is_signed != 0, call->value);
    const int by_sign = call->format == LGV_DECIMAL || is_exponent_form(call->format);
    const wide magnitude = number < 0 ? (wide)-number : (wide)number;
    size_t rest, before;

    front.len = digits.len = 0;
    if (by_sign && number < 0)
        put(&front, '-');
    else if (call->plus)
        put(&front, '+');
    if (call->alternate && !by_sign) {
        put(&front, '0');
        put(&front, " boxx"[call->format]);
    }
    if (is_exponent_form(call->format) && call->has_precision)
        put_rounded(&digits, magnitude, call->precision, call->format);
    else if (is_exponent_form(call->format))
        put_shortest(&digits, magnitude, call->format);
    else if (call->format == LGV_DECIMAL)
        put_digits(&digits, magnitude, 10, "0123456789");
    else
        put_digits(&digits, (wide)call->value % ((wide)1 << call->bits), base_of(call->format),
                   call->format == LGV_UPPER_HEX ? "0123456789ABCDEF" : "0123456789abcdef");

    rest = front.len + digits.len < call->width ? call->width - front.len - digits.len : 0;
    before = call->align == LGV_LEFT ? 0 : call->align == LGV_CENTRE ? rest / 2 : rest;
    if (call->zero) {
        put_all(text, &front);
        put_many(text, '0', rest);
        put_all(text, &digits);
    } else {
        put_many(text, (char)call->fill, before);
        put_all(text, &front);
        put_all(text, &digits);
        put_many(text, (char)call->fill, rest - before);
    }
}

static lgv_answer answer_of(uint64_t number, uint64_t value)
{
    lgv_answer answer;

    answer.number = number;
    answer.value = value;
    return answer;
}

/* What a call into len bytes must answer; the text that must then stand at the start of them. */
static lgv_answer wanted_write(const struct write_call *call, size_t len, struct text *text)
{
    size_t needed;

    text->len = 0;
    if (!is_type(call->bits))
        return answer_of(LGV_TYPE, 0);
    if (!in_range(call->bits, call->is_signed != 0, number_of(call->is_signed != 0, call->value)))
        return answer_of(LGV_VALUE, 0);
    if (call->format > 6 || call->align > 3 || call->fill < 32 || call->fill > 126)
        return answer_of(LGV_OPTIONS, 0);
    put_text(text, call);
    needed = text->len;
    if (needed <= len)
        return answer_of(LGV_DONE, needed);
    text->len = 0;
    return answer_of(LGV_NO_ROOM, needed);
}

/* Reading. */

/* A text of the shape, in its pieces; without a point the fraction is empty. */
struct pieces {
    int minus;
    const uint8_t *lead, *fraction, *exponent;
    size_t lead_len, fraction_len, exponent_len;
};

/* What a byte is worth as a digit; the base if it is none. */
static unsigned digit_of(uint8_t byte, uint32_t format)
{
    const unsigned base = base_of(format);
    const uint8_t ten = format == LGV_UPPER_HEX ? 'A' : 'a';
    unsigned worth = base;

    if (byte >= '0' && byte <= '9')
        worth = byte - (unsigned)'0';
    else if (byte >= ten && byte < ten + 6)
        worth = 10 + byte - (unsigned)ten;
    return worth < base ? worth : base;
}

/* How many digits stand in front. */
static size_t run_of_digits(const uint8_t *text, size_t len, uint32_t format)
{
    size_t count = 0;

    while (count < len && digit_of(text[count], format) < base_of(format))
        count++;
    return count;
}

static int shaped(int is_signed, uint32_t format, const uint8_t *text, size_t len, struct pieces *to)
{
    const uint8_t *const end = text + len;

    memset(to, 0, sizeof *to);
    if (is_signed && (format == LGV_DECIMAL || is_exponent_form(format)) && text < end && *text == '-') {
        to->minus = 1;
        text++;
    }
    to->lead = text;
    to->lead_len = run_of_digits(text, (size_t)(end - text), format);
    text += to->lead_len;
    if (!is_exponent_form(format))
        return to->lead_len >= 1 && text == end;
    if (text < end && *text == '.') {
        to->fraction = ++text;
        to->fraction_len = run_of_digits(text, (size_t)(end - text), format);
        text += to->fraction_len;
        if (to->fraction_len == 0)
            return 0;
    }
    if (to->lead_len != 1 || text == end || *text != letter_of(format))
        return 0;
    to->exponent = ++text;
    to->exponent_len = run_of_digits(text, (size_t)(end - text), format);
    text += to->exponent_len;
    return (to->exponent_len == 1 || to->exponent_len == 2) && text == end;
}

enum { LONGEST_READ = 1024 };

/* Whether a text of the shape begins so: what begins one lacks at most a digit, letter and exponent, or both. */
static int begins(int is_signed, uint32_t format, const uint8_t *text, size_t len)
{
    static const char *const endings[] = {"", "0", "e0", "E0", "0e0", "0E0"};
    uint8_t whole[LONGEST_READ + 3];
    struct pieces pieces;
    size_t at;

    memcpy(whole, text, len);
    for (at = 0; at < sizeof endings / sizeof *endings; at++) {
        memcpy(whole + len, endings[at], strlen(endings[at]));
        if (shaped(is_signed, format, whole, len + strlen(endings[at]), &pieces))
            return 1;
    }
    return 0;
}

static size_t place_of(int is_signed, uint32_t format, const uint8_t *text, size_t len)
{
    size_t at;

    for (at = 0; at < len; at++)
        if (!begins(is_signed, format, text, at + 1))
            return at;
    return len;
}

/* The number that digits give behind those of sum. Above 2^100 it stays what it is, beyond every type. */
static wide more_digits(wide sum, const uint8_t *digits, size_t len, uint32_t format)
{
    size_t at;

    for (at = 0; at < len; at++)
        if (sum < (wide)1 << 100)
            sum = sum * base_of(format) + digit_of(digits[at], format);
    return sum;
}

/* The digits of a text without its point, as one number. */
static wide coefficient(const struct pieces *pieces, uint32_t format)
{
    const wide lead = more_digits(0, pieces->lead, pieces->lead_len, format);

    return more_digits(lead, pieces->fraction, pieces->fraction_len, format);
}

static int canonical(const struct pieces *pieces, uint32_t format)
{
    const size_t power = (size_t)more_digits(0, pieces->exponent, pieces->exponent_len, format);

    if (pieces->minus && coefficient(pieces, format) == 0)
        return 0;
    if (!is_exponent_form(format))
        return pieces->lead_len == 1 || pieces->lead[0] != '0';
    if (pieces->lead[0] == '0' && !(pieces->fraction_len == 0 && pieces->exponent_len == 1 && pieces->exponent[0] == '0'))
        return 0;
    if (pieces->fraction_len > 0 && pieces->fraction[pieces->fraction_len - 1] == '0')
        return 0;
    if (pieces->exponent_len == 2 && pieces->exponent[0] == '0')
        return 0;
    return power >= pieces->fraction_len;
}

/* The magnitude of a canonical text. */
static wide magnitude_of(const struct pieces *pieces, uint32_t format)
{
    const size_t power = (size_t)more_digits(0, pieces->exponent, pieces->exponent_len, format);
    wide magnitude = coefficient(pieces, format);
    size_t zeros;

    for (zeros = power - pieces->fraction_len; is_exponent_form(format) && zeros > 0; zeros--)
        magnitude = more_digits(magnitude, (const uint8_t *)"0", 1, format);
    return magnitude;
}

static lgv_answer wanted_read(uint32_t bits, int is_signed, uint32_t format, const uint8_t *text, size_t len)
{
    struct pieces pieces;
    wide_signed number;

    if (!is_type(bits))
        return answer_of(LGV_TYPE, 0);
    if (format > 6)
        return answer_of(LGV_OPTIONS, 0);
    if (len == 0)
        return answer_of(LGV_EMPTY, 0);
    if (!shaped(is_signed, format, text, len, &pieces))
        return answer_of(LGV_SHAPE, place_of(is_signed, format, text, len));
    if (!canonical(&pieces, format))
        return answer_of(LGV_NOT_CANONICAL, 0);
    number = (wide_signed)magnitude_of(&pieces, format);
    if (pieces.minus)
        number = -number;
    if (format >= LGV_BINARY && format <= LGV_UPPER_HEX) {
        const wide_signed whole = (wide_signed)1 << bits;
        if (number >= whole)
            return answer_of(LGV_RANGE, 0);
        if (is_signed && number >= whole / 2)
            number -= whole;
    }
    if (!in_range(bits, is_signed, number))
        return answer_of(LGV_RANGE, 0);
    return answer_of(LGV_DONE, (uint64_t)number);
}

#endif
