/* The fuzz target: bytes become calls of lgv_write and lgv_read, which reference.h judges, with every byte of the buffer
   and those beside it. The archive is machine code without counters of its own, so what it answers is counted here: an
   input that draws a new kind of answer is kept and built upon, as is one that takes a new way through the reference. */

#define _DEFAULT_SOURCE
#include "reference.h"

#include <inttypes.h>
#include <stdio.h>
#include <stdlib.h>
#include <sys/mman.h>
#include <unistd.h>

/* Kinds of answers: an entry, a format, a type, a number, and how large the value is. */
enum { ENTRIES = 2, FORMATS = 8, TYPES = 8, NUMBERS = 16, SIZES = 16 };
__attribute__((section("__libfuzzer_extra_counters"))) static uint8_t seen[ENTRIES][FORMATS][TYPES][NUMBERS][SIZES];

static void count_answer(unsigned entry, uint32_t format, uint32_t bits, uint32_t is_signed, lgv_answer answer)
{
    const unsigned type = (bits == 16 ? 2 : bits == 32 ? 4 : bits == 64 ? 6 : 0) + (is_signed != 0);
    unsigned size = 0;

    while (size < SIZES - 1 && answer.value >> (2 * size) != 0)
        size++;
    seen[entry][format < 7 ? format : 7][type][answer.number % NUMBERS][size] = 1;
}

/* What is left of the input; behind its end all bytes are 0. */
struct input {
    const uint8_t *bytes;
    size_t len;
};

static uint64_t take(struct input *input, unsigned count)
{
    uint64_t all = 0;

    for (; count > 0; count--) {
        all = all << 8 | (input->len > 0 ? *input->bytes : 0);
        if (input->len > 0) {
            input->bytes++;
            input->len--;
        }
    }
    return all;
}

/* One of the first few codes, and now and then any number at all. */
static uint32_t take_code(struct input *input, uint32_t known)
{
    const uint8_t byte = (uint8_t)take(input, 1);

    return byte < 250 ? byte % known : (uint32_t)take(input, 4);
}

static uint32_t take_bits(struct input *input)
{
    const uint32_t code = take_code(input, 4);

    return code < 4 ? (uint32_t)8 << code : code;
}

static uint32_t take_flag(struct input *input)
{
    const uint8_t byte = (uint8_t)take(input, 1);

    return byte < 250 ? byte % 2 : (uint32_t)take(input, 4);
}

/* Small ones are the likelier. */
static uint16_t take_length(struct input *input)
{
    const uint8_t byte = (uint8_t)take(input, 1);

    return byte < 254 ? byte % 80 : (uint16_t)take(input, 2);
}

/* A number beside a power of two or ten, with either sign. */
static uint64_t take_limit(struct input *input)
{
    const uint64_t pattern = take(input, 8);
    const unsigned power = (unsigned)(pattern >> 8) % 84;
    const uint64_t limit = (power < 64 ? (uint64_t)1 << power : (uint64_t)ten_to(power - 64)) + pattern % 5 - 2;

    return pattern >> 63 ? 0 - limit : limit;
}

/* A pattern, mostly of the type: of as many low bits as it has, or fewer, with the sign spread above them. */
static uint64_t take_value(struct input *input, uint32_t bits, uint32_t is_signed)
{
    const uint8_t how = (uint8_t)take(input, 1);
    uint64_t pattern;
    unsigned spare;

    if (how % 4 == 3)
        return take_limit(input);
    pattern = take(input, 8);
    if (how >= 250 || bits == 0 || bits > 64)
        return pattern;
    spare = 64 - bits + how / 4 % bits;
    return is_signed ? (uint64_t)((int64_t)(pattern << spare) >> spare) : pattern << spare >> spare;
}

/* The first bytes, for people. */
static void show(const char *what, const uint8_t *bytes, size_t len)
{
    size_t at;

    fprintf(stderr, "%s \"", what);
    for (at = 0; at < len && at < 120; at++)
        fputc(bytes[at] >= 32 && bytes[at] <= 126 ? bytes[at] : '?', stderr);
    fputs(at < len ? "\".." : "\"", stderr);
}

static void stop(lgv_answer given, lgv_answer wanted)
{
    fprintf(stderr, ": %" PRIu64 " with %" PRIu64 ", wanted %" PRIu64 " with %" PRIu64 "\n", given.number, given.value,
            wanted.number, wanted.value);
    abort();
}

/* Pages between two that cannot be touched: no call of the archive is watched but by them. */
enum { ROOM = 2 * 65536 + 4096, WATCHED = 64 };

static uint8_t *pages(void)
{
    static uint8_t *first;

    if (first == NULL) {
        const size_t page = (size_t)sysconf(_SC_PAGESIZE);
        uint8_t *all = mmap(NULL, ROOM + 2 * page, PROT_NONE, MAP_PRIVATE | MAP_ANONYMOUS, -1, 0);
        if (all == MAP_FAILED || mprotect(all + page, ROOM, PROT_READ | PROT_WRITE) != 0) {
            perror("mmap");
            abort();
        }
        first = all + page;
    }
    return first;
}

/* The top bit is set: a byte of no text. */
static uint8_t filler(size_t place) { return (uint8_t)(0x80 | (place * 37 + place / 128)); }

/* Lends len bytes, the first or the last of the pages; they and the bytes on their free side are filled. */
struct loan {
    uint8_t *all, *out;
    size_t all_len, len;
};

static struct loan lend(size_t len, int at_the_end)
{
    struct loan loan;
    size_t at;

    loan.len = len;
    loan.all_len = len + WATCHED;
    loan.all = at_the_end ? pages() + ROOM - loan.all_len : pages();
    loan.out = at_the_end ? loan.all + WATCHED : loan.all;
    for (at = 0; at < loan.all_len; at++)
        loan.all[at] = filler(at);
    return loan;
}

/* Whether the loan has the text at its start and is else as it was. */
static int holds(const struct loan *loan, const uint8_t *text, size_t text_len)
{
    const size_t start = (size_t)(loan->out - loan->all);
    size_t at;

    for (at = 0; at < loan->all_len; at++) {
        const int in_text = at >= start && at - start < text_len;
        if (loan->all[at] != (in_text ? text[at - start] : filler(at)))
            return 0;
    }
    return 1;
}

static void try_write(struct input *input)
{
    static struct text text;
    struct write_call call;
    struct loan loan;
    lgv_answer wanted, given;
    size_t len;
    unsigned room;

    call.bits = take_bits(input);
    call.is_signed = take_flag(input);
    call.value = take_value(input, call.bits, call.is_signed);
    call.format = take_code(input, 7);
    call.plus = take_flag(input);
    call.alternate = take_flag(input);
    call.zero = take_flag(input);
    call.fill = take_code(input, 95) + 32;
    call.align = take_code(input, 4);
    call.width = take_length(input);
    call.has_precision = take_flag(input);
    call.precision = take_length(input);

    /* The length that is needed, one less, one more, or any. */
    wanted_write(&call, SIZE_MAX, &text);
    room = (unsigned)take(input, 1);
    len = room % 4 == 3 ? take_length(input) : text.len + room % 4;
    if (room % 4 < 3 && len > 0)
        len--;

    loan = lend(len, room >= 128);
    wanted = wanted_write(&call, len, &text);
    given = lgv_write(call.bits, call.is_signed, call.value, call.format, call.plus, call.alternate, call.zero, call.fill,
                      call.align, call.width, call.has_precision, call.precision, len == 0 && room >= 192 ? NULL : loan.out,
                      len);
    count_answer(0, call.format, call.bits, call.is_signed, given);
    if (given.number == wanted.number && given.value == wanted.value && holds(&loan, text.bytes, text.len))
        return;
    fprintf(stderr,
            "lgv_write(%" PRIu32 ", %" PRIu32 ", %" PRIu64 ", %" PRIu32 ", %" PRIu32 ", %" PRIu32 ", %" PRIu32 ", %" PRIu32
            ", %" PRIu32 ", %u, %" PRIu32 ", %u) into %zu bytes,",
            call.bits, call.is_signed, call.value, call.format, call.plus, call.alternate, call.zero, call.fill, call.align,
            call.width, call.has_precision, call.precision, len);
    show(" which must have", text.bytes, text.len);
    show(" and are", loan.out, len);
    stop(given, wanted);
}

/* Changes, leaves out, doubles or puts in a byte, or cuts the text. */
static size_t damage(uint8_t *text, size_t len, struct input *input)
{
    const uint8_t how = (uint8_t)take(input, 1);
    const uint8_t byte = (uint8_t)take(input, 1);
    const size_t place = len == 0 ? 0 : (how / 5) % len;

    if (len == 0 || len == LONGEST_READ)
        return len;
    switch (how % 5) {
    case 0:
        text[place] = byte;
        return len;
    case 1:
        memmove(text + place, text + place + 1, len - place - 1);
        return len - 1;
    case 2:
        memmove(text + place + 1, text + place, len - place);
        return len + 1;
    case 3:
        memmove(text + place + 1, text + place, len - place);
        text[place] = byte;
        return len + 1;
    default:
        return place;
    }
}

/* Bytes as they come, or those that matter in some format. */
static size_t take_text(uint8_t *text, struct input *input)
{
    static const char matter[] = "0123456789abcdefABCDEF.-+xobeE0099";
    const uint8_t how = (uint8_t)take(input, 1);
    size_t len = 0;

    while (input->len > 0 && len < LONGEST_READ) {
        const uint8_t byte = (uint8_t)take(input, 1);
        text[len++] = how < 64 ? byte : (uint8_t)matter[byte % (sizeof matter - 1)];
    }
    return len;
}

/* The plain text of a number of the type, or of one of 64 bits, with up to three faults. */
static size_t take_damaged(uint8_t *text, uint32_t bits, uint32_t is_signed, uint32_t format, struct input *input)
{
    static struct text written;
    struct write_call call = {0};
    const unsigned how = (unsigned)take(input, 1);
    unsigned faults = how % 4;
    size_t len;

    call.bits = is_type(bits) && how < 128 ? bits : 64;
    call.is_signed = is_signed;
    call.value = take_value(input, call.bits, is_signed);
    call.format = format < 7 ? format : LGV_DECIMAL;
    call.fill = 32;
    wanted_write(&call, SIZE_MAX, &written);
    len = written.len;
    memcpy(text, written.bytes, len);
    for (; faults > 0; faults--)
        len = damage(text, len, input);
    return len;
}

static void try_read(struct input *input, int made)
{
    uint8_t text[LONGEST_READ];
    const uint32_t bits = take_bits(input);
    const uint32_t is_signed = take_flag(input);
    const uint32_t format = take_code(input, 7);
    const int at_the_end = take(input, 1) % 2 == 0;
    const size_t len = made ? take_damaged(text, bits, is_signed, format, input) : take_text(text, input);
    const lgv_answer wanted = wanted_read(bits, is_signed != 0, format, text, len);
    struct loan loan = lend(len, at_the_end);
    lgv_answer given;

    if (len > 0)
        memcpy(loan.out, text, len);
    given = lgv_read(bits, is_signed, format, len == 0 && at_the_end ? NULL : loan.out, len);
    count_answer(1, format, bits, is_signed, given);
    if (given.number == wanted.number && given.value == wanted.value && holds(&loan, text, len))
        return;
    fprintf(stderr, "lgv_read(%" PRIu32 ", %" PRIu32 ", %" PRIu32, bits, is_signed, format);
    show(",", text, len);
    fputs(holds(&loan, text, len) ? ")" : "), which has changed", stderr);
    stop(given, wanted);
}

int LLVMFuzzerTestOneInput(const uint8_t *bytes, size_t len);
int LLVMFuzzerTestOneInput(const uint8_t *bytes, size_t len)
{
    struct input input = {bytes, len};

    switch (take(&input, 1) % 3) {
    case 0:
        try_write(&input);
        break;
    case 1:
        try_read(&input, 0);
        break;
    default:
        try_read(&input, 1);
    }
    return 0;
}
