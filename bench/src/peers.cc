// The peers in C and C++. A writer writes the text into the caller's bytes and gives its length, fmt's 0 where its
// header is not installed; a reader gives the number.

#include <charconv>
#include <cinttypes>
#include <cstddef>
#include <cstdint>
#include <cstdio>
#include <cstdlib>
#include <cstring>

#if __has_include(<fmt/format.h>)
#define FMT_HEADER_ONLY
#include <fmt/compile.h>
#include <fmt/format.h>
template <typename number> static size_t fmt_decimal(number value, char *out) {
    fmt::format_int text(value);
    memcpy(out, text.data(), text.size());
    return text.size();
}
#define FMT_LENGTH(format, value, out) (fmt::format_to(out, FMT_COMPILE(format), value) - out)
#else
template <typename number> static size_t fmt_decimal(number, char *) { return 0; }
#define FMT_LENGTH(format, value, out) ((void)(value), (void)(out), 0)
#endif

template <typename number> static size_t to_chars(number value, char *out, size_t len, int base) {
    return std::to_chars(out, out + len, value, base).ptr - out;
}

static uint64_t from_chars(const char *text, size_t len, int base) {
    uint64_t value = 0;
    std::from_chars(text, text + len, value, base);
    return value;
}

extern "C" {
size_t peer_to_chars_u64(uint64_t value, char *out, size_t len) { return std::to_chars(out, out + len, value).ptr - out; }
size_t peer_to_chars_i64(int64_t value, char *out, size_t len) { return std::to_chars(out, out + len, value).ptr - out; }
size_t peer_to_chars_hex(uint64_t value, char *out, size_t len) { return to_chars(value, out, len, 16); }
size_t peer_to_chars_octal(uint64_t value, char *out, size_t len) { return to_chars(value, out, len, 8); }
size_t peer_to_chars_binary(uint64_t value, char *out, size_t len) { return to_chars(value, out, len, 2); }

size_t peer_snprintf_u64(uint64_t value, char *out, size_t len) { return snprintf(out, len, "%" PRIu64, value); }
size_t peer_snprintf_i64(int64_t value, char *out, size_t len) { return snprintf(out, len, "%" PRId64, value); }
size_t peer_snprintf_hex(uint64_t value, char *out, size_t len) { return snprintf(out, len, "%" PRIx64, value); }
size_t peer_snprintf_octal(uint64_t value, char *out, size_t len) { return snprintf(out, len, "%" PRIo64, value); }
size_t peer_snprintf_prefix(uint64_t value, char *out, size_t len) { return snprintf(out, len, "%#" PRIx64, value); }
size_t peer_snprintf_plus_zero(int64_t value, char *out, size_t len) { return snprintf(out, len, "%+012" PRId64, value); }
size_t peer_snprintf_exponent(uint64_t value, char *out, size_t len) {
    return snprintf(out, len, "%.3Le", static_cast<long double>(value));
}
size_t peer_snprintf_width(uint64_t value, uint32_t width, char *out, size_t len) {
    return snprintf(out, len, "%*" PRIu64, static_cast<int>(width), value);
}
size_t peer_snprintf_precision(uint64_t value, uint32_t precision, char *out, size_t len) {
    return snprintf(out, len, "%.*Le", static_cast<int>(precision), static_cast<long double>(value));
}

size_t peer_fmt_u64(uint64_t value, char *out, size_t) { return fmt_decimal(value, out); }
size_t peer_fmt_i64(int64_t value, char *out, size_t) { return fmt_decimal(value, out); }
size_t peer_fmt_plain(uint64_t value, char *out, size_t) { return FMT_LENGTH("{}", value, out); }
size_t peer_fmt_hex(uint64_t value, char *out, size_t) { return FMT_LENGTH("{:x}", value, out); }
size_t peer_fmt_octal(uint64_t value, char *out, size_t) { return FMT_LENGTH("{:o}", value, out); }
size_t peer_fmt_binary(uint64_t value, char *out, size_t) { return FMT_LENGTH("{:b}", value, out); }
size_t peer_fmt_prefix(uint64_t value, char *out, size_t) { return FMT_LENGTH("{:#x}", value, out); }
size_t peer_fmt_plus_zero(int64_t value, char *out, size_t) { return FMT_LENGTH("{:+012}", value, out); }

uint64_t peer_from_chars(const char *text, size_t len) { return from_chars(text, len, 10); }
uint64_t peer_from_chars_hex(const char *text, size_t len) { return from_chars(text, len, 16); }
uint64_t peer_strtoull(const char *text, size_t) { return strtoull(text, nullptr, 10); }
uint64_t peer_strtoull_hex(const char *text, size_t) { return strtoull(text, nullptr, 16); }
uint64_t peer_strtold(const char *text, size_t) { return static_cast<uint64_t>(strtold(text, nullptr)); }
}
