// booth-list above read_digits and put_hex: reads ASCII frames from standard input and prints a line for each.

#include <inttypes.h>
#include <stdio.h>
#include <unistd.h>

#include "ascii.h"

enum { CHUNK = 65536 };

// A line is at most 5/3 as long as its frame: `:000000` CR LF gives `simple 00 00 -` LF.
static uint8_t input[MAX_ASCII + CHUNK + SLACK];
static char output[2 * (MAX_ASCII + CHUNK) + SLACK];

static inline char *put_text(char *at, const char *text)
{
    size_t n = strlen(text);
    memcpy(at, text, n);
    return at + n;
}

static inline char *put_field(char *at, const uint8_t *bytes, size_t n)
{
    *at = ' ';
    return put_hex(at + 1, bytes, n);
}

static inline char *put_data(char *at, const uint8_t *bytes, size_t n)
{
    return n == 0 ? put_text(at, " -\n") : put_text(put_field(at, bytes, n), "\n");
}

// The width of an identifier's data in a settings list; 0 for an unknown one.
static const uint8_t width[256] = {
    [0x00] = 4, [0x01] = 4, [0x02] = 2, [0x03] = 1, [0x04] = 1, [0x05] = 1, [0x06] = 1, [0x07] = 4, [0x08] = 1, [0x09] = 1, [0x0A] = 16, [0x0C] = 2, [0xFF] = 1,
};

static int is_settings(const uint8_t *s, size_t n)
{
    uint32_t seen = 0; // the low four bits tell the known identifiers apart
    size_t at = 0;
    while (at < n) {
        uint32_t mark = 1u << (s[at] & 15);
        if (width[s[at]] == 0 || (seen & mark) != 0)
            return 0;
        seen |= mark;
        at += 1 + (size_t)width[s[at]];
    }
    return at == n;
}

static char *put_settings(char *at, const uint8_t *p, size_t len)
{
    at = put_field(put_text(at, "settings"), p + 1, 1);
    return put_data(at, p + 2, len - 2);
}

static char *put_response(char *at, const uint8_t *p, size_t len)
{
    if (len != 4)
        return put_text(at, "refused 7\n");
    if (p[3] > 1)
        return put_text(at, "refused 11\n");
    at = put_field(put_text(at, "response"), p + 2, 1);
    return p[3] == 1 ? put_text(at, " ok\n") : put_text(at, " fail\n");
}

// A fixed length and a fixed byte.
static char *put_report(char *at, const uint8_t *p, size_t len, size_t size, int good)
{
    if (len != size)
        return put_text(at, "refused 7\n");
    return good ? put_settings(at, p, len) : put_text(at, "refused 11\n");
}

static char *put_itself(char *at, const uint8_t *p, size_t len)
{
    switch (p[1]) {
    case 0xA1:
        return put_response(at, p, len);
    case 0xF0:
        return put_report(at, p, len, 3, p[2] == 0x01);
    case 0xF1:
        return put_report(at, p, len, 17, 1);
    case 0xF3:
        if ((len == 3 && p[2] == 0xFF) || is_settings(p + 2, len - 2))
            return put_settings(at, p, len);
        return put_text(at, "refused 17\n");
    case 0xF8:
        return put_report(at, p, len, 4, p[2] == 0x11 && p[3] <= 1);
    default:
        return put_text(at, "refused 9\n");
    }
}

static char *put_status(char *at, const uint8_t *p, size_t len)
{
    if (len != 23 && len != 20)
        return put_text(at, "refused 7\n");
    if (p[3] != 0x01 || (len == 20 && p[2] != 0x0F))
        return put_text(at, "refused 11\n");
    at = len == 23 ? put_text(at, "standard") : put_text(at, "remote");
    at = put_field(at, p, 1);
    at = put_field(at, p + 5, 4);
    at = put_field(at, p + 4, 1);
    at = put_field(at, p + 13, 2);
    if (len == 23)
        at = put_field(at, p + 16, 1);
    return put_text(at, "\n");
}

static char *put_extended(char *at, const uint8_t *p, size_t len)
{
    if (len < 14)
        return put_text(at, "refused 7\n");
    if ((size_t)(p[12] << 8 | p[13]) != len - 14)
        return put_text(at, "refused 12\n");
    at = put_field(put_text(at, "extended"), p, 1);
    at = put_field(at, p + 2, 1);
    at = put_field(at, p + 3, 4);
    at = put_field(at, p + 7, 4);
    at = put_field(at, p + 11, 1);
    return put_data(at, p + 14, len - 14);
}

// Writes the line for a payload and returns where it ends.
static char *put_message(char *at, const uint8_t *p, size_t len)
{
    if (len < 2)
        return put_text(at, "refused 7\n");
    if (p[0] == 0xDB)
        return put_itself(at, p, len);
    if (p[0] > 100 && p[0] != 120)
        return put_text(at, "refused 8\n");
    if (p[1] < 0x80) {
        at = put_field(put_text(at, "simple"), p, 1);
        at = put_field(at, p + 1, 1);
        return put_data(at, p + 2, len - 2);
    }
    if (p[1] == 0x81)
        return put_status(at, p, len);
    if (p[1] == 0xA0)
        return put_extended(at, p, len);
    return put_text(at, "refused 9\n");
}

static void write_all(const char *s, const char *end)
{
    while (s < end) {
        ssize_t n = write(STDOUT_FILENO, s, (size_t)(end - s));
        if (n < 0)
            _exit(1);
        s += n;
    }
}

static uint64_t framed; // bytes in frames; all others are noise

// Prints the frames in s[0..n] and returns how many bytes are decided.
static size_t print_frames(const uint8_t *s, size_t n)
{
    static uint8_t payload[257 + SLACK];
    char *out = output;
    size_t at = 0;
    while (at < n) {
        if (s[at] != ':') {
            const uint8_t *colon = memchr(s + at, ':', n - at);
            if (colon == NULL) {
                at = n;
                break;
            }
            at = (size_t)(colon - s);
        }
        struct judged j = judge_ascii(s + at, n - at, false, payload);
        if (j.verdict == UNDECIDED)
            break;
        if (j.verdict == FRAME) {
            out = put_message(out, payload, j.len);
            framed += j.judged;
            at += j.judged;
        } else {
            // The next place is one behind the colon, but up to the failing byte stand digits or a CR, which start no frame.
            at += j.judged - 1;
        }
    }
    write_all(output, out);
    return at;
}

int main(void)
{
    uint64_t total = 0;
    size_t held = 0;
    ssize_t got;
    init_tables();
    while ((got = read(STDIN_FILENO, input + held, CHUNK)) > 0) {
        size_t n = held + (size_t)got;
        size_t done = print_frames(input, n);
        held = n - done;
        memmove(input, input + done, held);
        total += (uint64_t)got;
    }
    // What is held is a start and its digits, which hold no other start: at the end it is noise.
    int size = snprintf(output, sizeof output, "noise %" PRIu64 "\n", total - framed);
    write_all(output, output + size);
    return 0;
}
