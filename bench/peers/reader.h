// A line reader for both framings, with its state in place.
//
// It answers as documents 01 and 02 rule, bytes taken included, so it judges bytes in order. Nobody makes its states by hand: bytes that are held after
// "needs more" have passed every check, and are not judged again until the next one falls due.

#include <stdbool.h>

#include "ascii.h"

// How frames are read: in binary framing the footer may be missing, or is required; in ASCII framing they end with CR LF, or with any ending.
enum format { BINARY, REQUIRED, ASCII, ANY };

enum { MAX_PAYLOAD = 256, MAX_BINARY = 262, MAX_CHUNK = 65536 };

enum { FOOTER = 0x04 };

struct reader {
    enum format format;
    uint8_t optional; // byte of the frame that was handed out last, which may follow: its footer, or the LF behind its CR; 0: none
    size_t count;     // of held bytes
    size_t due;       // while fewer bytes are held, no check falls due but that ASCII ones are digits
    uint8_t held[MAX_ASCII];
};

struct answer {
    size_t taken, noise;
    size_t len; // of the payload in the buffer; 0: needs more, or empty
};

// The ASCII formats are the last ones.
static inline bool is_ascii(enum format format)
{
    return format >= ASCII;
}

static inline uint8_t xor_of(const uint8_t *s, size_t n)
{
    uint8_t x = 0;
    for (size_t i = 0; i < n; i++)
        x ^= s[i];
    return x;
}

// The length behind the start bytes, and 0 if it is out of range.
static inline size_t length_at(const uint8_t *s)
{
    size_t len = (size_t)(s[2] << 8 | s[3]) - 0x8000;
    return len <= MAX_PAYLOAD ? len : 0;
}

// Judges what begins with the A5 s[0]. Unless the footer is required, a frame is complete at its checksum.
static inline struct judged judge_binary(const uint8_t *s, size_t n, bool required)
{
    const struct judged undecided = {UNDECIDED, 0, 0};
    if (n < 2)
        return undecided;
    if (s[1] != 0x5A)
        return failed(2);
    if (n < 4)
        return undecided;
    size_t len = length_at(s);
    if (len == 0)
        return failed(4);
    if (n < len + 5)
        return undecided;
    if (xor_of(s + 4, len) != s[len + 4])
        return failed(len + 5);
    if (required && n < len + 6)
        return undecided;
    if (required && s[len + 5] != FOOTER)
        return failed(len + 6);
    return (struct judged){FRAME, len + 5 + required, len};
}

// Where a scan stopped, and how far bytes were judged. Behind the last place `judged` is a failure.
struct found {
    size_t place, reach;
    struct judged judged;
};

static inline size_t larger(size_t a, size_t b)
{
    return a > b ? a : b;
}

// Judges the first `stop` places of s[0..n] in order, up to the first that does not fail; where `ended`, the segment's end makes undecided ones fail.
// Bytes up to `reach` were judged before. `payload` gets that of an ASCII frame.
static inline __attribute__((always_inline)) struct found
scan_as(enum format format, const uint8_t *s, size_t n, size_t stop, size_t reach, bool ended, uint8_t *payload)
{
    const uint8_t start = is_ascii(format) ? ':' : 0xA5;
    size_t place = 0;
    while (place < stop) {
        if (s[place] != start) {
            const uint8_t *next = memchr(s + place, start, stop - place);
            if (next == NULL)
                break;
            place = (size_t)(next - s);
        }
        struct judged j = is_ascii(format) ? judge_ascii(s + place, n - place, format == ANY, payload)
                                           : judge_binary(s + place, n - place, format == REQUIRED);
        if (j.verdict == FRAME || (j.verdict == UNDECIDED && !ended))
            return (struct found){place, larger(reach, place + j.judged), j};
        reach = larger(reach, place + j.judged);
        place++;
    }
    return (struct found){stop, larger(reach, stop), failed(0)};
}

// The same, with a loop for each format.
static struct found scan(enum format format, const uint8_t *s, size_t n, size_t stop, size_t reach, bool ended, uint8_t *payload)
{
    switch (format) {
    case BINARY:
        return scan_as(BINARY, s, n, stop, reach, ended, payload);
    case REQUIRED:
        return scan_as(REQUIRED, s, n, stop, reach, ended, payload);
    case ASCII:
        return scan_as(ASCII, s, n, stop, reach, ended, payload);
    default:
        return scan_as(ANY, s, n, stop, reach, ended, payload);
    }
}

static inline void hold(struct reader *r, const uint8_t *s, size_t n)
{
    memmove(r->held, s, n);
    r->count = n;
    r->due = 0;
}

// Holds a start that passed every check so far, or nothing.
static inline void await(struct reader *r, const uint8_t *s, size_t n)
{
    hold(r, s, n);
    if (!is_ascii(r->format) && n >= 4)
        r->due = length_at(r->held) + 5;
    if (is_ascii(r->format) && n >= 1 && r->held[n - 1] != '\r')
        r->due = MAX_DIGITS + 2;
}

// The byte that may follow a complete frame whose last byte is given, and belongs to it; 0: none.
static inline uint8_t optional_behind(enum format format, uint8_t last)
{
    if (format == BINARY)
        return FOOTER;
    return format == ANY && last == '\r' ? '\n' : 0;
}

// Hands out the frame that was found in s, and holds the bytes behind it up to `end`.
static inline void hand_out(struct reader *r, const uint8_t *s, const struct found *f, size_t end, const uint8_t *payload, uint8_t *buf)
{
    size_t next = f->place + f->judged.judged;
    memcpy(buf, is_ascii(r->format) ? payload : s + f->place + 4, f->judged.len);
    r->optional = optional_behind(r->format, s[next - 1]);
    hold(r, s + next, end - next);
}

// Finds the next frame in a chunk, where nothing is held.
static struct answer feed_chunk(struct reader *r, const uint8_t *chunk, size_t size, size_t reach, size_t noise, uint8_t *buf)
{
    uint8_t payload[MAX_PAYLOAD + 1];
    struct found f = scan(r->format, chunk, size, size, reach, false, payload);
    if (f.judged.verdict == FRAME) {
        hand_out(r, chunk, &f, f.reach, payload, buf);
        return (struct answer){f.reach, noise + f.place, f.judged.len};
    }
    await(r, chunk + f.place, size - f.place);
    return (struct answer){size, noise + f.place, 0};
}

// Finds the next frame where bytes are held: at the places among them first, then in the chunk. What is held is filled up from the chunk to the length of
// the longest frame, which decides its first place, and is moved up as places fail.
static struct answer feed_held(struct reader *r, const uint8_t *chunk, size_t size, uint8_t *buf)
{
    const size_t limit = is_ascii(r->format) ? MAX_ASCII : MAX_BINARY;
    uint8_t payload[MAX_PAYLOAD + 1];
    size_t old = r->count; // bytes held before this call
    size_t reach = 0;      // judged bytes of the chunk
    size_t noise = 0;
    for (;;) {
        size_t copied = r->count - old;
        size_t room = limit - r->count;
        size_t more = size - copied < room ? size - copied : room;
        memcpy(r->held + r->count, chunk + copied, more);
        r->count += more;
        struct found f = scan(r->format, r->held, r->count, old, old + reach, false, payload);
        noise += f.place;
        reach = f.reach - old;
        if (f.judged.verdict == FRAME) {
            hand_out(r, r->held, &f, f.reach, payload, buf);
            return (struct answer){reach, noise, f.judged.len};
        }
        if (f.judged.verdict == FAILED) {
            r->count = 0;
            return feed_chunk(r, chunk, size, reach, noise, buf);
        }
        await(r, r->held + f.place, r->count - f.place);
        old -= f.place;
        if (r->count - old == size)
            return (struct answer){size, noise, 0};
    }
}

// Whether the held bytes go on passing every check with the chunk behind them.
static inline bool goes_on(const struct reader *r, const uint8_t *chunk, size_t size)
{
    if (r->count + size >= r->due)
        return false;
    if (is_ascii(r->format))
        for (size_t i = 0; i < size; i++)
            if (digit_value[chunk[i]] < 0)
                return false;
    return true;
}

// Passes over the optional byte that follows the last frame: the first held byte or, where none is held, the first of the chunk. Gives how many bytes of the
// chunk it is. Without a byte of either it may still follow.
static inline size_t pass_optional(struct reader *r, const uint8_t *chunk, size_t size)
{
    const uint8_t optional = r->optional;
    if (optional == 0 || r->count + size == 0)
        return 0;
    r->optional = 0;
    if (r->count == 0)
        return chunk[0] == optional;
    if (r->held[0] == optional)
        hold(r, r->held + 1, r->count - 1);
    return 0;
}

// Finds the next frame where no optional byte follows.
static inline struct answer feed_next(struct reader *r, const uint8_t *chunk, size_t size, uint8_t *buf)
{
    if (r->count == 0)
        return feed_chunk(r, chunk, size, 0, 0, buf);
    if (!goes_on(r, chunk, size))
        return feed_held(r, chunk, size, buf);
    memcpy(r->held + r->count, chunk, size);
    r->count += size;
    return (struct answer){size, 0, 0};
}

// Takes bytes of a chunk up to the end of the next frame, whose payload goes to the front of the 256 bytes at buf.
static struct answer feed(struct reader *r, const uint8_t *chunk, size_t size, uint8_t *buf)
{
    size_t passed = pass_optional(r, chunk, size);
    struct answer a = feed_next(r, chunk + passed, size - passed, buf);
    a.taken += passed;
    return a;
}

// The held bytes end their segment: gives the next frame in them.
static struct answer quiet(struct reader *r, uint8_t *buf)
{
    uint8_t payload[MAX_PAYLOAD + 1];
    pass_optional(r, NULL, 0);
    r->optional = 0;
    struct found f = scan(r->format, r->held, r->count, r->count, 0, true, payload);
    if (f.judged.verdict == FRAME)
        hand_out(r, r->held, &f, r->count, payload, buf);
    else
        hold(r, r->held, 0);
    return (struct answer){0, f.place, f.judged.len};
}
