// Judging ASCII frames, above read_digits.

#include <stdbool.h>
#include <stddef.h>
#include <stdint.h>

enum { MAX_DIGITS = 514, MAX_ASCII = 517 };

struct judged {
    enum { UNDECIDED, FAILED, FRAME } verdict;
    size_t judged; // bytes up to the failing one, or of the frame
    size_t len;    // of the payload
};

static inline struct judged failed(size_t judged)
{
    return (struct judged){FAILED, judged, 0};
}

// Judges what begins with the colon s[0]. A frame ends with CR LF or, with any ending, is complete at a CR or an LF. The payload of a frame and its checksum
// go to `payload`; otherwise these 257 bytes, and SLACK more, are scratch.
static inline struct judged judge_ascii(const uint8_t *s, size_t n, bool any_ending, uint8_t *payload)
{
    const struct judged undecided = {UNDECIDED, 0, 0};
    size_t room = n - 1 <= MAX_DIGITS ? n - 1 : MAX_DIGITS + 1;
    unsigned sum;
    size_t digits = read_digits(s + 1, room, payload, &sum);
    if (digits > MAX_DIGITS)
        return failed(1 + digits);
    if (1 + digits == n)
        return undecided;
    bool ends = s[1 + digits] == '\r' || (any_ending && s[1 + digits] == '\n');
    if (!ends || digits < 4 || digits % 2 != 0 || sum % 256 != 0)
        return failed(2 + digits);
    if (any_ending)
        return (struct judged){FRAME, 2 + digits, digits / 2 - 1};
    if (2 + digits == n)
        return undecided;
    if (s[2 + digits] != '\n')
        return failed(3 + digits);
    return (struct judged){FRAME, 3 + digits, digits / 2 - 1};
}
