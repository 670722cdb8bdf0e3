// Runs of hex digits by tables, two digits a step: the plain C way.

#include "tables.h"

// Bytes that may be read and written behind what the functions are given.
enum { SLACK = 0 };

// Reads the digits at the front of the n characters at s. Their pairs go to `bytes` and, added up, to `sum`; their count is returned.
static inline size_t read_digits(const uint8_t *restrict s, size_t n, uint8_t *restrict bytes, unsigned *restrict sum)
{
    unsigned total = 0;
    size_t pairs = 0;
    for (; pairs < n / 2; pairs++) {
        int byte = digit_value[s[2 * pairs]] * 16 | digit_value[s[2 * pairs + 1]];
        if (byte < 0)
            break;
        bytes[pairs] = (uint8_t)byte;
        total += (unsigned)byte;
    }
    *sum = total;
    // A last digit without a second. As a loop it is a branch, which the next place need not wait for.
    size_t count = 2 * pairs;
    while (count < n && digit_value[s[count]] >= 0)
        count++;
    return count;
}

// Writes n bytes as digits and returns where these end.
static inline char *put_hex(char *restrict at, const uint8_t *restrict bytes, size_t n)
{
    for (size_t i = 0; i < n; i++, at += 2)
        memcpy(at, digit_pair[bytes[i]], 2);
    return at;
}
