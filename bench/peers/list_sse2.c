// booth-list with SSE2 intrinsics, 16 digits a step: how far this job can be taken on the same machine.

#include <emmintrin.h>

#include "tables.h"

// read_digits and put_hex do as those of digits.h, but read and write whole vectors at the ends, too.
enum { SLACK = 32 };

// Where c is in the range of `count` characters from `first` on. An add moves the range to the least signed bytes, so that one comparison does.
static inline __m128i in_range(__m128i c, char first, char count)
{
    __m128i moved = _mm_add_epi8(c, _mm_set1_epi8((char)(-128 - first)));
    return _mm_cmplt_epi8(moved, _mm_set1_epi8((char)(-128 + count)));
}

// Eight bytes out of 16 digits; which of the characters are digits goes to a bit mask.
static inline __m128i decode(const uint8_t *s, unsigned *digits)
{
    __m128i c = _mm_loadu_si128((const __m128i *)s);
    __m128i letter = in_range(c, 'A', 6);
    *digits = (unsigned)_mm_movemask_epi8(_mm_or_si128(in_range(c, '0', 10), letter));
    __m128i value = _mm_add_epi8(_mm_and_si128(c, _mm_set1_epi8(15)), _mm_and_si128(letter, _mm_set1_epi8(9)));
    __m128i pair = _mm_or_si128(_mm_slli_epi16(value, 4), _mm_srli_epi16(value, 8));
    return _mm_packus_epi16(_mm_and_si128(pair, _mm_set1_epi16(255)), _mm_setzero_si128());
}

static inline size_t read_digits(const uint8_t *restrict s, size_t n, uint8_t *restrict bytes, unsigned *restrict sum)
{
    static const uint8_t keep[16] = {255, 255, 255, 255, 255, 255, 255, 255};
    const __m128i zero = _mm_setzero_si128();
    __m128i total = zero;
    unsigned digits;
    size_t i = 0;
    __m128i eight = decode(s, &digits);
    if (digits % 2 == 0) {
        // A branch can be predicted; the count of a run of none would be waited for.
        *sum = 0;
        return 0;
    }
    while (digits == 0xFFFF && i + 16 <= n) {
        total = _mm_add_epi32(total, _mm_sad_epu8(eight, zero));
        _mm_storel_epi64((__m128i *)(bytes + i / 2), eight);
        i += 16;
        eight = decode(s + i, &digits);
    }
    size_t run = (size_t)__builtin_ctz(~digits);
    if (run > n - i)
        run = n - i;
    eight = _mm_and_si128(eight, _mm_loadl_epi64((const __m128i *)(keep + 8 - run / 2)));
    total = _mm_add_epi32(total, _mm_sad_epu8(eight, zero));
    _mm_storel_epi64((__m128i *)(bytes + i / 2), eight);
    *sum = (unsigned)_mm_cvtsi128_si32(total);
    return i + run;
}

static inline char *put_hex(char *restrict at, const uint8_t *restrict bytes, size_t n)
{
    char *end = at + 2 * n;
    if (n <= 4) {
        for (; at < end; at += 2)
            memcpy(at, digit_pair[*bytes++], 2);
        return end;
    }
    for (; at < end; at += 32, bytes += 16) {
        const __m128i low = _mm_set1_epi8(15);
        __m128i b = _mm_loadu_si128((const __m128i *)bytes);
        __m128i first = _mm_and_si128(_mm_srli_epi16(b, 4), low), second = _mm_and_si128(b, low);
        __m128i pairs[2] = {_mm_unpacklo_epi8(first, second), _mm_unpackhi_epi8(first, second)};
        for (int k = 0; k < 2; k++) {
            __m128i letter = _mm_and_si128(_mm_cmpgt_epi8(pairs[k], _mm_set1_epi8(9)), _mm_set1_epi8('A' - '0' - 10));
            __m128i digits = _mm_add_epi8(_mm_add_epi8(pairs[k], _mm_set1_epi8('0')), letter);
            _mm_storeu_si128((__m128i *)(at + 16 * k), digits);
        }
    }
    return end;
}

#include "list.h"
