// Hex digits in both directions.

#include <stddef.h>
#include <stdint.h>
#include <string.h>

static int8_t digit_value[256]; // -1 for all but 0-9 A-F
static char digit_pair[256][2];

static void init_tables(void)
{
    static const char digits[] = "0123456789ABCDEF";
    memset(digit_value, -1, sizeof digit_value);
    for (int v = 0; v < 16; v++)
        digit_value[(uint8_t)digits[v]] = (int8_t)v;
    for (int b = 0; b < 256; b++) {
        digit_pair[b][0] = digits[b / 16];
        digit_pair[b][1] = digits[b % 16];
    }
}
