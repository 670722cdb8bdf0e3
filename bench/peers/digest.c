// digest FORMAT SIZE: feeds standard input to a line reader in chunks of SIZE bytes and prints what came out of it. FORMAT is binary, where the footer may be
// missing, required, where it may not, ascii, where frames end with CR LF, or any, where they end with CR, LF or both.

#include <inttypes.h>
#include <stdio.h>
#include <stdlib.h>
#include <unistd.h>

#include "digits.h"

#include "reader.h"

struct totals {
    uint64_t frames, noise, digest;
};

// Adds an answer and the payload that came with it. A byte at place i counts i + 1 times: as often as it is in the sum of a suffix. So written, the
// digest costs the same in every language, as no compiler makes vector code of it.
static void add(struct totals *t, const struct answer *a, const uint8_t *payload)
{
    uint64_t suffix = 0, sum = 0;
    t->noise += a->noise;
    if (a->len == 0)
        return;
    for (size_t i = a->len; i-- > 0;) {
        suffix += payload[i];
        sum += suffix;
    }
    t->frames++;
    t->digest = (t->digest << 5 | t->digest >> 59) ^ sum;
}

static void feed_all(struct reader *r, const uint8_t *chunk, size_t size, struct totals *t)
{
    uint8_t buf[MAX_PAYLOAD];
    struct answer a;
    do {
        a = feed(r, chunk, size, buf);
        add(t, &a, buf);
        chunk += a.taken;
        size -= a.taken;
    } while (a.len > 0);
}

static void quiet_all(struct reader *r, struct totals *t)
{
    uint8_t buf[MAX_PAYLOAD];
    struct answer a;
    do {
        a = quiet(r, buf);
        add(t, &a, buf);
    } while (a.len > 0);
}

// The number of the format that a word names, or else of none.
static int format_named(const char *word)
{
    static const char *const names[] = {[BINARY] = "binary", [REQUIRED] = "required", [ASCII] = "ascii", [ANY] = "any"};
    int format = BINARY;
    while (format <= ANY && strcmp(word, names[format]) != 0)
        format++;
    return format;
}

int main(int argc, char **argv)
{
    static uint8_t input[MAX_CHUNK];
    int format = argc == 3 ? format_named(argv[1]) : ANY + 1;
    size_t size = argc == 3 ? strtoul(argv[2], NULL, 10) : 0;
    if (format > ANY || size < 1 || size > MAX_CHUNK) {
        fprintf(stderr, "usage: digest binary|required|ascii|any SIZE\n");
        return 2;
    }
    init_tables();
    struct reader r = {.format = (enum format)format};
    struct totals t = {0, 0, 0};
    ssize_t got;
    while ((got = read(STDIN_FILENO, input, sizeof input)) > 0)
        for (size_t at = 0, left = (size_t)got; left > 0;) {
            size_t n = left < size ? left : size;
            feed_all(&r, input + at, n, &t);
            at += n;
            left -= n;
        }
    quiet_all(&r, &t);
    printf("frames %" PRIu64 "\nnoise %" PRIu64 "\ndigest %016" PRIX64 "\n", t.frames, t.noise, t.digest);
    return 0;
}
