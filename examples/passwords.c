/* Opens a vault with a password, and writes its protected values to standard output, a line each, in document order.
 *
 *     (cd crates/exports && rt lib)
 *     gcc -O2 -Wall -Iinclude -o target/passwords examples/passwords.c crates/exports/out/libexports.a
 *     target/passwords VAULT PASSWORD
 *
 * A protected value is base64 of bytes that the inner stream covers. The stream is not restarted between values, so
 * they are uncovered one after the other, from the first on, by one state. (A value that stands alone is uncovered by
 * kdbx4_inner_stream, from the inner key and the sum of the lengths before it.) What is found here is any start tag
 * that ends with the attribute Protected="True", as the desktop programs write it; an empty tag has no bytes of the
 * stream, and no line. A firmware would read the document properly.
 */
#include "vault.h"

static const char protected[] = "Protected=\"True\">";
static struct {
    uint8_t stream[KDBX4_INNER_STREAM_STATE], value[KDBX4_STREAM_LIMIT];
} shown;

static void clear_shown(void) { clear(&shown, sizeof shown); }

/* The end of the next mark of a protected value in the document; NULL behind the last. */
static const uint8_t *next_value(const uint8_t *at, const uint8_t *end) {
    size_t n = sizeof protected - 1;
    for (; (size_t)(end - at) >= n; at++)
        if (memcmp(at, protected, n) == 0) return at + n;
    return NULL;
}

static int digit_of(uint8_t c) {
    static const char digits[] = "ABCDEFGHIJKLMNOPQRSTUVWXYZabcdefghijklmnopqrstuvwxyz0123456789+/";
    const char *found = c ? strchr(digits, c) : NULL;
    return found ? (int)(found - digits) : -1;
}

/* The bytes of base64 up to the first other sign, into `out`: how many. */
static size_t decoded(const uint8_t *text, const uint8_t *end, uint8_t *out, size_t room) {
    size_t n = 0;
    uint32_t bits = 0;
    for (int have = 0; text < end && digit_of(*text) >= 0; text++) {
        bits = (bits << 6 | (uint32_t)digit_of(*text)) & 0xFFFF;
        have += 6;
        if (have < 8) continue;
        have -= 8;
        if (n < room) out[n++] = (uint8_t)(bits >> have);
    }
    return n;
}

int main(int words, char **word) {
    if (words != 3) return fputs("usage: passwords VAULT PASSWORD\n", stderr), 2;
    static uint8_t covered[KDBX4_STREAM_LIMIT];
    atexit(clear_shown);
    kdbx4_inner_figures inner;
    size_t length = open_vault(word[1], word[2], &inner), count;
    const uint8_t *end = payload + length, *value = payload + inner.document;
    check("inner key", kdbx4_inner_stream_start((uint32_t)inner.algorithm, payload + inner.key.start, inner.key.length,
                                                shown.stream));
    while ((value = next_value(value, end))) {
        size_t n = decoded(value, end, covered, sizeof covered);
        check("value", kdbx4_inner_stream_apply(shown.stream, covered, n, shown.value, sizeof shown.value, &count));
        fwrite(shown.value, 1, count, stdout);
        putchar('\n');
    }
    leave(fflush(stdout) == 0 ? 0 : 2);
}
