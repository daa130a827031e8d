// ChaCha20 in place, from the start of the stream, against mbedTLS's.
#include "streams.h"

#include <mbedtls/chacha20.h>

static void ours_chacha20(size_t n) { kdbx4_chacha20(key, key + 32, 0, ours, n); }
static void peer_chacha20(size_t n) { mbedtls_chacha20_crypt(key, key + 32, 0, n, peers, peers); }

// mbedTLS starts at a block of its stream, so what stands there before position `at` is taken first.
void peer_chacha20_at(const uint8_t key[32], const uint8_t nonce[12], uint64_t at, size_t n) {
    uint8_t before[64] = {0};
    mbedtls_chacha20_context c;
    mbedtls_chacha20_init(&c);
    mbedtls_chacha20_setkey(&c, key);
    mbedtls_chacha20_starts(&c, nonce, (uint32_t)(at / 64));
    mbedtls_chacha20_update(&c, at % 64, before, before);
    mbedtls_chacha20_update(&c, n, peers, peers);
    mbedtls_chacha20_free(&c);
}

// The key and the nonce are the message's, from byte `from` on.
static int check_at(size_t from, uint64_t at, size_t n) {
    in_place(n + 1);
    kdbx4_chacha20(message + from, message + from + 32, at, ours, n);
    peer_chacha20_at(message + from, message + from + 32, at, n);
    return same("chacha20", n, n + 1);
}

static int check(void) {
    for (size_t n = 0; n <= 700; n++)
        if (!check_at(n, 0, n) || !check_at(n, 37 * n, n) || !check_at(n, n, 701 - n)) return 0;
    for (size_t i = 0; i <= 300; i++) // the counter begins again behind 2^38 bytes
        if (!check_at(i, (1ULL << 38) - i, 400) || !check_at(i, (77ULL << 32) + i, 300)) return 0;
    return check_at(5, 1000, RESULT_LIMIT - 1);
}

static const struct row rows[] = {
    {"chacha20-1MiB", "0.75", "byte", 1 << 20, 1 << 20, ours_chacha20, peer_chacha20},
    {"chacha20-64B", "-", "byte", 64, 64, ours_chacha20, peer_chacha20},
    {0},
};

static const struct state states[] = {{0}};

const struct family chacha20 = {rows, states, check};
