// SHA-256 and SHA-512 of one message in one call, against mbedTLS's.
#include "bench.h"

#include <mbedtls/sha256.h>
#include <mbedtls/sha512.h>

static void ours_sha256(size_t n) { kdbx4_sha256(message, n, ours); }
static void peer_sha256(size_t n) { mbedtls_sha256_ret(message, n, peers, 0); }
static void ours_sha512(size_t n) { kdbx4_sha512(message, n, ours); }
static void peer_sha512(size_t n) { mbedtls_sha512_ret(message, n, peers, 0); }

static int check_length(size_t n) {
    ours_sha256(n), peer_sha256(n);
    if (!same("sha256", n, 32)) return 0;
    ours_sha512(n), peer_sha512(n);
    return same("sha512", n, 64);
}

static int check(void) {
    for (size_t n = 0; n <= 2100; n++)
        if (!check_length(n)) return 0;
    for (size_t n = 4000; n < 1100000; n = n * 3 + 1)
        if (!check_length(n)) return 0;
    if (!check_length(KDBX4_MESSAGE_LIMIT)) return 0;
    untouched();
    if (!refused("sha256 past the limit", kdbx4_sha256(message, KDBX4_MESSAGE_LIMIT + 1, ours), 1)) return 0;
    untouched();
    return refused("sha512 past the limit", kdbx4_sha512(message, KDBX4_MESSAGE_LIMIT + 1, ours), 1);
}

static const struct row rows[] = {
    {"sha256-1MiB", "0.90", "byte", 1 << 20, 1 << 20, ours_sha256, peer_sha256},
    {"sha256-64B", "-", "byte", 64, 64, ours_sha256, peer_sha256},
    {"sha256-1B", "-", "byte", 1, 1, ours_sha256, peer_sha256},
    {"sha512-1MiB", "1.05", "byte", 1 << 20, 1 << 20, ours_sha512, peer_sha512},
    {"sha512-64B", "-", "byte", 64, 64, ours_sha512, peer_sha512},
    {"sha512-1B", "-", "byte", 1, 1, ours_sha512, peer_sha512},
    {0},
};

static const struct state states[] = {
    {"sha256-state", "sha256", "Sha256", sizeof(mbedtls_sha256_context)},
    {"sha512-state", "sha512", "Sha512", sizeof(mbedtls_sha512_context)},
    {0},
};

const struct family sha2 = {rows, states, check};
