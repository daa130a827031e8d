// HMAC-SHA-256 of one message under a key of 64 bytes in one call, against mbedTLS's, which takes its contexts from the heap.
#include "bench.h"

#include <mbedtls/md.h>
#include <mbedtls/sha256.h>

static void ours_hmac(size_t n) { kdbx4_hmac_sha256(key, 64, message, n, ours); }
static void peer_hmac(size_t n) {
    mbedtls_md_hmac(mbedtls_md_info_from_type(MBEDTLS_MD_SHA256), key, 64, message, n, peers);
}

// A key of k bytes, which are the message's behind its first byte.
static int check_key(size_t k, size_t n) {
    kdbx4_hmac_sha256(message + 1, k, message, n, ours);
    mbedtls_md_hmac(mbedtls_md_info_from_type(MBEDTLS_MD_SHA256), message + 1, k, message, n, peers);
    return same("hmac-sha256", n, 32);
}

static int check(void) {
    for (size_t n = 0; n <= 700; n++) {
        if (!check_key(n % 150, n)) return 0;
        ours_hmac(n), peer_hmac(n);
        if (!same("hmac-sha256", n, 32)) return 0;
    }
    if (!check_key(KDBX4_MESSAGE_LIMIT, KDBX4_MESSAGE_LIMIT)) return 0;
    untouched();
    uint8_t number = kdbx4_hmac_sha256(key, 64, message, KDBX4_MESSAGE_LIMIT + 1, ours);
    if (!refused("a message past the limit", number, 1)) return 0;
    untouched();
    return refused("a key past the limit", kdbx4_hmac_sha256(message, KDBX4_MESSAGE_LIMIT + 1, key, 64, ours), 1);
}

static const struct row rows[] = {
    {"hmac-sha256-1MiB", "-", "byte", 1 << 20, 1 << 20, ours_hmac, peer_hmac},
    {"hmac-sha256-64B", "0.90", "byte", 64, 64, ours_hmac, peer_hmac},
    {"hmac-sha256-1B", "-", "byte", 1, 1, ours_hmac, peer_hmac},
    {0},
};

// mbedTLS holds a context, and on the heap a hash context and two key blocks
static const struct state states[] = {
    {"hmac-sha256-state", "hmac", "Hmac", sizeof(mbedtls_md_context_t) + sizeof(mbedtls_sha256_context) + 2 * 64},
    {0},
};

const struct family hmac = {rows, states, check};
