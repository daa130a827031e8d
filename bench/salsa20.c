// Salsa20 in place, from the start of the stream, against nettle's, of which bench/run compiles the C and no assembler
// (salsa20-core-internal.c, salsa20-crypt-internal.c, salsa20-crypt.c, salsa20-256-set-key.c, salsa20-set-nonce.c and
// memxor3.c), and against our own ChaCha20.
#include "streams.h"

#include <nettle/salsa20.h>

static void ours_salsa20(size_t n) { kdbx4_salsa20(key, key + 32, 0, ours, n); }
static void ours_chacha20(size_t n) { kdbx4_chacha20(key, key + 32, 0, ours, n); }
static void peer_salsa20(size_t n) {
    struct salsa20_ctx c;
    salsa20_256_set_key(&c, key);
    salsa20_set_nonce(&c, key + 32);
    salsa20_crypt(&c, n, peers, peers);
}

// nettle starts at block 0, and drops what is left of a call's last block: so the counter, two words of its context, is
// set to the block of position `at`, and the bytes stand in a buffer as far from its front as from the block's.
void peer_salsa20_at(const uint8_t key[32], const uint8_t nonce[8], uint64_t at, size_t n) {
    static uint8_t blocks[RESULT_LIMIT + 64];
    struct salsa20_ctx c;
    salsa20_256_set_key(&c, key);
    salsa20_set_nonce(&c, nonce);
    c.input[8] = (uint32_t)(at / 64), c.input[9] = (uint32_t)(at / 64 >> 32);
    memcpy(blocks + at % 64, peers, n);
    salsa20_crypt(&c, at % 64 + n, blocks, blocks);
    memcpy(peers, blocks + at % 64, n);
}

// The key and the nonce are the message's, from byte `from` on.
static int check_at(size_t from, uint64_t at, size_t n) {
    in_place(n + 1);
    kdbx4_salsa20(message + from, message + from + 32, at, ours, n);
    peer_salsa20_at(message + from, message + from + 32, at, n);
    return same("salsa20", n, n + 1);
}

static int check(void) {
    for (size_t n = 0; n <= 700; n++)
        if (!check_at(n, 0, n) || !check_at(n, 37 * n, n) || !check_at(n, n, 701 - n)) return 0;
    for (size_t i = 0; i <= 300; i++) { // over the counter's first word, in the second, and over position 2^64
        if (!check_at(i, (1ULL << 38) - i, 400) || !check_at(i, (77ULL << 40) + i, 300)) return 0;
        if (!check_at(i, UINT64_MAX - i, 400)) return 0;
    }
    return check_at(5, 1000, RESULT_LIMIT - 1);
}

static const struct row rows[] = {
    {"salsa20-1MiB", "0.82", "byte", 1 << 20, 1 << 20, ours_salsa20, peer_salsa20},
    {"salsa20-64B", "-", "byte", 64, 64, ours_salsa20, peer_salsa20},
    {"salsa20-chacha20", "1.05", "byte", 1 << 20, 1 << 20, ours_salsa20, ours_chacha20},
    {0},
};

static const struct state states[] = {{0}};

const struct family salsa20 = {rows, states, check};
