// What the families of vaults share, over mbedTLS: the figures of their vaults, the header, the keys and the tags.
#include "bench.h"

#include <mbedtls/aes.h>
#include <mbedtls/chacha20.h>
#include <mbedtls/md.h>
#include <mbedtls/sha256.h>
#include <mbedtls/sha512.h>

#define HEADER_NUMBER UINT64_MAX

// About what the vaults of the rows have: most rows, `-half`, `-large`.
#define WHOLE 3500000
#define HALF 1750000
#define LARGE 16000000

enum cipher { AES, CHACHA20 };

static size_t place; // of a refusal

static const uint8_t *const transformed = key; // T, and behind it the master seed
#define SEED (key + 32)
#define NONCE (message + 500)
#define KDF_SEED message
#define ROUNDS 6000
#define MINOR 1

static const char identifiers[2][17] = {"\x31\xC1\xF2\xE6\xBF\x71\x43\x50\xBE\x58\x05\x21\x6A\xFC\x5A\xFF",
                                        "\xD6\x03\x8A\x2B\x8B\x6F\x4C\xB5\xA5\x24\x33\x9A\x31\xDB\xB5\x9A"};
static const size_t nonce_length[2] = {16, 12};

static void put_le(uint8_t *to, uint64_t x, size_t n) {
    for (size_t i = 0; i < n; i++) to[i] = x >> 8 * i;
}

static void cipher_key(uint8_t out[32]) {
    uint8_t both[64];
    memcpy(both, SEED, 32), memcpy(both + 32, transformed, 32);
    mbedtls_sha256_ret(both, 64, out, 0);
}

static void tag_base(uint8_t out[64]) {
    uint8_t all[65];
    memcpy(all, SEED, 32), memcpy(all + 32, transformed, 32), all[64] = 1;
    mbedtls_sha512_ret(all, 65, out, 0);
}

// The tag of a header (no number in it) or of a block's number, size and data, under the number's own key.
static void tag_of(mbedtls_md_context_t *c, const uint8_t base[64], uint64_t number, const uint8_t *m, size_t n,
                   uint8_t out[32]) {
    uint8_t all[72], k[64];
    put_le(all, number, 8), memcpy(all + 8, base, 64);
    mbedtls_sha512_ret(all, 72, k, 0);
    mbedtls_md_hmac_starts(c, k, 64);
    if (number != HEADER_NUMBER) mbedtls_md_hmac_update(c, all, 8);
    mbedtls_md_hmac_update(c, m, n);
    mbedtls_md_hmac_finish(c, out);
}

static void md_start(mbedtls_md_context_t *c) {
    mbedtls_md_init(c);
    mbedtls_md_setup(c, mbedtls_md_info_from_type(MBEDTLS_MD_SHA256), 1);
}

static uint8_t *put_field(uint8_t *at, uint8_t id, const void *value, size_t n) {
    *at = id, put_le(at + 1, n, 4), memcpy(at + 5, value, n);
    return at + 5 + n;
}

static uint8_t *put_item(uint8_t *at, uint8_t type, const char *name, const void *value, size_t n) {
    size_t length = strlen(name);
    *at = type, put_le(at + 1, length, 4), memcpy(at + 5, name, length);
    put_le(at + 5 + length, n, 4), memcpy(at + 9 + length, value, n);
    return at + 9 + length + n;
}

// The header of these figures, without a custom dictionary. The answer is its length.
static size_t put_header(enum cipher cipher, uint8_t *to) {
    uint8_t kdf[128] = {0, 1}, rounds[8], *end = kdf + 2;
    put_le(rounds, ROUNDS, 8);
    end = put_item(end, 0x42, "$UUID", "\xC9\xD9\xF3\x9A\x62\x8A\x44\x60\xBF\x74\x0D\x08\xC1\x8A\x4F\xEA", 16);
    end = put_item(end, 0x05, "R", rounds, 8);
    end = put_item(end, 0x42, "S", KDF_SEED, 32);
    *end++ = 0;
    uint8_t *at = to;
    put_le(at, 0x9AA2D903, 4), put_le(at + 4, 0xB54BFB67, 4), put_le(at + 8, 0x00040000 + MINOR, 4);
    at = put_field(at + 12, 2, identifiers[cipher], 16);
    at = put_field(at, 3, "\0\0\0\0", 4);
    at = put_field(at, 4, SEED, 32);
    at = put_field(at, 7, NONCE, nonce_length[cipher]);
    at = put_field(at, 11, kdf, end - kdf);
    at = put_field(at, 0, "\r\n\r\n", 4);
    return at - to;
}
