// AES-256 in AES-KDF's rounds and in CBC, against mbedTLS's aes.c, which bench/run compiles without AES-NI: `full_…` with its
// full tables, `fewer_…` with MBEDTLS_AES_FEWER_TABLES. Both builds make their tables when a key is first set, as mbedTLS does
// by default.
#include "bench.h"

#include <mbedtls/aes.h>
#include <mbedtls/sha256.h>

#define ROUNDS_LIMIT 4000000
#define MANY 10000

#define DECLARED(name) extern __typeof__(mbedtls_##name) full_mbedtls_##name, fewer_mbedtls_##name
DECLARED(aes_setkey_enc);
DECLARED(aes_setkey_dec);
DECLARED(aes_crypt_cbc);
DECLARED(internal_aes_encrypt);

// mbedTLS's functions, of one of the two builds.
struct build {
    __typeof__(mbedtls_aes_setkey_enc) *setkey_enc;
    __typeof__(mbedtls_aes_setkey_dec) *setkey_dec;
    __typeof__(mbedtls_aes_crypt_cbc) *crypt_cbc;
    __typeof__(mbedtls_internal_aes_encrypt) *encrypt;
};

static const struct build full = {full_mbedtls_aes_setkey_enc, full_mbedtls_aes_setkey_dec, full_mbedtls_aes_crypt_cbc,
                                  full_mbedtls_internal_aes_encrypt};
static const struct build fewer = {fewer_mbedtls_aes_setkey_enc, fewer_mbedtls_aes_setkey_dec, fewer_mbedtls_aes_crypt_cbc,
                                   fewer_mbedtls_internal_aes_encrypt};

// AES-KDF as a caller of mbedTLS writes it. Composite key and seed are the message's, from byte `from` on.
static void kdf_of(const struct build *b, size_t from, size_t rounds) {
    mbedtls_aes_context c;
    uint8_t halves[32];
    memcpy(halves, message + from, 32);
    b->setkey_enc(&c, message + from + 32, 256);
    for (size_t i = 0; i < rounds; i++) {
        b->encrypt(&c, halves, halves);
        b->encrypt(&c, halves + 16, halves + 16);
    }
    mbedtls_sha256_ret(halves, 32, peers, 0);
}

// CBC in place; the IV stands behind the key.
static void cbc_of(const struct build *b, int mode, const uint8_t *k, size_t n) {
    mbedtls_aes_context c;
    uint8_t iv[16];
    memcpy(iv, k + 32, 16);
    (mode == MBEDTLS_AES_ENCRYPT ? b->setkey_enc : b->setkey_dec)(&c, k, 256);
    b->crypt_cbc(&c, mode, n, iv, peers, peers);
}

static void ours_kdf(size_t rounds) { kdbx4_aes_kdf(message, message + 32, rounds, ours); }
static void peer_kdf_full(size_t rounds) { kdf_of(&full, 0, rounds); }
static void peer_kdf_fewer(size_t rounds) { kdf_of(&fewer, 0, rounds); }
static void ours_encrypt(size_t n) { kdbx4_aes256_cbc_encrypt(key, key + 32, ours, n); }
static void peer_encrypt(size_t n) { cbc_of(&full, MBEDTLS_AES_ENCRYPT, key, n); }
static void ours_decrypt(size_t n) { kdbx4_aes256_cbc_decrypt(key, key + 32, ours, n); }
static void peer_decrypt(size_t n) { cbc_of(&full, MBEDTLS_AES_DECRYPT, key, n); }

static int check_kdf(size_t from, size_t rounds) {
    if (kdbx4_aes_kdf(message + from, message + from + 32, rounds, ours) != 0) return 0;
    kdf_of(&full, from, rounds);
    if (!same("aes-kdf, full tables,", 32, 32)) return 0;
    kdf_of(&fewer, from, rounds);
    return same("aes-kdf, fewer tables,", 32, 32);
}

// A run of n bytes, of which the whole blocks count; the key and the IV are the message's, from byte `from` on.
static int check_cbc(size_t from, size_t n) {
    const uint8_t *k = message + from;
    in_place(n);
    kdbx4_aes256_cbc_encrypt(k, k + 32, ours, n);
    cbc_of(&full, MBEDTLS_AES_ENCRYPT, k, n / 16 * 16);
    if (!same("cbc encryption", n, n)) return 0;
    kdbx4_aes256_cbc_decrypt(k, k + 32, ours, n);
    cbc_of(&fewer, MBEDTLS_AES_DECRYPT, k, n / 16 * 16);
    if (!same("cbc decryption", n, n)) return 0;
    kdbx4_aes256_cbc_decrypt(k, k + 32, ours, n);
    cbc_of(&full, MBEDTLS_AES_DECRYPT, k, n / 16 * 16);
    return same("cbc decryption", n, n);
}

static int check(void) {
    for (size_t i = 0; i <= 700; i++)
        if (!check_cbc(i, i) || !check_cbc(3 * i, 777) || !check_kdf(i, i % 40)) return 0;
    if (!check_cbc(9, RESULT_LIMIT) || !check_kdf(9, 20000)) return 0;
    untouched();
    return refused("rounds past the limit", kdbx4_aes_kdf(key, key + 32, ROUNDS_LIMIT + 1, ours), 11);
}

static const struct row rows[] = {
    {"aes256-encrypt-full", "1.10", "block", 2 * MANY, MANY, ours_kdf, peer_kdf_full, SLOPE},
    {"aes256-encrypt-fewer", "0.85", "block", 2 * MANY, MANY, ours_kdf, peer_kdf_fewer, SLOPE},
    {"aes256-cbc-decrypt-1MiB", "1.10", "byte", 1 << 20, 1 << 20, ours_decrypt, peer_decrypt},
    {"aes256-cbc-encrypt-1MiB", "-", "byte", 1 << 20, 1 << 20, ours_encrypt, peer_encrypt},
    {"kdf-round", "-", "round", MANY, MANY, ours_kdf, peer_kdf_full, SLOPE},
    {"kdf-1000", "1.05", "step", 1, 1000, ours_kdf, peer_kdf_full, STEP},
    {0},
};

static const struct state states[] = {{0}};

const struct family aes = {rows, states, check};
