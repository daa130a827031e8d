// Opening a vault, whole and block by block, against the same work over mbedTLS: the header's hash and tag, each
// block's tag, and the decryption into the output. The peer reads no header: it is told how long that is, and which
// cipher and nonce it names. One peer stands beside both of ours. Its AES is aes.c without AES-NI, as in aes.c here.
// The vaults are made here too, with mbedTLS.
#include "vault.h"

extern __typeof__(mbedtls_aes_setkey_enc) full_mbedtls_aes_setkey_enc;
extern __typeof__(mbedtls_aes_setkey_dec) full_mbedtls_aes_setkey_dec;
extern __typeof__(mbedtls_aes_crypt_cbc) full_mbedtls_aes_crypt_cbc;

// The vault that the rows open, with a byte more, what both sides write, and ciphertext on its way into blocks.
static uint8_t file[KDBX4_FILE_LIMIT + 1], text[KDBX4_FILE_LIMIT + 16];
static uint8_t opened[KDBX4_FILE_LIMIT], peer_opened[KDBX4_FILE_LIMIT];
static struct {
    enum cipher cipher;
    size_t block, payload, header, length;
} made;

static uint32_t le32(const uint8_t *from) {
    return from[0] | (uint32_t)from[1] << 8 | (uint32_t)from[2] << 16 | (uint32_t)from[3] << 24;
}

// The ciphertext of the message's first n bytes.
static size_t encrypt(enum cipher cipher, size_t n) {
    uint8_t k[32], iv[16];
    cipher_key(k);
    if (cipher == CHACHA20) return mbedtls_chacha20_crypt(k, NONCE, 0, n, message, text), n;
    size_t all = n / 16 * 16 + 16;
    mbedtls_aes_context c;
    memcpy(text, message, n), memset(text + n, all - n, all - n), memcpy(iv, NONCE, 16);
    full_mbedtls_aes_setkey_enc(&c, k, 256);
    full_mbedtls_aes_crypt_cbc(&c, MBEDTLS_AES_ENCRYPT, all, iv, text, text);
    return all;
}

// Makes the vault of the message's first `payload` bytes in blocks of `block` bytes, unless it is there.
static void make(enum cipher cipher, size_t block, size_t payload) {
    if (made.length && made.cipher == cipher && made.block == block && made.payload == payload) return;
    uint8_t base[64];
    mbedtls_md_context_t c;
    md_start(&c), tag_base(base);
    size_t header = put_header(cipher, file), all = encrypt(cipher, payload), at = header + 64, taken = 0;
    mbedtls_sha256_ret(file, header, file + header, 0);
    tag_of(&c, base, HEADER_NUMBER, file, header, file + header + 32);
    for (uint64_t number = 0, last = 0; !last; number++) {
        size_t n = all - taken < block ? all - taken : block;
        put_le(file + at + 32, n, 4), memcpy(file + at + 36, text + taken, n);
        tag_of(&c, base, number, file + at + 32, 4 + n, file + at);
        at += 36 + n, taken += n, last = n == 0;
    }
    mbedtls_md_free(&c);
    made.cipher = cipher, made.block = block, made.payload = payload, made.header = header, made.length = at;
}

// What a caller of mbedTLS writes: the payload's length, or -1. A block is decrypted when its tag holds; of AES the
// last piece waits, as ours does, until the closing block says that it is the last.
static long peer_open(void) {
    uint8_t k[32], base[64], iv[16], tag[32];
    mbedtls_md_context_t c;
    mbedtls_aes_context aes;
    mbedtls_chacha20_context stream;
    size_t at = made.header, taken = 0, done = 0, n;
    md_start(&c), cipher_key(k), tag_base(base), memcpy(iv, NONCE, 16);
    if (made.length < at + 64) return -1;
    mbedtls_sha256_ret(file, at, tag, 0);
    if (memcmp(tag, file + at, 32) != 0) return -1;
    tag_of(&c, base, HEADER_NUMBER, file, at, tag);
    if (memcmp(tag, file + at + 32, 32) != 0) return -1;
    if (made.cipher == AES)
        full_mbedtls_aes_setkey_dec(&aes, k, 256);
    else
        mbedtls_chacha20_init(&stream), mbedtls_chacha20_setkey(&stream, k), mbedtls_chacha20_starts(&stream, NONCE, 0);
    at += 64;
    for (uint64_t number = 0;; number++) {
        if (made.length - at < 36) return -1;
        n = le32(file + at + 32);
        if (made.length - at - 36 < n) return -1;
        tag_of(&c, base, number, file + at + 32, 4 + n, tag);
        if (memcmp(tag, file + at, 32) != 0) return -1;
        if (n == 0) break;
        if (sizeof peer_opened - taken < n) return -1;
        if (made.cipher == CHACHA20) {
            mbedtls_chacha20_update(&stream, n, file + at + 36, peer_opened + taken);
        } else {
            memcpy(peer_opened + taken, file + at + 36, n);
            size_t due = (taken + n - 1) / 16 * 16 - done;
            full_mbedtls_aes_crypt_cbc(&aes, MBEDTLS_AES_DECRYPT, due, iv, peer_opened + done, peer_opened + done);
            done += due;
        }
        at += 36 + n, taken += n;
    }
    mbedtls_md_free(&c);
    if (at + 36 != made.length) return -1;
    if (made.cipher == CHACHA20) return mbedtls_chacha20_free(&stream), (long)taken;
    if (taken == 0 || taken % 16 != 0) return -1;
    full_mbedtls_aes_crypt_cbc(&aes, MBEDTLS_AES_DECRYPT, 16, iv, peer_opened + done, peer_opened + done);
    uint8_t padding = peer_opened[taken - 1];
    if (padding < 1 || padding > 16) return -1;
    for (size_t i = taken - padding; i < taken; i++)
        if (peer_opened[i] != padding) return -1;
    return taken - padding;
}

// The payload block by block, each step lent what is left of the room: a number, of the start or the step that ended it.
static uint8_t open_steps(size_t room) {
    uint8_t state[KDBX4_OPENER_STATE], number = kdbx4_start(file, made.length, transformed, state, &place);
    for (size_t done = 0, count = 0; number == 0 && !KDBX4_IS_ENDED(state); done += count)
        number = kdbx4_step(state, file, made.length, opened + done, room - done, &count);
    return number;
}

static int wrong(const char *what) {
    const char *form = "bench: %s, cipher %d, payload %zu in blocks of %zu\n";
    fprintf(stderr, form, what, made.cipher, made.payload, made.block);
    return 0;
}

static int check_vault(enum cipher cipher, size_t block, size_t payload) {
    size_t count = 77;
    make(cipher, block, payload);
    memset(opened, 0xaa, payload + 1);
    if (kdbx4_open(file, made.length, transformed, opened, payload, &count, &place) != 0) return wrong("refused whole");
    if (count != payload) return wrong("counted");
    if (memcmp(opened, message, payload) != 0 || opened[payload] != 0xaa) return wrong("opened whole");
    memset(opened, 0xaa, payload + 1);
    if (open_steps(payload) != 0) return wrong("refused by steps");
    if (memcmp(opened, message, payload) != 0 || opened[payload] != 0xaa) return wrong("opened by steps");
    if (peer_open() != (long)payload || memcmp(peer_opened, message, payload) != 0) return wrong("the peer's");
    return 1;
}

// Byte `at` of the vault changed: the whole opener answers the number, with the place 0, and leaves the output and the
// count.
static int check_refusal(size_t at, uint8_t expected) {
    size_t count = 77;
    file[at] ^= 1;
    untouched();
    uint8_t whole = kdbx4_open(file, made.length, transformed, ours, sizeof ours, &count, &place);
    int kept = refused("a changed vault", whole, expected) && count == 77 && place == 0;
    uint8_t steps = open_steps(sizeof opened);
    int closed = peer_open() == -1;
    file[at] ^= 1;
    return kept && closed && steps == expected ? 1 : wrong("a changed byte");
}

// The longest vault, in blocks of 1 MiB. A byte more is refused, whole and by steps.
static int check_longest(enum cipher cipher) {
    static const size_t longest[2] = {16776319, 16776337};
    size_t count = 77;
    if (!check_vault(cipher, 1 << 20, longest[cipher])) return 0;
    if (made.length + 16 <= KDBX4_FILE_LIMIT) return wrong("not the longest");
    untouched();
    uint8_t number = kdbx4_open(file, KDBX4_FILE_LIMIT + 1, transformed, ours, sizeof ours, &count, &place);
    if (!refused("a file past the limit", number, 1) || count != 77) return 0;
    made.length = KDBX4_FILE_LIMIT + 1;
    number = open_steps(sizeof opened);
    made.length = 0;
    return number == 1 ? 1 : wrong("opened by steps past the limit");
}

static int check(void) {
    static const size_t blocks[] = {1, 16, 17, 1000, 16384, 1 << 20};
    for (enum cipher cipher = AES; cipher <= CHACHA20; cipher++) {
        for (size_t b = 0; b < sizeof blocks / sizeof *blocks; b++)
            for (size_t n = 0; n <= 3000; n = n * 5 / 4 + 1)
                if (!check_vault(cipher, blocks[b], n)) return 0;
        if (!check_vault(cipher, 16384, 100000) || !check_vault(cipher, 1 << 20, 3499880)) return 0;
        if (!check_vault(cipher, 1 << 20, LARGE) || !check_longest(cipher)) return 0;
        if (!check_vault(cipher, 1000, 5000)) return 0;
        if (!check_refusal(0, 3) || !check_refusal(made.header, 12) || !check_refusal(made.header + 32, 13)) return 0;
        if (!check_refusal(made.header + 64, 14) || !check_refusal(made.length - 2000, 14)) return 0;
    }
    return 1;
}

#define OPENS(name, cipher, block)                                                                            \
    static void whole_##name(size_t n) {                                                                      \
        size_t count;                                                                                         \
        make(cipher, block, n), kdbx4_open(file, made.length, transformed, opened, n, &count, &place);        \
    }                                                                                                         \
    static void steps_##name(size_t n) { make(cipher, block, n), open_steps(n); }                             \
    static void peer_##name(size_t n) { make(cipher, block, n), peer_open(); }

OPENS(aes_1MiB, AES, 1 << 20)
OPENS(aes_16KiB, AES, 16384)
OPENS(aes_1000B, AES, 1000)
OPENS(aes_16B, AES, 16)
OPENS(chacha20_1MiB, CHACHA20, 1 << 20)
OPENS(chacha20_16KiB, CHACHA20, 16384)
OPENS(chacha20_1000B, CHACHA20, 1000)
OPENS(chacha20_16B, CHACHA20, 16)

// The payload of a file of about so many bytes.
#define IN(size, block) ((size_t)(size) * (block) / ((block) + 36))
#define ROW(name, goal, payload, ours, peer) {name, goal, "byte", payload, payload, ours, peer}

static const struct row rows[] = {
    ROW("open-aes-1MiB", "1.10", IN(WHOLE, 1 << 20), whole_aes_1MiB, peer_aes_1MiB),
    ROW("open-aes-1MiB-large", "1.10", IN(LARGE, 1 << 20), whole_aes_1MiB, peer_aes_1MiB),
    ROW("open-aes-16KiB", "1.10", IN(WHOLE, 16384), whole_aes_16KiB, peer_aes_16KiB),
    ROW("open-aes-16KiB-half", "1.10", IN(HALF, 16384), whole_aes_16KiB, peer_aes_16KiB),
    ROW("open-aes-1000B", "-", IN(WHOLE, 1000), whole_aes_1000B, peer_aes_1000B),
    ROW("open-aes-16B", "-", IN(WHOLE, 16), whole_aes_16B, peer_aes_16B),
    ROW("open-aes-16B-half", "-", IN(HALF, 16), whole_aes_16B, peer_aes_16B),
    ROW("open-aes-steps-1MiB", "1.10", IN(WHOLE, 1 << 20), steps_aes_1MiB, peer_aes_1MiB),
    ROW("open-aes-steps-1MiB-large", "1.10", IN(LARGE, 1 << 20), steps_aes_1MiB, peer_aes_1MiB),
    ROW("open-aes-steps-16KiB", "1.10", IN(WHOLE, 16384), steps_aes_16KiB, peer_aes_16KiB),
    ROW("open-aes-steps-16KiB-half", "1.10", IN(HALF, 16384), steps_aes_16KiB, peer_aes_16KiB),
    ROW("open-aes-steps-1000B", "-", IN(WHOLE, 1000), steps_aes_1000B, peer_aes_1000B),
    ROW("open-aes-steps-16B", "-", IN(WHOLE, 16), steps_aes_16B, peer_aes_16B),
    ROW("open-aes-steps-16B-half", "-", IN(HALF, 16), steps_aes_16B, peer_aes_16B),
    ROW("open-chacha20-1MiB", "1.10", IN(WHOLE, 1 << 20), whole_chacha20_1MiB, peer_chacha20_1MiB),
    ROW("open-chacha20-1MiB-large", "1.10", IN(LARGE, 1 << 20), whole_chacha20_1MiB, peer_chacha20_1MiB),
    ROW("open-chacha20-16KiB", "1.10", IN(WHOLE, 16384), whole_chacha20_16KiB, peer_chacha20_16KiB),
    ROW("open-chacha20-1000B", "-", IN(WHOLE, 1000), whole_chacha20_1000B, peer_chacha20_1000B),
    ROW("open-chacha20-16B", "-", IN(WHOLE, 16), whole_chacha20_16B, peer_chacha20_16B),
    ROW("open-chacha20-steps-1MiB", "1.10", IN(WHOLE, 1 << 20), steps_chacha20_1MiB, peer_chacha20_1MiB),
    ROW("open-chacha20-steps-1MiB-large", "1.10", IN(LARGE, 1 << 20), steps_chacha20_1MiB, peer_chacha20_1MiB),
    ROW("open-chacha20-steps-16KiB", "1.10", IN(WHOLE, 16384), steps_chacha20_16KiB, peer_chacha20_16KiB),
    ROW("open-chacha20-steps-1000B", "-", IN(WHOLE, 1000), steps_chacha20_1000B, peer_chacha20_1000B),
    ROW("open-chacha20-steps-16B", "-", IN(WHOLE, 16), steps_chacha20_16B, peer_chacha20_16B),
    {0},
};

static const struct state states[] = {{0}};

const struct family opening = {rows, states, check};
