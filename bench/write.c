// Writing a vault, against the same work over mbedTLS: the header's hash and tag, the encryption of each block, and its
// tag. The peer's header is made beforehand: it copies that. Blocks have 1,048,576 bytes, as document 02's Item 7 says.
// Its AES is aes.c without AES-NI, as in aes.c here.
#include "vault.h"

#define BLOCK KDBX4_WRITTEN_BLOCK

extern __typeof__(mbedtls_aes_setkey_enc) full_mbedtls_aes_setkey_enc;
extern __typeof__(mbedtls_aes_crypt_cbc) full_mbedtls_aes_crypt_cbc;

static uint8_t written[KDBX4_FILE_LIMIT], peer_written[KDBX4_FILE_LIMIT], opened[KDBX4_FILE_LIMIT];

// The header that the peer copies, and the cipher that it names.
static struct {
    enum cipher cipher;
    size_t length;
    uint8_t bytes[512];
} header;

// What ours writes: the number that it answers.
static uint8_t write_ours(enum cipher cipher, size_t n, size_t room, size_t *count) {
    const uint8_t *id = (const uint8_t *)identifiers[cipher];
    return kdbx4_write(MINOR, id, 16, SEED, 32, NONCE, nonce_length[cipher], KDBX4_AES_KDF, KDF_SEED, 32, ROUNDS, 0,
                       0, message, 0, transformed, message, n, written, room, count);
}

// Makes the header of a cipher, unless it is there.
static void make_header(enum cipher cipher) {
    if (header.length && header.cipher == cipher) return;
    header.cipher = cipher, header.length = put_header(cipher, header.bytes);
}

// What a caller of mbedTLS writes of the message's first n bytes: the file's length, or -1 where it has no room.
static long peer_write(size_t n) {
    uint8_t k[32], base[64], iv[16], *at = peer_written;
    mbedtls_md_context_t c;
    mbedtls_aes_context aes;
    mbedtls_chacha20_context stream;
    size_t text = header.cipher == AES ? n / 16 * 16 + 16 : n, done = 0, h = header.length;
    if (h + 64 + text + 36 * ((text + BLOCK - 1) / BLOCK + 1) > sizeof peer_written) return -1;
    md_start(&c), cipher_key(k), tag_base(base);
    memcpy(at, header.bytes, h);
    mbedtls_sha256_ret(at, h, at + h, 0);
    tag_of(&c, base, HEADER_NUMBER, at, h, at + h + 32);
    at += h + 64;
    if (header.cipher == AES)
        full_mbedtls_aes_setkey_enc(&aes, k, 256), memcpy(iv, NONCE, 16);
    else
        mbedtls_chacha20_init(&stream), mbedtls_chacha20_setkey(&stream, k), mbedtls_chacha20_starts(&stream, NONCE, 0);
    for (uint64_t number = 0, last = 0; !last; number++) {
        size_t size = text - done < BLOCK ? text - done : BLOCK, given = n - done < size ? n - done : size;
        put_le(at + 32, size, 4);
        if (header.cipher == CHACHA20) {
            mbedtls_chacha20_update(&stream, size, message + done, at + 36);
        } else if (size != 0) {
            memcpy(at + 36, message + done, given), memset(at + 36 + given, size - given, size - given);
            full_mbedtls_aes_crypt_cbc(&aes, MBEDTLS_AES_ENCRYPT, size, iv, at + 36, at + 36);
        }
        tag_of(&c, base, number, at + 32, 4 + size, at);
        at += 36 + size, done += size, last = size == 0;
    }
    mbedtls_md_free(&c);
    if (header.cipher == CHACHA20) mbedtls_chacha20_free(&stream);
    return at - peer_written;
}

static int wrong(const char *what, size_t n) {
    fprintf(stderr, "bench: %s, cipher %d, payload %zu\n", what, header.cipher, n);
    return 0;
}

// Both files byte for byte, in exactly the room that they need; and ours opens again.
static int check_vault(enum cipher cipher, size_t n) {
    size_t count = 77;
    make_header(cipher);
    long length = peer_write(n);
    if (length < 0) return wrong("the peer has no room", n);
    memset(written, 0xaa, length + 1);
    if (write_ours(cipher, n, length - 1, &count) != 17 || count != 77) return wrong("written without room", n);
    for (long i = 0; i <= length; i++)
        if (written[i] != 0xaa) return wrong("changed by a refusal", n);
    if (write_ours(cipher, n, length, &count) != 0 || count != (size_t)length) return wrong("refused or miscounted", n);
    if (memcmp(written, peer_written, length) != 0) return wrong("differs from the peer's", n);
    if (written[length] != 0xaa) return wrong("written behind the room", n);
    uint8_t number = kdbx4_open(written, length, transformed, opened, n, &count, &place);
    if (number != 0 || count != n) return wrong("not opened", n);
    return memcmp(opened, message, n) == 0 ? 1 : wrong("opened as another payload", n);
}

static int check(void) {
    static const size_t sizes[] = {16383, 16384,     16385,     100000, BLOCK - 17, BLOCK - 16, BLOCK - 1,
                                   BLOCK, BLOCK + 1, 2 * BLOCK, HALF,   WHOLE,      LARGE};
    for (enum cipher cipher = AES; cipher <= CHACHA20; cipher++) {
        for (size_t n = 0; n <= 3000; n = n * 5 / 4 + 1)
            if (!check_vault(cipher, n)) return 0;
        for (size_t s = 0; s < sizeof sizes / sizeof *sizes; s++)
            if (!check_vault(cipher, sizes[s])) return 0;
    }
    return 1;
}

#define WRITES(name, cipher)                                                                                  \
    static void ours_##name(size_t n) {                                                                       \
        size_t count;                                                                                         \
        make_header(cipher), write_ours(cipher, n, sizeof written, &count);                                   \
    }                                                                                                         \
    static void peer_##name(size_t n) { make_header(cipher), peer_write(n); }

WRITES(aes, AES)
WRITES(chacha20, CHACHA20)

#define ROW(name, payload, ours, peer) {name, "1.10", "byte", payload, payload, ours, peer}

static const struct row rows[] = {
    ROW("write-aes", WHOLE, ours_aes, peer_aes),
    ROW("write-aes-half", HALF, ours_aes, peer_aes),
    ROW("write-aes-large", LARGE, ours_aes, peer_aes),
    ROW("write-chacha20", WHOLE, ours_chacha20, peer_chacha20),
    ROW("write-chacha20-half", HALF, ours_chacha20, peer_chacha20),
    ROW("write-chacha20-large", LARGE, ours_chacha20, peer_chacha20),
    {0},
};

static const struct state states[] = {{0}};

const struct family writing = {rows, states, check};
