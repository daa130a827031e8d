/* The proved KDBX 4 library for C. `rt lib` in crates/exports writes crates/exports/out/libexports.a.
 *
 * A function that can refuse answers a number: 0 is success, any other is a refusal (docs/REFUSALS.md). A refusal changes
 * no byte of an output, a count or figures. A success changes the bytes due at the front of an output, and none behind them.
 *
 * A reader (of a header, a dictionary, a vault, an inner header) always writes `place`: where the fault is that a refusal
 * names, counted in bytes from the front of the file, dictionary or payload that it was handed. 2 to 11, 20 and 22 of a
 * header or a dictionary have one: 2 the input's length, 3 and 4 the bytes that differ, 8 the end field, any other the first
 * byte of the field or of the dictionary's item at fault, or where the dictionary begins if it is no item's. It is 0 beside
 * every other number, beside those of the hash, the tag and the blocks behind a header, and on success.
 *
 * A state (of a hash, of the key transformation, of an opening, of an inner stream) is an array that the caller lends. It is
 * bytes to be kept and handed back, and may be copied. Every value of the bytes is answered. An opening whose mark or cipher no
 * call leaves, zeros too, counts as closed, and so does one whose numbers do not fit: a place over the file's limit, blocks and
 * ciphertext that have no room before it, more blocks than bytes of ciphertext, or ciphertext and no block. Every step of it is
 * 19. A key transformation whose mark or counts no call leaves counts as refused: T is 19. An inner stream whose cipher or
 * position no call leaves, zeros too, counts as refused: every stretch is 19. Keys, nonces, halves and held bytes are taken as
 * they stand, and of a hash every value is a state.
 *
 * A slice is a pointer that is not NULL, and a length, 0 too. Outputs, states and inputs of one call do not overlap.
 * No function keeps a pointer, allocates memory or has memory of its own.
 */
#ifndef KDBX4_H
#define KDBX4_H

#include <stddef.h>
#include <stdint.h>

/* Limits: a file or a payload; a password or a key file; a message of a hash or tag; the rounds of AES-KDF, and the least
 * rounds of a vault that is read or written. */
#define KDBX4_FILE_LIMIT 16777216
#define KDBX4_CREDENTIAL_LIMIT 4194304
#define KDBX4_MESSAGE_LIMIT 33554432
#define KDBX4_ROUNDS_LIMIT 4000000
#define KDBX4_ROUNDS_LEAST 6000

/* The data of a block that is written, but for the last. Blocks of any size are read. */
#define KDBX4_WRITTEN_BLOCK 1048576

/* The key derivation functions, as a header's figures and the functions below number them. */
enum { KDBX4_AES_KDF = 0, KDBX4_ARGON2D = 1, KDBX4_ARGON2ID = 2 };

/* A stretch of a file, a payload or a dictionary. */
typedef struct {
    uint64_t start, length;
} kdbx4_place;

/* ---- Hashes (FIPS 180-4) and tags (RFC 2104) ---- */

/* 1: a message of more than KDBX4_MESSAGE_LIMIT bytes (of a tag: a key of more too). */
uint8_t kdbx4_sha256(const uint8_t *message, size_t n, uint8_t out[32]);
uint8_t kdbx4_sha512(const uint8_t *message, size_t n, uint8_t out[64]);
uint8_t kdbx4_hmac_sha256(const uint8_t *key, size_t k, const uint8_t *message, size_t n, uint8_t out[32]);

/* A hash in parts. A feed that would pass the limit is refused with 1, and leaves the state as it was. */
#define KDBX4_SHA256_STATE 100
#define KDBX4_SHA512_STATE 196
void kdbx4_sha256_start(uint8_t state[KDBX4_SHA256_STATE]);
uint8_t kdbx4_sha256_feed(uint8_t state[KDBX4_SHA256_STATE], const uint8_t *part, size_t n);
void kdbx4_sha256_finish(const uint8_t state[KDBX4_SHA256_STATE], uint8_t out[32]);
void kdbx4_sha512_start(uint8_t state[KDBX4_SHA512_STATE]);
uint8_t kdbx4_sha512_feed(uint8_t state[KDBX4_SHA512_STATE], const uint8_t *part, size_t n);
void kdbx4_sha512_finish(const uint8_t state[KDBX4_SHA512_STATE], uint8_t out[64]);

/* ---- Ciphers: in place, never refused ---- */

/* AES-256-CBC (FIPS 197, SP 800-38A): the whole blocks of 16 bytes; the bytes behind the last one stay. */
void kdbx4_aes256_cbc_encrypt(const uint8_t key[32], const uint8_t iv[16], uint8_t *out, size_t n);
void kdbx4_aes256_cbc_decrypt(const uint8_t key[32], const uint8_t iv[16], uint8_t *out, size_t n);

/* ChaCha20 (RFC 8439): the stream from its byte `at` on. */
void kdbx4_chacha20(const uint8_t key[32], const uint8_t nonce[12], uint64_t at, uint8_t *out, size_t n);

/* Salsa20, of twenty rounds (D. J. Bernstein's specification): the stream from its byte `at` on. */
void kdbx4_salsa20(const uint8_t key[32], const uint8_t nonce[8], uint64_t at, uint8_t *out, size_t n);

/* ---- Keys ---- */

/* The composite key of a password, a key file or both, or a pre-hash. A credential is given where its flag is not 0; an
 * empty password is a credential. A key file of 32 bytes is taken as it stands, one of exactly 64 hexadecimal digits is
 * decoded, any other is hashed. 1: a password or key file over KDBX4_CREDENTIAL_LIMIT; then 18: no credential, a
 * pre-hash that is not 32 bytes long, or one beside another credential. */
uint8_t kdbx4_composite(const uint8_t *password, size_t p, uint8_t has_password, const uint8_t *key_file, size_t k,
                        uint8_t has_key_file, const uint8_t *pre_hash, size_t h, uint8_t has_pre_hash, uint8_t out[32]);

/* AES-KDF: the transformed key T of a composite key, in one call. 11: over KDBX4_ROUNDS_LIMIT. Fewer than KDBX4_ROUNDS_LEAST
 * are taken here, and in parts: a vault with so few is refused by its header. */
uint8_t kdbx4_aes_kdf(const uint8_t composite[32], const uint8_t seed[32], uint64_t rounds, uint8_t out[32]);

/* AES-KDF in parts. `start`: 11, and a state that only 19 comes of. `advance`: at most n rounds more; `done` is how many
 * were done in all, and `halves` the key's halves after so many. The rounds may be cut anywhere: a and then b leave the
 * bytes that a + b leaves, where the sum is below 2^64; 0 tells how far it is, and leaves what `start` or `advance` wrote.
 * `finish`: T, or 19 before all rounds are done. */
#define KDBX4_AES_KDF_STATE 281
uint8_t kdbx4_aes_kdf_start(const uint8_t composite[32], const uint8_t seed[32], uint64_t rounds,
                            uint8_t state[KDBX4_AES_KDF_STATE]);
void kdbx4_aes_kdf_advance(uint8_t state[KDBX4_AES_KDF_STATE], uint64_t n, uint32_t *done, uint8_t halves[32]);
uint8_t kdbx4_aes_kdf_finish(const uint8_t state[KDBX4_AES_KDF_STATE], uint8_t out[32]);

/* Argon2d and Argon2id (RFC 9106), version 0x13: the transformed key T of a composite key, a salt of s bytes, passes (I),
 * memory in bytes (M) and lanes (P). The n words lent are used from the front, KDBX4_ARGON2_WORDS of them, whatever they
 * hold; they are zeros after it, and those behind them stay. 9: the KDF is neither; 22: a salt of fewer than 8 or more than
 * 64 bytes, passes not 1 to 64, memory not 8,192 to 67,108,864, lanes not 1 to 16, or under 8,192 bytes of memory a lane;
 * 17: too few words. A refusal changes nothing. */
#define KDBX4_ARGON2_WORDS(memory, lanes) \
    ((lanes) == 0 ? 0 : (memory) / 1024 / (4 * (lanes)) * (4 * (lanes)) * 128)
uint8_t kdbx4_argon2(uint32_t kdf, const uint8_t composite[32], const uint8_t *salt, size_t s, uint64_t passes,
                     uint64_t memory, uint32_t lanes, uint64_t *words, size_t n, uint8_t out[32]);

/* Of a master seed and T: the cipher key, and the base of the tag keys. Of the base: the tag key of block i. */
void kdbx4_cipher_key(const uint8_t seed[32], const uint8_t t[32], uint8_t out[32]);
void kdbx4_tag_base(const uint8_t seed[32], const uint8_t t[32], uint8_t out[64]);
void kdbx4_tag_key(uint64_t i, const uint8_t base[64], uint8_t out[64]);

/* ---- Outer header ---- */

enum { KDBX4_AES256 = 0, KDBX4_CHACHA20 = 1 };

/* What an accepted header says; places are in the file. A custom dictionary that is absent has the start 0. */
typedef struct {
    uint64_t minor;  /* 0 or 1 */
    uint64_t cipher; /* KDBX4_AES256 or KDBX4_CHACHA20 */
    uint64_t length; /* of the header */
    kdbx4_place seed, nonce, kdf_dictionary, custom;
    uint64_t kdf;    /* KDBX4_AES_KDF, KDBX4_ARGON2D or KDBX4_ARGON2ID */
    kdbx4_place salt; /* S: of AES-KDF its seed, 32 bytes */
    uint64_t rounds; /* R of AES-KDF, or the passes I of Argon2 */
    uint64_t memory; /* M of Argon2, in bytes; 0 of AES-KDF */
    uint64_t lanes;  /* P of Argon2; 0 of AES-KDF */
} kdbx4_header_figures;

/* 1 to 11, 20 (of AES-KDF, fewer than KDBX4_ROUNDS_LEAST rounds), 22. */
uint8_t kdbx4_header(const uint8_t *file, size_t n, kdbx4_header_figures *figures, size_t *place);

/* The text of the header listing: of a refused header too, so that only 17 is answered. A file over 65,536 bytes, the limit
 * of a PC program's input, lists as R01. */
uint8_t kdbx4_list(const uint8_t *file, size_t n, uint8_t *out, size_t room, size_t *count);

/* ---- Dictionaries ---- */

/* 10 or 6, or 0 of a sound dictionary. */
uint8_t kdbx4_dictionary_check(const uint8_t *dictionary, size_t n, size_t *place);

/* What a name is found as: `found` is 0 and all else too where a sound dictionary has no such name. */
typedef struct {
    uint64_t found, type;
    kdbx4_place value;
} kdbx4_found;

uint8_t kdbx4_dictionary_find(const uint8_t *dictionary, size_t n, const uint8_t *name, size_t k, kdbx4_found *found,
                              size_t *place);

/* ---- Vaults under the transformed key T ---- */

/* Whole: the payload over the front of `out`, and its length in `count`. 1 to 17, 20, 22. */
uint8_t kdbx4_open(const uint8_t *file, size_t n, const uint8_t t[32], uint8_t *out, size_t room, size_t *count,
                   size_t *place);

/* Block by block. `start`: 1 to 13, 20, 22; a refused start gives a closed state. `step`: the next block of the file, and what
 * it makes due; 17 and 19 leave the state as it was, any other refusal closes it. A step over a block of s bytes hands over
 * at most s + 15. After the closing block KDBX4_IS_ENDED(state) holds, and a further step is 19. */
#define KDBX4_OPENER_STATE 410
#define KDBX4_IS_ENDED(state) ((state)[0] == 2)
uint8_t kdbx4_start(const uint8_t *file, size_t n, const uint8_t t[32], uint8_t state[KDBX4_OPENER_STATE], size_t *place);
uint8_t kdbx4_step(uint8_t state[KDBX4_OPENER_STATE], const uint8_t *file, size_t n, uint8_t *out, size_t room,
                   size_t *count);

/* The vault of a minor version, cipher's identifier, master seed, nonce, KDF with its figures (salt, rounds or passes, and of
 * Argon2 memory and lanes), custom dictionary (no bytes where it is absent), T and payload: over the front of `out`, and its
 * length in `count`. 4, 9 (cipher or KDF not listed), 5, 11 and 20 of AES-KDF or 22 of Argon2, 10 or 6, 1, 17. */
uint8_t kdbx4_write(uint16_t minor, const uint8_t *cipher, size_t c, const uint8_t *seed, size_t s, const uint8_t *nonce,
                    size_t i, uint32_t kdf, const uint8_t *salt, size_t k, uint64_t rounds, uint64_t memory, uint32_t lanes,
                    const uint8_t *custom, size_t d, const uint8_t t[32], const uint8_t *payload, size_t n, uint8_t *out,
                    size_t room, size_t *count);

/* ---- Inner header ---- */

/* What an accepted inner header says; places are in the payload. The document is the rest from `document` on. */
typedef struct {
    uint64_t algorithm; /* 2 (Salsa20) or 3 (ChaCha20) */
    kdbx4_place key;
    uint64_t attachments, document;
} kdbx4_inner_figures;

/* An attachment's flags, and the place of its content. */
typedef struct {
    uint64_t flags;
    kdbx4_place content;
} kdbx4_attachment_figures;

/* 1, 2, 5 to 9. An attachment counts from 0; 8 past the last. */
uint8_t kdbx4_inner(const uint8_t *payload, size_t n, kdbx4_inner_figures *figures, size_t *place);
uint8_t kdbx4_attachment(const uint8_t *payload, size_t n, size_t index, kdbx4_attachment_figures *figures,
                         size_t *place);

/* The payload of an algorithm, a key, a run of attachment fields and a document. 9, then 2, 7, 5 of the run, 1, 17. */
uint8_t kdbx4_inner_write(uint32_t algorithm, const uint8_t *key, size_t k, const uint8_t *run, size_t r,
                          const uint8_t *document, size_t d, uint8_t *out, size_t room, size_t *count);

/* ---- Inner stream: protected values, covered or uncovered, which is one operation ---- */

/* An inner key, and where a stretch ends in the stream. */
#define KDBX4_STREAM_LIMIT 4194304

/* A stretch of n bytes at a position of the stream of an algorithm, 2 (Salsa20) or 3 (ChaCha20), and the inner key: over
 * the front of `out`, and its length in `count`. 9; 1: a key, or the position and n together, over KDBX4_STREAM_LIMIT; 17.
 * Where it is accepted: covered twice at one position it is as it was, and cut in two, each part at its own position and
 * with room for it, it gives what it gives uncut. */
uint8_t kdbx4_inner_stream(uint32_t algorithm, const uint8_t *key, size_t k, uint64_t position, const uint8_t *bytes,
                           size_t n, uint8_t *out, size_t room, size_t *count);

/* One stretch after the other, as the protected values stand in the document: the stream is not restarted between them.
 * `start`: 9, 1 for the key, and a state that only 19 comes of. `apply`: the next stretch; 19, 1, 17, each of which leaves
 * the state as it was. A stretch hashes no key and makes no block but its own. Where it is accepted, it may be cut in two,
 * each part with room for it: they give what it gives, and leave the state that it leaves. */
#define KDBX4_INNER_STREAM_STATE 53
uint8_t kdbx4_inner_stream_start(uint32_t algorithm, const uint8_t *key, size_t k,
                                 uint8_t state[KDBX4_INNER_STREAM_STATE]);
uint8_t kdbx4_inner_stream_apply(uint8_t state[KDBX4_INNER_STREAM_STATE], const uint8_t *bytes, size_t n, uint8_t *out,
                                 size_t room, size_t *count);

#endif
