/* What the examples share: a vault is read and opened with a password, block by block.
 *
 * A refusal prints its number (docs/REFUSALS.md), a reader's its place too, to standard error, and the status is 1.
 * The transformation of the key is the long part: AES-KDF runs in parts that leave time for a screen or a watchdog,
 * Argon2 in one call. To Argon2 a firmware lends the words that it can spare: 17 refuses a vault that needs more, and
 * 64 MiB are enough for any.
 *
 * The arrays here take every vault: 16 MiB for the file, 16 for the payload and 64 for Argon2, on the board with 128.
 * The terminal with 8 MiB cannot hold a file of 16 MiB: it makes the arrays as large as it has room for, and refuses a
 * longer file by itself; 17 refuses a payload that is longer than what is lent. Opening by blocks needs the file, and
 * room for one block and 15 bytes where a block's payload is used up before the next step.
 */
#include <stdio.h>
#include <stdlib.h>
#include <string.h>

#include "kdbx4.h"

#define ROUNDS_AT_ONCE 100000

static uint8_t file[KDBX4_FILE_LIMIT + 1], payload[KDBX4_FILE_LIMIT];
static uint64_t argon2_words[KDBX4_ARGON2_WORDS(67108864, 1)];
static struct {
    uint8_t composite[32], t[32], halves[32], kdf[KDBX4_AES_KDF_STATE], opener[KDBX4_OPENER_STATE];
} secret;

/* Clears memory, through a pointer that the compiler may not leave out. */
static void clear(void *memory, size_t n) {
    for (volatile uint8_t *byte = memory; n > 0; n--) *byte++ = 0;
}

static void leave(int status) {
    clear(&secret, sizeof secret), clear(payload, sizeof payload);
    exit(status);
}

/* Goes on where a call was accepted. A reader tells where the fault is: the byte of the file, or of the payload. */
static void check_at(const char *what, uint8_t number, size_t place) {
    if (number == 0) return;
    fprintf(stderr, "%s: refused with %d", what, number);
    if (place != 0) fprintf(stderr, " at byte %zu", place);
    fputc('\n', stderr);
    leave(1);
}

static void check(const char *what, uint8_t number) { check_at(what, number, 0); }

/* T by AES-KDF, of a composite key and a header's figures. */
static void transform(const kdbx4_header_figures *header) {
    uint32_t done = 0;
    check("rounds", kdbx4_aes_kdf_start(secret.composite, file + header->salt.start, header->rounds, secret.kdf));
    while (done < header->rounds) {
        kdbx4_aes_kdf_advance(secret.kdf, ROUNDS_AT_ONCE, &done, secret.halves);
        fprintf(stderr, "%u of %llu rounds\n", done, (unsigned long long)header->rounds);
    }
    check("key", kdbx4_aes_kdf_finish(secret.kdf, secret.t));
}

/* T by Argon2, which leaves the words that it used as zeros. */
static void transform_argon2(const kdbx4_header_figures *header) {
    check("key", kdbx4_argon2(header->kdf, secret.composite, file + header->salt.start, header->salt.length,
                              header->rounds, header->memory, header->lanes, argon2_words,
                              sizeof argon2_words / sizeof *argon2_words, secret.t));
}

/* The payload, block by block: its length. A step is handed the whole file, and what is left of the room. */
static size_t open_blocks(size_t n) {
    size_t length = 0, count, place;
    uint8_t number = kdbx4_start(file, n, secret.t, secret.opener, &place);
    check_at("start", number, place);
    while (!KDBX4_IS_ENDED(secret.opener)) {
        check("block", kdbx4_step(secret.opener, file, n, payload + length, sizeof payload - length, &count));
        length += count;
    }
    return length;
}

/* Opens the vault of a path with a password, which is cleared: the payload's length, and what its inner header says. */
static size_t open_vault(const char *path, char *password, kdbx4_inner_figures *inner) {
    FILE *vault = fopen(path, "rb");
    if (!vault) perror(path), exit(2);
    size_t n = fread(file, 1, sizeof file, vault); /* a byte over the limit, if there is one, so that it is refused */
    fclose(vault);

    const uint8_t none[1] = {0};
    kdbx4_header_figures header;
    size_t place, p = strlen(password);
    uint8_t number = kdbx4_header(file, n, &header, &place);
    check_at("header", number, place);
    check("password", kdbx4_composite((const uint8_t *)password, p, 1, none, 0, 0, none, 0, 0, secret.composite));
    clear(password, p);
    header.kdf == KDBX4_AES_KDF ? transform(&header) : transform_argon2(&header);

    size_t length = open_blocks(n);
    number = kdbx4_inner(payload, length, inner, &place);
    check_at("inner header", number, place);
    return length;
}
