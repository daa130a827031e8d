/* Opening a vault, whole and block by block, and writing one. */
#include "kdf.h"
#include "operations.h"

#include <inttypes.h>
#include <stdio.h>
#include <string.h>

/* More than any opening hands over: a payload is no longer than its file. */
static size_t enough_to_open(slice file) { return file.length + 65536; }

/* More than any vault has: its blocks' tags and sizes are shorter than the blocks but for the last two. */
static size_t enough_to_write(const vault_asked *v) { return 2 * v->payload.length + v->custom.length + 65536; }

void op_open(request *q) {
    slice file = field_bytes(q, q->asked, "data");
    const uint8_t *t = field_array_of(q, q->asked, "T", 32);
    size_t room = field_lent(q, enough_to_open(file)), *count = lend(q, sizeof *count), *place = lend(q, sizeof *place);
    uint8_t *out = lend(q, room);
    uint8_t no = kdbx4_open(file.at, file.length, t, out, room, count, place);
    see(q, no, count, sizeof *count, sizeof *count);
    see(q, no, out, room, *count);
    if (!answer_read(q, no, place)) return;
    answer_number(q, "length", *count);
    answer_bytes(q, "payload", (slice){out, *count});
}

/* ---- Block by block ---- */

/* The file that step k is handed: the request's, or that cut or filled with zeros to the length in `file_lengths`. */
static slice file_of_step(request *q, slice file, const json_value *lengths, uint64_t k) {
    char name[24];
    snprintf(name, sizeof name, "%" PRIu64, k);
    const json_value *length = lengths ? field_find(lengths, name) : NULL;
    return length ? lend_input(q, file, value_number(q, length, "file_lengths", UINT64_MAX)) : file;
}

/* Before step k the state's numbers are those in `numbers`, if it has them: blocks, place and ciphertext taken, in eight
 * bytes each behind the mark and the cipher (crate states, specs/OpenerState). No call leaves such a state, a fault may. */
static void set_numbers(request *q, uint8_t *state, const json_value *numbers, uint64_t k) {
    char name[24];
    snprintf(name, sizeof name, "%" PRIu64, k);
    const json_value *set = numbers ? field_find(numbers, name) : NULL;
    uint8_t *at = state + 2;
    for (const json_value *number = set ? set->first : NULL; number && at < state + 26; number = number->next) {
        uint64_t left = value_number(q, number, "numbers", UINT64_MAX);
        for (int i = 0; i < 8; i++, left >>= 8) *at++ = (uint8_t)left;
    }
}

/* One step. After a refusal nothing is handed over; after 17 and 19 the state too is to be as it was. */
static void answer_step(request *q, uint8_t *state, slice file, size_t room) {
    uint8_t before[KDBX4_OPENER_STATE], *out = lend(q, room);
    size_t *count = lend(q, sizeof *count);
    memcpy(before, state, sizeof before);
    uint8_t no = kdbx4_step(state, file.at, file.length, out, room, count);
    bool due = as_due(q, no, count, sizeof *count, sizeof *count) && as_due(q, no, out, room, *count);
    if (no == 17 || no == 19) due = due && memcmp(before, state, sizeof before) == 0;
    size_t handed = no == 0 ? *count : 0;
    json_begin(&q->answer, '{');
    answer_no(q, no);
    answer_number(q, "count", handed);
    answer_bytes(q, "bytes", (slice){out, handed});
    if (!due) {
        json_key(&q->answer, "touched");
        json_bool(&q->answer, true);
    }
    json_end(&q->answer, '}');
}

void op_steps(request *q) {
    slice file = field_bytes(q, q->asked, "data");
    const uint8_t *t = field_array_of(q, q->asked, "T", 32);
    const json_value *lents = field_array(q, "lents");
    const json_value *lengths = field_find(q->asked, "file_lengths") ? field_object(q, "file_lengths") : NULL;
    const json_value *numbers = field_find(q->asked, "numbers") ? field_object(q, "numbers") : NULL;
    uint8_t *state = lend(q, KDBX4_OPENER_STATE);
    size_t *place = lend(q, sizeof *place);
    uint64_t k = 0;
    uint8_t no = kdbx4_start(file.at, file.length, t, state, place);
    if (!answer_read(q, no, place)) return;
    json_key(&q->answer, "steps");
    json_begin(&q->answer, '[');
    for (const json_value *lent = lents->first; lent; lent = lent->next, k++) {
        const struct block *last = q->blocks;
        slice handed = file_of_step(q, file, lengths, k);
        set_numbers(q, state, numbers, k);
        answer_step(q, state, handed, lent_within(value_number(q, lent, "lents", UINT64_MAX), enough_to_open(handed)));
        request_free(q, last);
    }
    json_end(&q->answer, ']');
}

/* ---- Writing ---- */

/* The identifier's bytes: of a cipher's short name, or as they stand. */
static slice asked_cipher(request *q) {
    static const uint8_t aes[] = {0x31, 0xC1, 0xF2, 0xE6, 0xBF, 0x71, 0x43, 0x50,
                                  0xBE, 0x58, 0x05, 0x21, 0x6A, 0xFC, 0x5A, 0xFF};
    static const uint8_t chacha[] = {0xD6, 0x03, 0x8A, 0x2B, 0x8B, 0x6F, 0x4C, 0xB5,
                                     0xA5, 0x24, 0x33, 0x9A, 0x31, 0xDB, 0xB5, 0x9A};
    if (field_is(q, q->asked, "cipher", "aes")) return lend_input(q, (slice){aes, sizeof aes}, sizeof aes);
    if (field_is(q, q->asked, "cipher", "chacha")) return lend_input(q, (slice){chacha, sizeof chacha}, sizeof chacha);
    return field_bytes(q, q->asked, "cipher");
}

/* An absent custom dictionary has no bytes, as the library wants it. */
static slice asked_custom(request *q) {
    if (field_find(q->asked, "custom")) return field_bytes(q, q->asked, "custom");
    return lend_input(q, (slice){NULL, 0}, 0);
}

void op_write(request *q) {
    vault_asked v = {
        .minor = (uint16_t)field_number(q, q->asked, "minor", UINT16_MAX),
        .cipher = asked_cipher(q),
        .seed = field_bytes(q, q->asked, "seed"),
        .nonce = field_bytes(q, q->asked, "nonce"),
        .custom = asked_custom(q),
        .payload = field_bytes(q, q->asked, "data"),
        .t = field_array_of(q, q->asked, "T", 32),
    };
    size_t room = field_lent(q, enough_to_write(&v)), *count = lend(q, sizeof *count);
    uint8_t *out = lend(q, room);
    uint8_t no = write_under_kdf(q, &v, out, room, count);
    see(q, no, count, sizeof *count, sizeof *count);
    see(q, no, out, room, *count);
    if (!answer_no(q, no)) return;
    answer_number(q, "length", *count);
    answer_bytes(q, "file", (slice){out, *count});
}
