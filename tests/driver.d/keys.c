/* From credentials to T, by AES-KDF in helpings or by Argon2, and from T to the keys of a file. */
#include "kdf.h"
#include "operations.h"
#include "states.h"

/* A credential, and whether it is given. */
typedef struct {
    slice bytes;
    uint8_t given;
} credential;

/* Beside the flag of one that is absent 32 bytes are lent, which the library is not to look at. */
static credential asked_credential(request *q, const char *name) {
    const json_value *asked = field_find(q->asked, name);
    if (!asked) return (credential){lend_input(q, (slice){NULL, 0}, 32), 0};
    return (credential){value_bytes(q, asked, name), 1};
}

void op_composite(request *q) {
    credential p = asked_credential(q, "password"), k = asked_credential(q, "keyfile");
    credential h = asked_credential(q, "prehash");
    uint8_t *key = lend(q, 32);
    uint8_t no = kdbx4_composite(p.bytes.at, p.bytes.length, p.given, k.bytes.at, k.bytes.length, k.given, h.bytes.at,
                                 h.bytes.length, h.given, key);
    see(q, no, key, 32, 32);
    if (answer_no(q, no)) answer_bytes(q, "key", (slice){key, 32});
}

/* A helping of n rounds: how many are done in all, and the halves. */
static void answer_helping(request *q, uint8_t *state, uint64_t n) {
    uint32_t *done = lend(q, sizeof *done);
    uint8_t *halves = lend(q, 32);
    kdbx4_aes_kdf_advance(state, n, done, halves);
    json_begin(&q->answer, '[');
    json_number(&q->answer, *done);
    json_hex(&q->answer, halves, 32);
    json_end(&q->answer, ']');
}

/* What each helping tells, under a name; the state behind each is added to those seen, if any are to be. */
static void answer_helpings(request *q, const char *name, uint8_t *state, states *seen) {
    const json_value *helpings = field_array(q, "helpings");
    json_key(&q->answer, name);
    json_begin(&q->answer, '[');
    for (const json_value *n = helpings->first; n; n = n->next) {
        answer_helping(q, state, value_number(q, n, "helpings", UINT64_MAX));
        add_state(seen, state);
    }
    json_end(&q->answer, ']');
}

/* T, asked for once behind the helpings, and the number of asking. */
static void answer_t(request *q, const uint8_t *state) {
    uint8_t *t = lend(q, 32);
    uint8_t no = kdbx4_aes_kdf_finish(state, t);
    see(q, no, t, 32, 32);
    json_key(&q->answer, "T");
    if (no == 0)
        json_hex(&q->answer, t, 32);
    else
        json_null(&q->answer);
    answer_number(q, "T_no", no);
}

/* Starts the rounds that the request asks for: the library's number. */
static uint8_t start_rounds(request *q, uint8_t *state) {
    const uint8_t *composite = field_array_of(q, q->asked, "composite", 32);
    const uint8_t *seed = field_array_of(q, q->asked, "S", 32);
    return kdbx4_aes_kdf_start(composite, seed, field_number(q, q->asked, "R", UINT64_MAX), state);
}

void op_rounds(request *q) {
    uint8_t *state = lend(q, KDBX4_AES_KDF_STATE);
    if (!answer_no(q, start_rounds(q, state))) return;
    answer_helpings(q, "helpings", state, NULL);
    answer_t(q, state);
}

/* No helping is refused, so the number is 0, and the start's stands apart. */
void op_helpings(request *q) {
    uint8_t *state = field_state(q, KDBX4_AES_KDF_STATE);
    answer_no(q, 0);
    if (!state) {
        state = lend(q, KDBX4_AES_KDF_STATE);
        answer_number(q, "started", start_rounds(q, state));
    }
    states seen = no_states(q, KDBX4_AES_KDF_STATE, field_array(q, "helpings"));
    add_state(&seen, state);
    answer_helpings(q, "told", state, &seen);
    answer_states(q, &seen);
    answer_t(q, state);
}

/* More words than a run uses: those of the memory asked for, of at most 64 MiB, and some behind them. */
static size_t enough_words(uint64_t memory) { return (memory < 67108864 ? (size_t)memory : 67108864) / 8 + 16; }

/* The words lent to a run: those used, none after a refusal, are to be zeros, and those behind them as they were. */
static void see_words(request *q, uint8_t no, const uint64_t *words, size_t n, size_t used) {
    see(q, no, words, n * sizeof *words, used * sizeof *words);
    for (size_t i = 0; i < used; i++)
        if (words[i] != 0) q->touched = true;
}

void op_argon2(request *q) {
    uint32_t kind = field_kind(q, q->asked), lanes = (uint32_t)field_number(q, q->asked, "P", UINT32_MAX);
    const uint8_t *composite = field_array_of(q, q->asked, "composite", 32);
    slice salt = field_bytes(q, q->asked, "S");
    uint64_t passes = field_number(q, q->asked, "I", UINT64_MAX), memory = field_number(q, q->asked, "M", UINT64_MAX);
    size_t n = field_lent(q, enough_words(memory));
    uint64_t *words = lend(q, n * sizeof *words);
    uint8_t *t = lend(q, 32);
    uint8_t no = kdbx4_argon2(kind, composite, salt.at, salt.length, passes, memory, lanes, words, n, t);
    see(q, no, t, 32, 32);
    see_words(q, no, words, n, no == 0 ? KDBX4_ARGON2_WORDS(memory, lanes) : 0);
    if (answer_no(q, no)) answer_bytes(q, "T", (slice){t, 32});
}

void op_keys(request *q) {
    const uint8_t *seed = field_array_of(q, q->asked, "seed", 32), *t = field_array_of(q, q->asked, "T", 32);
    uint64_t i = field_number(q, q->asked, "i", UINT64_MAX);
    uint8_t *cipher_key = lend(q, 32), *base = lend(q, 64), *tag_key = lend(q, 64);
    kdbx4_cipher_key(seed, t, cipher_key);
    kdbx4_tag_base(seed, t, base);
    kdbx4_tag_key(i, base, tag_key);
    answer_no(q, 0);
    answer_bytes(q, "cipher_key", (slice){cipher_key, 32});
    answer_bytes(q, "tag_base", (slice){base, 64});
    answer_bytes(q, "tag_key", (slice){tag_key, 64});
}
