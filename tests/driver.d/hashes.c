/* Hashes in parts, and tags. */
#include "operations.h"

#include <string.h>

/* What tells one hash from the other. */
typedef struct {
    const char *name;
    size_t state, digest;
    void (*start)(uint8_t *state);
    uint8_t (*feed)(uint8_t *state, const uint8_t *part, size_t n);
    void (*finish)(const uint8_t *state, uint8_t *out);
} algorithm;

static const algorithm algorithms[] = {
    {"sha256", KDBX4_SHA256_STATE, 32, kdbx4_sha256_start, kdbx4_sha256_feed, kdbx4_sha256_finish},
    {"sha512", KDBX4_SHA512_STATE, 64, kdbx4_sha512_start, kdbx4_sha512_feed, kdbx4_sha512_finish},
};

static const algorithm *asked_algorithm(request *q) {
    for (size_t i = 0; i < sizeof algorithms / sizeof *algorithms; i++)
        if (field_is(q, q->asked, "alg", algorithms[i].name)) return &algorithms[i];
    request_fault(q, "alg: unknown");
}

/* Feeds a part. After a refusal the state is to be as it was. */
static uint8_t fed(request *q, const algorithm *a, uint8_t *state, slice part) {
    uint8_t before[KDBX4_SHA512_STATE];
    memcpy(before, state, a->state);
    uint8_t no = a->feed(state, part.at, part.length);
    if (no != 0 && memcmp(before, state, a->state) != 0) q->touched = true;
    return no;
}

/* The numbers are those of the feeds; no other call can refuse, so the answer's own is 0. */
void op_hash(request *q) {
    const algorithm *a = asked_algorithm(q);
    const json_value *parts = field_array(q, "parts");
    uint8_t *state = lend(q, a->state), *digest = lend(q, a->digest);
    a->start(state);
    answer_no(q, 0);
    json_key(&q->answer, "feeds");
    json_begin(&q->answer, '[');
    for (const json_value *part = parts->first; part; part = part->next) {
        const struct block *last = q->blocks;
        json_number(&q->answer, fed(q, a, state, value_bytes(q, part, "parts")));
        request_free(q, last);
    }
    json_end(&q->answer, ']');
    a->finish(state, digest);
    answer_bytes(q, "digest", (slice){digest, a->digest});
}

void op_tag(request *q) {
    slice key = field_bytes(q, q->asked, "key"), data = field_bytes(q, q->asked, "data");
    uint8_t *tag = lend(q, 32);
    uint8_t no = kdbx4_hmac_sha256(key.at, key.length, data.at, data.length, tag);
    see(q, no, tag, 32, 32);
    if (answer_no(q, no)) answer_bytes(q, "tag", (slice){tag, 32});
}
