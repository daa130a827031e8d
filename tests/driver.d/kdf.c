#include "kdf.h"

#include <string.h>

static const char *const names[] = {
    [KDBX4_AES_KDF] = "aeskdf",
    [KDBX4_ARGON2D] = "argon2d",
    [KDBX4_ARGON2ID] = "argon2id",
};
enum { KINDS = sizeof names / sizeof *names };

/* The version V of Argon2: no figure, since there is but one, so the library is asked to find the item. */
static uint64_t version_of(request *q, slice dictionary) {
    slice name = lend_input(q, (slice){(const uint8_t *)"V", 1}, 1);
    kdbx4_found *v = lend(q, sizeof *v);
    size_t *place = lend(q, sizeof *place);
    uint8_t no = kdbx4_dictionary_find(dictionary.at, dictionary.length, name.at, name.length, v, place);
    if (no != 0 || v->found == 0 || v->value.length != 4) request_fault(q, "no V in an accepted KDF dictionary");
    const uint8_t *at = stretch(q, dictionary, v->value).at;
    return at[0] | (uint64_t)at[1] << 8 | (uint64_t)at[2] << 16 | (uint64_t)at[3] << 24;
}

static void answer_aes_kdf(request *q, const kdbx4_header_figures *figures) {
    if (figures->memory != 0 || figures->lanes != 0) request_fault(q, "memory or lanes in the figures of AES-KDF");
    answer_number(q, "R", figures->rounds);
}

static void answer_argon2(request *q, slice file, const kdbx4_header_figures *figures) {
    answer_number(q, "V", version_of(q, stretch(q, file, figures->kdf_dictionary)));
    answer_number(q, "I", figures->rounds);
    answer_number(q, "M", figures->memory);
    answer_number(q, "P", figures->lanes);
}

void answer_kdf(request *q, slice file, const kdbx4_header_figures *figures) {
    if (figures->kdf >= KINDS) request_fault(q, "an unlisted KDF in the figures");
    const char *name = names[figures->kdf];
    json_key(&q->answer, "kdf");
    json_begin(&q->answer, '{');
    json_key(&q->answer, "kind");
    json_string(&q->answer, name, strlen(name));
    answer_bytes(q, "S", stretch(q, file, figures->salt));
    if (figures->kdf == KDBX4_AES_KDF)
        answer_aes_kdf(q, figures);
    else
        answer_argon2(q, file, figures);
    json_end(&q->answer, '}');
}

uint32_t field_kind(request *q, const json_value *object) {
    const json_value *kind = field_find(object, "kind");
    if (kind && kind->kind == JSON_NUMBER) return (uint32_t)value_number(q, kind, "kind", UINT32_MAX);
    for (uint32_t i = 0; i < KINDS; i++)
        if (field_is(q, object, "kind", names[i])) return i;
    request_fault(q, "kind: unknown");
}

uint8_t write_under_kdf(request *q, const vault_asked *v, uint8_t *out, size_t room, size_t *count) {
    const json_value *kdf = field_object(q, "kdf");
    uint32_t kind = field_kind(q, kdf), lanes = 0;
    slice salt = field_bytes(q, kdf, "S");
    uint64_t rounds = field_number(q, kdf, kind == KDBX4_AES_KDF ? "R" : "I", UINT64_MAX), memory = 0;
    if (kind != KDBX4_AES_KDF) {
        memory = field_number(q, kdf, "M", UINT64_MAX);
        lanes = (uint32_t)field_number(q, kdf, "P", UINT32_MAX);
    }
    return kdbx4_write(v->minor, v->cipher.at, v->cipher.length, v->seed.at, v->seed.length, v->nonce.at,
                       v->nonce.length, kind, salt.at, salt.length, rounds, memory, lanes, v->custom.at,
                       v->custom.length, v->t, v->payload.at, v->payload.length, out, room, count);
}
