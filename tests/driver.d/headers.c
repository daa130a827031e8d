/* The outer header, its listing, and dictionaries. */
#include "kdf.h"
#include "operations.h"

static void answer_cipher(request *q, uint64_t cipher) {
    const char *name = cipher == KDBX4_AES256 ? "aes" : cipher == KDBX4_CHACHA20 ? "chacha" : NULL;
    if (!name) request_fault(q, "an unlisted cipher in the figures");
    json_key(&q->answer, "cipher");
    json_string(&q->answer, name, cipher == KDBX4_AES256 ? 3 : 6);
}

static void answer_custom(request *q, kdbx4_place custom) {
    if (custom.start != 0) {
        answer_place(q, "custom_span", custom);
        return;
    }
    json_key(&q->answer, "custom_span");
    json_null(&q->answer);
}

void op_header(request *q) {
    slice file = field_bytes(q, q->asked, "data");
    kdbx4_header_figures *f = lend(q, sizeof *f);
    size_t *place = lend(q, sizeof *place);
    uint8_t no = kdbx4_header(file.at, file.length, f, place);
    see(q, no, f, sizeof *f, sizeof *f);
    if (!answer_read(q, no, place)) return;
    answer_number(q, "minor", f->minor);
    answer_cipher(q, f->cipher);
    answer_number(q, "length", f->length);
    answer_bytes(q, "seed", stretch(q, file, f->seed));
    answer_bytes(q, "nonce", stretch(q, file, f->nonce));
    answer_kdf(q, file, f);
    answer_place(q, "kdf_span", f->kdf_dictionary);
    answer_custom(q, f->custom);
}

/* Two digits for each byte and a line feed for each frame, of which none but an R line has fewer than five bytes. */
void op_list(request *q) {
    slice file = field_bytes(q, q->asked, "data");
    size_t room = 3 * file.length + 64, *count = lend(q, sizeof *count);
    uint8_t *out = lend(q, room);
    uint8_t no = kdbx4_list(file.at, file.length, out, room, count);
    see(q, no, count, sizeof *count, sizeof *count);
    see(q, no, out, room, *count);
    if (!answer_no(q, no)) return;
    json_key(&q->answer, "text");
    json_string(&q->answer, (const char *)out, *count);
}

void op_dict(request *q) {
    slice dictionary = field_bytes(q, q->asked, "data");
    size_t *place = lend(q, sizeof *place);
    uint8_t no = kdbx4_dictionary_check(dictionary.at, dictionary.length, place);
    answer_read(q, no, place);
}

void op_lookup(request *q) {
    slice dictionary = field_bytes(q, q->asked, "data"), name = field_bytes(q, q->asked, "name");
    kdbx4_found *found = lend(q, sizeof *found);
    size_t *place = lend(q, sizeof *place);
    uint8_t no = kdbx4_dictionary_find(dictionary.at, dictionary.length, name.at, name.length, found, place);
    see(q, no, found, sizeof *found, sizeof *found);
    if (!answer_read(q, no, place)) return;
    json_key(&q->answer, "found");
    json_bool(&q->answer, found->found != 0);
    if (found->found == 0) return;
    answer_number(q, "at", found->value.start);
    answer_number(q, "size", found->value.length);
    answer_bytes(q, "value", stretch(q, dictionary, found->value));
}
