/* The inner header: reading, attachments, writing. */
#include "operations.h"

/* An attachment's figures; the number and the place. */
static kdbx4_attachment_figures *attachment_of(request *q, slice payload, size_t index, uint8_t *no, size_t **place) {
    kdbx4_attachment_figures *a = lend(q, sizeof *a);
    *place = lend(q, sizeof **place);
    *no = kdbx4_attachment(payload.at, payload.length, index, a, *place);
    see(q, *no, a, sizeof *a, sizeof *a);
    return a;
}

/* All attachments, each asked for by its index. */
static void answer_attachments(request *q, slice payload, uint64_t count) {
    uint8_t no;
    size_t *place;
    json_key(&q->answer, "attachments");
    json_begin(&q->answer, '[');
    for (size_t i = 0; i < count; i++) {
        const kdbx4_attachment_figures *a = attachment_of(q, payload, i, &no, &place);
        if (no != 0) request_fault(q, "attachment %zu of an accepted inner header is refused with %u", i, no);
        json_begin(&q->answer, '[');
        json_number(&q->answer, a->content.start);
        json_number(&q->answer, a->content.length);
        json_number(&q->answer, a->flags);
        json_end(&q->answer, ']');
    }
    json_end(&q->answer, ']');
}

void op_inner(request *q) {
    slice payload = field_bytes(q, q->asked, "data");
    kdbx4_inner_figures *f = lend(q, sizeof *f);
    size_t *place = lend(q, sizeof *place);
    uint8_t no = kdbx4_inner(payload.at, payload.length, f, place);
    see(q, no, f, sizeof *f, sizeof *f);
    if (!answer_read(q, no, place)) return;
    answer_number(q, "alg", f->algorithm);
    answer_place(q, "key_span", f->key);
    answer_attachments(q, payload, f->attachments);
    answer_number(q, "doc_start", f->document);
}

void op_attachment(request *q) {
    slice payload = field_bytes(q, q->asked, "data");
    uint8_t no;
    size_t *place;
    const kdbx4_attachment_figures *a =
        attachment_of(q, payload, field_number(q, q->asked, "index", SIZE_MAX), &no, &place);
    if (!answer_read(q, no, place)) return;
    answer_number(q, "flags", a->flags);
    answer_number(q, "at", a->content.start);
    answer_number(q, "length", a->content.length);
    answer_bytes(q, "content", stretch(q, payload, a->content));
}

void op_inner_write(request *q) {
    uint32_t algorithm = (uint32_t)field_number(q, q->asked, "alg", UINT32_MAX);
    slice key = field_bytes(q, q->asked, "key"), run = field_bytes(q, q->asked, "run");
    slice document = field_bytes(q, q->asked, "data");
    size_t room = field_lent(q, key.length + run.length + document.length + 65536), *count = lend(q, sizeof *count);
    uint8_t *out = lend(q, room);
    uint8_t no = kdbx4_inner_write(algorithm, key.at, key.length, run.at, run.length, document.at, document.length,
                                   out, room, count);
    see(q, no, count, sizeof *count, sizeof *count);
    see(q, no, out, room, *count);
    if (!answer_no(q, no)) return;
    answer_number(q, "length", *count);
    answer_bytes(q, "payload", (slice){out, *count});
}
