/* The inner stream: a stretch straight from the inner key, and a state over one stretch after the other. */
#include "operations.h"
#include "states.h"

#include <string.h>

/* More than a stretch needs, so that bytes touched behind it are seen. */
static size_t enough_to_cover(slice bytes) { return bytes.length + 64; }

void op_stream(request *q) {
    uint32_t algorithm = (uint32_t)field_number(q, q->asked, "alg", UINT32_MAX);
    uint64_t position = field_number(q, q->asked, "position", UINT64_MAX);
    slice key = field_bytes(q, q->asked, "key"), bytes = field_bytes(q, q->asked, "data");
    size_t room = field_lent(q, enough_to_cover(bytes)), *count = lend(q, sizeof *count);
    uint8_t *out = lend(q, room);
    uint8_t no = kdbx4_inner_stream(algorithm, key.at, key.length, position, bytes.at, bytes.length, out, room, count);
    see(q, no, count, sizeof *count, sizeof *count);
    see(q, no, out, room, *count);
    if (answer_no(q, no)) answer_bytes(q, "bytes", (slice){out, *count});
}

/* One stretch of a state. After a refusal the state too is to be as it was. */
static void answer_part(request *q, uint8_t *state, slice bytes, size_t room) {
    uint8_t before[KDBX4_INNER_STREAM_STATE], *out = lend(q, room);
    size_t *count = lend(q, sizeof *count);
    memcpy(before, state, sizeof before);
    uint8_t no = kdbx4_inner_stream_apply(state, bytes.at, bytes.length, out, room, count);
    bool due = as_due(q, no, count, sizeof *count, sizeof *count) && as_due(q, no, out, room, *count);
    if (no != 0) due = due && memcmp(before, state, sizeof before) == 0;
    json_begin(&q->answer, '{');
    if (answer_no(q, no)) answer_bytes(q, "bytes", (slice){out, *count});
    if (!due) {
        json_key(&q->answer, "touched");
        json_bool(&q->answer, true);
    }
    json_end(&q->answer, '}');
}

/* The parts of a request, and the room for each; without `lents` it is enough. */
typedef struct {
    const json_value *parts, *lents;
} asked_parts;

static asked_parts field_parts(request *q) {
    return (asked_parts){field_array(q, "parts"), field_find(q->asked, "lents") ? field_array(q, "lents") : NULL};
}

static size_t room_for_part(request *q, const asked_parts *asked, const json_value *lent, slice bytes) {
    if (!asked->lents) return enough_to_cover(bytes);
    if (!lent) request_fault(q, "lents: fewer than parts");
    return lent_within(value_number(q, lent, "lents", UINT64_MAX), enough_to_cover(bytes));
}

/* Each part in turn. The state behind each is added to those seen, if any are to be. */
static void answer_parts(request *q, uint8_t *state, const asked_parts *asked, states *seen) {
    const json_value *lent = asked->lents ? asked->lents->first : NULL;
    json_key(&q->answer, "parts");
    json_begin(&q->answer, '[');
    for (const json_value *part = asked->parts->first; part; part = part->next, lent = lent ? lent->next : NULL) {
        const struct block *last = q->blocks;
        slice bytes = value_bytes(q, part, "parts");
        answer_part(q, state, bytes, room_for_part(q, asked, lent, bytes));
        add_state(seen, state);
        request_free(q, last);
    }
    json_end(&q->answer, ']');
}

/* Starts the stream that the request asks for: the library's number. */
static uint8_t start_stream(request *q, uint8_t *state) {
    uint32_t algorithm = (uint32_t)field_number(q, q->asked, "alg", UINT32_MAX);
    slice key = field_bytes(q, q->asked, "key");
    return kdbx4_inner_stream_start(algorithm, key.at, key.length, state);
}

void op_streams(request *q) {
    asked_parts asked = {field_array(q, "parts"), NULL};
    uint8_t *state = lend(q, KDBX4_INNER_STREAM_STATE);
    if (answer_no(q, start_stream(q, state))) answer_parts(q, state, &asked, NULL);
}

/* The parts' numbers stand by themselves, and so does the start's. */
void op_stretches(request *q) {
    asked_parts asked = field_parts(q);
    uint8_t *state = field_state(q, KDBX4_INNER_STREAM_STATE);
    answer_no(q, 0);
    if (!state) {
        state = lend(q, KDBX4_INNER_STREAM_STATE);
        answer_number(q, "started", start_stream(q, state));
    }
    states seen = no_states(q, KDBX4_INNER_STREAM_STATE, asked.parts);
    add_state(&seen, state);
    answer_parts(q, state, &asked, &seen);
    answer_states(q, &seen);
}
