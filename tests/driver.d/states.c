#include "states.h"

#include <string.h>

uint8_t *field_state(request *q, size_t size) {
    if (!field_find(q->asked, "state")) return NULL;
    uint8_t *state = lend(q, size);
    memcpy(state, field_array_of(q, q->asked, "state", size), size);
    return state;
}

states no_states(request *q, size_t size, const json_value *calls) {
    size_t most = 1;
    for (const json_value *call = calls->first; call; call = call->next) most++;
    return (states){lend(q, most * size), size, 0};
}

void add_state(states *seen, const uint8_t *state) {
    if (seen) memcpy(seen->at + seen->count++ * seen->size, state, seen->size);
}

void answer_states(request *q, const states *seen) {
    json_key(&q->answer, "states");
    json_begin(&q->answer, '[');
    for (size_t i = 0; i < seen->count; i++) json_hex(&q->answer, seen->at + i * seen->size, seen->size);
    json_end(&q->answer, ']');
}
