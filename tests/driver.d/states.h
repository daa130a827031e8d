/* States of the library whose bytes are shown: handed in by a request, and as they stand behind each call. */
#ifndef STATES_H
#define STATES_H

#include "request.h"

/* The bytes of one state at one time after the other. */
typedef struct {
    uint8_t *at;
    size_t size, count;
} states;

/* A state of so many bytes to be written over: that in the field `state`. NULL where the request has none. */
uint8_t *field_state(request *q, size_t size);

/* No states yet, of so many bytes each, and room for one behind the start and one behind each part of an array. */
states no_states(request *q, size_t size, const json_value *calls);

/* Adds the bytes of a state as it stands. Without states to add it to, nothing is done. */
void add_state(states *seen, const uint8_t *state);

/* Answers `states`. */
void answer_states(request *q, const states *seen);

#endif
