/* The kinds of key derivation, told apart here alone. */
#ifndef KDF_H
#define KDF_H

#include "request.h"

/* What a request to write has beside its KDF. */
typedef struct {
    uint16_t minor;
    slice cipher, seed, nonce, custom, payload;
    const uint8_t *t;
} vault_asked;

/* Answers `kdf`: what an accepted header says of its KDF. */
void answer_kdf(request *q, slice file, const kdbx4_header_figures *figures);

/* The library's number for the KDF in an object's field `kind`: that of its name, or a number as it stands. */
uint32_t field_kind(request *q, const json_value *object);

/* Writes a vault under the KDF of the request's field `kdf`: the library's number. */
uint8_t write_under_kdf(request *q, const vault_asked *v, uint8_t *out, size_t room, size_t *count);

#endif
