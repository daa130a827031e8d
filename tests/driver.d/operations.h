/* The operations, by name. Each reads its fields, calls the library and answers; the caller closes the answer. */
#ifndef OPERATIONS_H
#define OPERATIONS_H

#include "request.h"

/* headers.c */
void op_header(request *q);
void op_list(request *q);
void op_dict(request *q);
void op_lookup(request *q);

/* keys.c */
void op_composite(request *q);
void op_rounds(request *q);
void op_helpings(request *q);
void op_argon2(request *q);
void op_keys(request *q);

/* hashes.c */
void op_hash(request *q);
void op_tag(request *q);

/* vaults.c */
void op_open(request *q);
void op_steps(request *q);
void op_write(request *q);

/* inner.c */
void op_inner(request *q);
void op_attachment(request *q);
void op_inner_write(request *q);

/* streams.c */
void op_stream(request *q);
void op_streams(request *q);
void op_stretches(request *q);

#endif
