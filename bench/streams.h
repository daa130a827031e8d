// What the families of streams share: the peers' streams from any position on, over the first n bytes of `peers`.
#include "bench.h"

// mbedTLS's ChaCha20, and nettle's Salsa20 in C.
void peer_chacha20_at(const uint8_t key[32], const uint8_t nonce[12], uint64_t at, size_t n);
void peer_salsa20_at(const uint8_t key[32], const uint8_t nonce[8], uint64_t at, size_t n);
