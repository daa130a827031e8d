// The inner stream: its last 64 bytes beside its first, both ours. A stretch from any position is to cost no more than
// its own blocks. The results are compared with nettle's Salsa20 and mbedTLS's ChaCha20, whose keys mbedTLS hashes.
#include "streams.h"

#include <mbedtls/sha256.h>
#include <mbedtls/sha512.h>

#define LAST (KDBX4_STREAM_LIMIT - 64)

enum algorithm { SALSA20 = 2, CHACHA20 = 3 };

// A stretch in one call, which hashes the inner key: the 64 bytes of `key`.
static void whole(enum algorithm algorithm, uint64_t at, size_t n, uint8_t *out) {
    size_t count;
    kdbx4_inner_stream(algorithm, key, 64, at, message, n, out, RESULT_LIMIT, &count);
}

static void last_salsa20(size_t n) { whole(SALSA20, LAST, n, ours); }
static void first_salsa20(size_t n) { whole(SALSA20, 0, n, peers); }
static void last_chacha20(size_t n) { whole(CHACHA20, LAST, n, ours); }
static void first_chacha20(size_t n) { whole(CHACHA20, 0, n, peers); }

// A state at the start of the stream and one before its last 64 bytes, made when one is first asked for.
struct ends {
    uint8_t first[KDBX4_INNER_STREAM_STATE], last[KDBX4_INNER_STREAM_STATE];
    int made;
};

static struct ends *ends_of(enum algorithm algorithm) {
    static struct ends both[2];
    struct ends *s = &both[algorithm - SALSA20];
    if (s->made) return s;
    kdbx4_inner_stream_start(algorithm, key, 64, s->first);
    memcpy(s->last, s->first, sizeof s->last);
    for (size_t at = 0, n, count; at < LAST; at += n) {
        n = LAST - at < RESULT_LIMIT ? LAST - at : RESULT_LIMIT;
        kdbx4_inner_stream_apply(s->last, message, n, ours, RESULT_LIMIT, &count);
    }
    s->made = 1;
    return s;
}

// The next stretch of a copy of a state.
static void next(const uint8_t *state, size_t n, uint8_t *out) {
    uint8_t copy[KDBX4_INNER_STREAM_STATE];
    size_t count;
    memcpy(copy, state, sizeof copy);
    kdbx4_inner_stream_apply(copy, message, n, out, RESULT_LIMIT, &count);
}

static void apply_last_salsa20(size_t n) { next(ends_of(SALSA20)->last, n, ours); }
static void apply_first_salsa20(size_t n) { next(ends_of(SALSA20)->first, n, peers); }
static void apply_last_chacha20(size_t n) { next(ends_of(CHACHA20)->last, n, ours); }
static void apply_first_chacha20(size_t n) { next(ends_of(CHACHA20)->first, n, peers); }

// The same from the peers. The inner key is the message's first k bytes.
static void peer_stretch(enum algorithm algorithm, size_t k, uint64_t at, size_t n) {
    uint8_t h[64];
    if (algorithm == SALSA20) {
        mbedtls_sha256_ret(message, k, h, 0);
        peer_salsa20_at(h, (const uint8_t *)"\xE8\x30\x09\x4B\x97\x20\x5D\x2A", at, n);
    } else {
        mbedtls_sha512_ret(message, k, h, 0);
        peer_chacha20_at(h, h + 32, at, n);
    }
}

static int check_at(enum algorithm algorithm, size_t k, uint64_t at, size_t n) {
    size_t count = 0;
    in_place(n + 1);
    if (kdbx4_inner_stream(algorithm, message, k, at, message, n, ours, n, &count) != 0 || count != n) return 0;
    peer_stretch(algorithm, k, at, n);
    return same("inner stream", n, n + 1);
}

// Stretches of 0 to 400 bytes, one after the other.
static int check_steps(enum algorithm algorithm) {
    uint8_t state[KDBX4_INNER_STREAM_STATE];
    uint64_t at = 0;
    if (kdbx4_inner_stream_start(algorithm, message, 64, state) != 0) return 0;
    for (size_t n = 0, count = 0; n <= 400; at += n++) {
        in_place(n + 1);
        if (kdbx4_inner_stream_apply(state, message, n, ours, n, &count) != 0 || count != n) return 0;
        peer_stretch(algorithm, 64, at, n);
        if (!same("inner stream, by steps,", n, n + 1)) return 0;
    }
    return 1;
}

// The rows' own stretches: that of a state is that of the whole call.
static int check_rows(enum algorithm algorithm) {
    struct ends *s = ends_of(algorithm);
    whole(algorithm, LAST, 64, ours), next(s->last, 64, peers);
    if (!same("the last of the inner stream", 64, 64)) return 0;
    whole(algorithm, 0, 64, ours), next(s->first, 64, peers);
    return same("the first of the inner stream", 64, 64);
}

static int check_refused(const char *what, uint32_t algorithm, size_t k, uint64_t at, size_t room, uint8_t expected) {
    size_t count;
    untouched();
    return refused(what, kdbx4_inner_stream(algorithm, message, k, at, message, 64, ours, room, &count), expected);
}

static int check_algorithm(enum algorithm a) {
    for (size_t n = 0; n <= 400; n++) {
        if (!check_at(a, n, 0, n) || !check_at(a, n, 37 * n, n)) return 0;
        if (!check_at(a, 64, KDBX4_STREAM_LIMIT - n, n)) return 0;
    }
    if (!check_at(a, KDBX4_STREAM_LIMIT, 1000, RESULT_LIMIT - 1) || !check_steps(a) || !check_rows(a)) return 0;
    return check_refused("an inner key past the limit", a, KDBX4_STREAM_LIMIT + 1, 0, 64, 1) &&
           check_refused("a stretch past the limit", a, 64, LAST + 1, 64, 1) &&
           check_refused("a stretch past 2^64", a, 64, UINT64_MAX, 64, 1) &&
           check_refused("a stretch without room", a, 64, 0, 63, 17);
}

static int check(void) {
    return check_algorithm(SALSA20) && check_algorithm(CHACHA20) && check_refused("algorithm 1", 1, 64, 0, 64, 9);
}

static const struct row rows[] = {
    {"inner-stream-salsa20", "1.01", "call", 1, 64, last_salsa20, first_salsa20},
    {"inner-stream-chacha20", "1.01", "call", 1, 64, last_chacha20, first_chacha20},
    {"inner-stream-apply-salsa20", "1.01", "call", 1, 64, apply_last_salsa20, apply_first_salsa20},
    {"inner-stream-apply-chacha20", "1.01", "call", 1, 64, apply_last_chacha20, apply_first_chacha20},
    {0},
};

static const struct state states[] = {{0}};

const struct family inner_stream = {rows, states, check};
