// Argon2d and Argon2id of a composite key, two passes, against Debian's libargon2 in one thread. Debian builds it from its
// portable C. Both sides work in 64 MiB that are lent, and leave zeros there.
#include "bench.h"

#include <argon2.h>

#define MOST (64 << 20)

// KDF numbers of kdbx4_argon2.
enum kdf { D = 1, ID = 2 };

// What a run is of: the message's bytes from `from` on are the composite key, and the salt behind it.
struct run {
    enum kdf kdf;
    size_t from, salt;
    uint64_t passes, memory;
    uint32_t lanes;
};

// The lent words of both sides, ours with one more that no run may touch.
static uint64_t words[MOST / 8 + 1], peer_words[MOST / 8];

static int lend(uint8_t **memory, size_t n) {
    *memory = n <= sizeof peer_words ? (uint8_t *)peer_words : 0;
    return ARGON2_OK;
}
static void take_back(uint8_t *memory, size_t n) { (void)memory, (void)n; }

// The number that ours answers with n words lent.
static uint8_t run_ours(struct run r, size_t n) {
    const uint8_t *composite = message + r.from;
    return kdbx4_argon2(r.kdf, composite, composite + 32, r.salt, r.passes, r.memory, r.lanes, words, n, ours);
}

static int run_peer(struct run r) {
    argon2_context c = {
        .out = peers,
        .outlen = 32,
        .pwd = message + r.from,
        .pwdlen = 32,
        .salt = message + r.from + 32,
        .saltlen = r.salt,
        .t_cost = r.passes,
        .m_cost = r.memory / 1024,
        .lanes = r.lanes,
        .threads = 1,
        .version = ARGON2_VERSION_13,
        .allocate_cbk = lend,
        .free_cbk = take_back,
    };
    return argon2_ctx(&c, r.kdf == D ? Argon2_d : Argon2_id);
}

// Whether n of our words from `at` on are all `word`.
static int all(size_t at, size_t n, uint64_t word) {
    for (size_t i = at; i < at + n; i++)
        if (words[i] != word) return 0;
    return 1;
}

static void fill(size_t n) {
    for (size_t i = 0; i < n; i++) words[i] = 0x5555555555555555;
}

static int wrong(const char *what, struct run r) {
    fprintf(stderr, "bench: argon2, %s: kdf %d, salt %zu, passes %llu, memory %llu, lanes %u\n", what, r.kdf, r.salt,
            (unsigned long long)r.passes, (unsigned long long)r.memory, r.lanes);
    return 0;
}

// Both keys, in exactly the words that are needed; one word less is refused and changes nothing.
static int check_run(struct run r) {
    size_t n = r.memory / 1024 / (4 * r.lanes) * (4 * r.lanes) * 128;
    fill(n + 1), untouched();
    if (!refused("argon2 with a word too few", run_ours(r, n - 1), 17)) return 0;
    if (!all(0, n + 1, 0x5555555555555555)) return wrong("words changed by a refusal", r);
    if (run_ours(r, n) != 0) return wrong("refused", r);
    if (!all(0, n, 0) || !all(n, 1, 0x5555555555555555)) return wrong("words not left as promised", r);
    if (run_peer(r) != ARGON2_OK) return wrong("refused by the peer", r);
    return same("argon2", r.memory, 32);
}

// A run that is refused with 22, and changes nothing.
static int check_outside(struct run r) {
    fill(4096), untouched();
    if (!refused("argon2 with a figure outside", run_ours(r, 4096), 22)) return wrong("not refused", r);
    return all(0, 4096, 0x5555555555555555) ? 1 : wrong("words changed by a refusal", r);
}

static int check(void) {
    for (size_t i = 0; i <= 300; i++) {
        uint32_t lanes = i / 2 % 16 + 1;
        struct run r = {i % 2 ? ID : D, i, 8 + i % 57, 1 + i % 5, 8192 * lanes + 1237 * i % 60000, lanes};
        if (!check_run(r)) return 0;
    }
    for (enum kdf kdf = D; kdf <= ID; kdf++) {
        const struct run outside[] = {
            {kdf, 0, 7, 1, 8192, 1},  {kdf, 0, 65, 1, 8192, 1},    {kdf, 0, 8, 0, 8192, 1},
            {kdf, 0, 8, 65, 8192, 1}, {kdf, 0, 8, 1, 8191, 1},     {kdf, 0, 8, 1, MOST + 1, 1},
            {kdf, 0, 8, 1, 8192, 0},  {kdf, 0, 8, 1, 1 << 20, 17}, {kdf, 0, 8, 1, 16383, 2},
        };
        for (size_t i = 0; i < sizeof outside / sizeof *outside; i++)
            if (!check_outside(outside[i])) return 0;
        if (!check_run((struct run){kdf, 1, 64, 64, 8192, 1}) || !check_run((struct run){kdf, 2, 32, 2, 1 << 20, 2}) ||
            !check_run((struct run){kdf, 3, 32, 1, MOST, 1}))
            return 0;
    }
    return 1;
}

#define RUNS(name, kdf, lanes)                                                                                \
    static void ours_##name(size_t memory) { run_ours((struct run){kdf, 0, 32, 2, memory, lanes}, MOST / 8); } \
    static void peer_##name(size_t memory) { run_peer((struct run){kdf, 0, 32, 2, memory, lanes}); }

RUNS(d, D, 1)
RUNS(id, ID, 1)
RUNS(desktop, D, 2)

// Every block of the two passes counts, also the first two of a lane, which H' makes and not G.
#define BLOCKS (2 * (MOST / 1024))

static const struct row rows[] = {
    {"argon2d-64MiB", "1.00", "block", BLOCKS, MOST, ours_d, peer_d},
    {"argon2id-64MiB", "1.00", "block", BLOCKS, MOST, ours_id, peer_id},
    {"argon2d-desktop", "-", "block", BLOCKS, MOST, ours_desktop, peer_desktop},
    {0},
};

static const struct state states[] = {{0}};

const struct family argon2 = {rows, states, check};
