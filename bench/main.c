// The harness of `bench/run`. See there.
//
//   harness list                    the rows and the states of every family
//   harness check                   both sides on many inputs; status 1 where they differ
//   harness calls NAME SIDE COUNT   COUNT calls of a row, for callgrind to count
//   harness once NAME SIDE SIZE     one call of a row, of another size
//   harness stack NAME SIDE         bytes of stack that one call uses
//   harness time NAME               nanoseconds of one call of each side, the least of 30 runs of about 10 ms
#include "bench.h"

#include <time.h>
#include <ucontext.h>

extern const struct family sha2, hmac, aes, chacha20, salsa20, inner_stream, argon2, opening, writing;
static const struct family *const families[] = {
    &sha2, &hmac, &aes, &chacha20, &salsa20, &inner_stream, &argon2, &opening, &writing,
};
#define FAMILIES (sizeof families / sizeof *families)

uint8_t message[KDBX4_MESSAGE_LIMIT + 1], key[64], ours[RESULT_LIMIT], peers[RESULT_LIMIT];

// Byte i is (37 i + 11) mod 251. It repeats itself, and is copied, since callgrind counts this in every run.
static void fill_message(void) {
    const size_t period = 251;
    for (size_t i = 0; i < period; i++) message[i] = (37 * i + 11) % period;
    for (size_t i = period; i < sizeof message; i += period)
        memcpy(message + i, message, sizeof message - i < period ? sizeof message - i : period);
}

int same(const char *what, size_t length, size_t n) {
    if (memcmp(ours, peers, n) == 0) return 1;
    fprintf(stderr, "bench: %s of %zu bytes differs from the peer's\n", what, length);
    return 0;
}

void in_place(size_t n) {
    memcpy(ours, message, n);
    memcpy(peers, message, n);
}

void untouched(void) { memset(ours, 0xaa, sizeof ours); }

int refused(const char *what, uint8_t number, uint8_t expected) {
    int kept = 1;
    for (size_t i = 0; i < sizeof ours; i++) kept &= ours[i] == 0xaa;
    if (number == expected && kept) return 1;
    fprintf(stderr, "bench: %s: number %d, result %s\n", what, number, kept ? "kept" : "written");
    return 0;
}

static const struct row *row_named(const char *name) {
    for (size_t f = 0; f < FAMILIES; f++)
        for (const struct row *r = families[f]->rows; r->name; r++)
            if (strcmp(r->name, name) == 0) return r;
    fprintf(stderr, "bench: no row %s\n", name);
    exit(2);
}

static void list(void) {
    static const char *const kinds[] = {"work", "slope", "step"};
    for (size_t f = 0; f < FAMILIES; f++) {
        for (const struct row *r = families[f]->rows; r->name; r++)
            printf("%s\t%s\t%s\t%s\t%zu\t%zu\n", kinds[r->kind], r->name, r->goal, r->unit, r->units, r->size);
        for (const struct state *s = families[f]->states; s->name; s++)
            printf("state\t%s\t%s\t%s\t%zu\n", s->name, s->crate, s->type, s->peer);
    }
}

static double now(void) {
    struct timespec t;
    clock_gettime(CLOCK_MONOTONIC, &t);
    return t.tv_sec * 1e9 + t.tv_nsec;
}

static double ns_of(void (*work)(size_t), size_t size, long calls) {
    double began = now();
    for (long i = 0; i < calls; i++) work(size);
    return now() - began;
}

// Both sides in turn, so that whatever else the machine does meets both. A call before them makes what is made once.
static void print_times(const struct row *r) {
    double best[2] = {0, 0};
    void (*const sides[2])(size_t) = {r->ours, r->peer};
    r->ours(r->size);
    double once = ns_of(r->ours, r->size, 1);
    long calls = once < 1e7 ? (long)(1e7 / (once + 1)) + 1 : 1;
    for (int i = 0; i < 30; i++)
        for (int s = 0; s < 2; s++) {
            double each = ns_of(sides[s], r->size, calls) / calls;
            if (i == 0 || each < best[s]) best[s] = each;
        }
    printf("%.1f %.1f\n", best[0], best[1]);
}

// The stack that a call uses: it runs on a stack of its own that was painted before, and how deep the paint went is counted.
static uint8_t stack[1 << 18];
static ucontext_t caller, callee;
static void (*stack_work)(size_t);
static size_t stack_size;

static void on_stack(void) { stack_work(stack_size); }

static size_t depth(void (*work)(size_t), size_t size) {
    stack_work = work, stack_size = size;
    memset(stack, 0xa5, sizeof stack);
    getcontext(&callee);
    callee.uc_stack.ss_sp = stack, callee.uc_stack.ss_size = sizeof stack, callee.uc_link = &caller;
    makecontext(&callee, on_stack, 0);
    swapcontext(&caller, &callee);
    size_t clean = 0;
    while (clean < sizeof stack && stack[clean] == 0xa5) clean++;
    return sizeof stack - clean;
}

static void nothing(size_t size) { (void)size; }

int main(int count, char **words) {
    const char *what = count > 1 ? words[1] : "";
    fill_message();
    for (size_t i = 0; i < sizeof key; i++) key[i] = 5 * i + 3;
    if (strcmp(what, "list") == 0) return list(), 0;
    if (strcmp(what, "check") == 0) {
        for (size_t f = 0; f < FAMILIES; f++)
            if (!families[f]->check()) return 1;
        return 0;
    }
    if (count < 3) return 2;
    const struct row *r = row_named(words[2]);
    if (strcmp(what, "time") == 0) return print_times(r), 0;
    if (count < 4) return 2;
    void (*work)(size_t) = strcmp(words[3], "ours") == 0 ? r->ours : r->peer;
    if (strcmp(what, "calls") == 0 && count == 5) {
        for (long i = atol(words[4]); i > 0; i--) work(r->size);
        return 0;
    }
    if (strcmp(what, "once") == 0 && count == 5) return work(strtoul(words[4], 0, 10)), 0;
    work(r->size);
    if (strcmp(what, "stack") == 0) return printf("%zu\n", depth(work, r->size) - depth(nothing, 0)), 0;
    return 2;
}
