/*
 * What bench/run counts the instructions of. Two numbers of calls, subtracted, leave the calls alone; `none` in a side's place makes the
 * same loop with an empty function, whose cost is taken off.
 *
 *   host SIDE ROW TIMES               TIMES draws of a row of the table: SIDE is here, rust or none. Writes the sum of what was answered
 *   host SIDE CALL TIMES ENTRIES BYTES   TIMES calls over a book of so many entries and bytes, which it reads: SIDE is here or none
 *   host book ENTRIES BYTES           writes such a book
 *   host rust kept TIMES              TIMES draws from one set-up
 *   host case TIMES                   writes the case for the program `bench_kept`, of the same draws
 *   host times ROW LABEL              times a row on both sides, and writes the ratio as a line of a table
 */
#include "banlothek.h"

int printf(const char *format, ...);
long read(int file, void *bytes, size_t n);
long write(int file, const void *bytes, size_t n);
long atol(const char *digits);
int strcmp(const char *a, const char *b);
void *memcpy(void *to, const void *from, size_t n);
struct moment {
    long seconds, nanoseconds;
};
int clock_gettime(int clock, struct moment *now);

/* The Rust, by bench/rust.rs, and a function that does nothing, by bench/none.c: with the signatures of the header. */
banlothek_answer rust_draw_hypergeometric(const uint64_t *tape, size_t words, uint64_t N, uint64_t K, uint64_t n);
banlothek_answer rust_draw_poisson(const uint64_t *tape, size_t words, uint64_t threshold_bits);
banlothek_answer rust_new_poisson(const uint64_t *tape, size_t words, uint64_t lambda_bits);
banlothek_answer rust_draw_geometric(const uint64_t *tape, size_t words, uint64_t p_bits);
banlothek_answer rust_draw_standard_geometric(const uint64_t *tape, size_t words);
uint64_t rust_kept(const uint64_t *kept, size_t words);
banlothek_answer none_draw(const uint64_t *tape, size_t words, uint64_t a, uint64_t b, uint64_t c);
banlothek_answer none_call(const uint64_t *tape, size_t words, uint8_t *book, size_t bytes, uint64_t a);

enum { WORDS = 4096, STEP = 7, KEPT_WORDS = 256, ENTRY = 48 };
enum side { HERE, RUST, NONE };

static uint64_t tape[WORDS];
static uint8_t book[65536 + ENTRY], before[65536 + ENTRY];

/* The same words in every run, by splitmix64. */
static void fill_tape(void) {
    uint64_t state = 2026;
    for (size_t i = 0; i < WORDS; i++) {
        uint64_t z = state += 0x9e3779b97f4a7c15;
        z = (z ^ z >> 30) * 0xbf58476d1ce4e5b9;
        z = (z ^ z >> 27) * 0x94d049bb133111eb;
        tape[i] = z ^ z >> 31;
    }
}

static uint64_t bits(double x) {
    uint64_t b;
    memcpy(&b, &x, 8);
    return b;
}

/* ---- draws */

struct row {
    const char *name;
    int kind;
    uint64_t N, K, n;
    double x;
};

/* No kind of a request: Poisson::new and a draw, for the Rust alone, where x is lambda. */
enum { NEW_POISSON = 1000 };

/* Thresholds are e^-lambda. */
static const struct row rows[] = {
    {"tray-60", 1, 60, 24, 7, 0},
    {"tray-1000", 1, 1000, 60, 40, 0},
    {"tray-1048576", 1, 1048576, 50, 50, 0},
    {"tray-longest", 1, 1048576, 9, 500000, 0},
    {"lambda-0.25", 2, 0, 0, 0, 0.7788007830714049},
    {"lambda-4", 2, 0, 0, 0, 0.01831563888873418},
    {"lambda-11", 2, 0, 0, 0, 1.670170079024566e-05},
    {"new-0.25", NEW_POISSON, 0, 0, 0, 0.25},
    {"new-4", NEW_POISSON, 0, 0, 0, 4},
    {"new-11", NEW_POISSON, 0, 0, 0, 11},
    {"p-0.75", 3, 0, 0, 0, 0.75},
    {"p-0.3", 3, 0, 0, 0, 0.3},
    {"p-0.01", 3, 0, 0, 0, 0.01},
    {"p-2^-20", 3, 0, 0, 0, 1.0 / 1048576},
    {"standard", 4, 0, 0, 0, 0},
};

static banlothek_answer draw_here(const struct row *r, const uint64_t *words, size_t n) {
    switch (r->kind) {
    case 1:
        return banlothek_draw_hypergeometric(words, n, r->N, r->K, r->n);
    case 2:
        return banlothek_draw_poisson(words, n, bits(r->x));
    case 3:
        return banlothek_draw_geometric(words, n, bits(r->x));
    default:
        return banlothek_draw_standard_geometric(words, n);
    }
}

static banlothek_answer draw_rust(const struct row *r, const uint64_t *words, size_t n) {
    switch (r->kind) {
    case 1:
        return rust_draw_hypergeometric(words, n, r->N, r->K, r->n);
    case 2:
        return rust_draw_poisson(words, n, bits(r->x));
    case 3:
        return rust_draw_geometric(words, n, bits(r->x));
    case 4:
        return rust_draw_standard_geometric(words, n);
    default:
        return rust_new_poisson(words, n, bits(r->x));
    }
}

static banlothek_answer draw(const struct row *r, enum side side, const uint64_t *words, size_t n) {
    if (side == NONE)
        return none_draw(words, n, r->N, r->K, r->n);
    return side == RUST ? draw_rust(r, words, n) : draw_here(r, words, n);
}

/* Draw i begins at a place of its own, the same on every side. */
static uint64_t draw_many(const struct row *r, enum side side, long times) {
    uint64_t sum = 0;
    for (long i = 0; i < times; i++) {
        size_t at = (size_t)i * STEP % (WORDS / 2);
        banlothek_answer a = draw(r, side, tape + at, WORDS - at);
        sum += a.refusal ? 1000000 : a.count + a.used;
    }
    return sum;
}

/* N, K, n, the number of draws and the words: what the program `bench_kept` reads. */
static uint64_t kept[4 + KEPT_WORDS];

static void fill_kept(long times) {
    const uint64_t head[4] = {60, 24, 7, (uint64_t)times};
    memcpy(kept, head, sizeof head);
    memcpy(kept + 4, tape, sizeof kept - sizeof head);
}

/* ---- times */

enum { MONOTONIC = 1, TURNS = 31 };
static const double LONG_ENOUGH = 0.002;

static double seconds_of(const struct row *r, enum side side, long times) {
    struct moment from, to;
    clock_gettime(MONOTONIC, &from);
    volatile uint64_t sum = draw_many(r, side, times);
    (void)sum;
    clock_gettime(MONOTONIC, &to);
    return (double)(to.seconds - from.seconds) + (double)(to.nanoseconds - from.nanoseconds) / 1e9;
}

/* The sides take turns, so that whatever slows the machine down slows all of them; the least time of a side is the one that nothing slowed. */
static int tell_times(const struct row *r, const char *label) {
    long times = 1;
    while (seconds_of(r, HERE, times) < LONG_ENOUGH)
        times *= 2;
    double least[3] = {0, 0, 0};
    for (int turn = 0; turn < TURNS; turn++)
        for (enum side side = HERE; side <= NONE; side++) {
            double took = seconds_of(r, side, times);
            if (turn == 0 || took < least[side])
                least[side] = took;
        }
    printf("| %s | %.2f |\n", label, (least[HERE] - least[NONE]) / (least[RUST] - least[NONE]));
    return 0;
}

/* ---- calls over a book */

static banlothek_answer deliver(uint32_t serial, size_t bytes) {
    return banlothek_deliver_hypergeometric(tape, WORDS, book, bytes, serial, 60, 24, 7);
}

static banlothek_answer call(char name, uint32_t entries, size_t bytes) {
    switch (name) {
    case 'f':
        return deliver(entries + 1, bytes);
    case 'c':
        return deliver(entries, bytes);
    case 's':
        return banlothek_strike(tape, WORDS, book, bytes, 1);
    default:
        return banlothek_redraw(tape, WORDS, book, bytes);
    }
}

/* The book is as it was before each call: the entries at its end are all that one can change. */
static void restore(size_t entries) {
    size_t at = entries ? (entries - 1) * ENTRY : 0;
    memcpy(book + at, before + at, (size_t)2 * ENTRY);
}

/* A book is written by one run and read by those that are counted: to fill it takes far more instructions than the calls. */
static int write_book(uint32_t entries, size_t bytes) {
    for (uint32_t serial = 1; serial <= entries; serial++)
        deliver(serial, bytes);
    return write(1, book, bytes) != (long)bytes;
}

static uint64_t call_many(char name, enum side side, long times, uint32_t entries, size_t bytes) {
    for (size_t have = 0; have < bytes;) {
        long got = read(0, book + have, bytes - have);
        if (got <= 0)
            return 0;
        have += (size_t)got;
    }
    memcpy(before, book, sizeof book);
    uint64_t sum = 0;
    for (long i = 0; i < times; i++) {
        banlothek_answer a = side == NONE ? none_call(tape, WORDS, book, bytes, entries) : call(name, entries, bytes);
        sum += a.refusal ? 1000000 : a.count + a.used + 1000 * a.copied;
        restore(entries);
    }
    return sum;
}

static enum side side_of(const char *name) { return !strcmp(name, "rust") ? RUST : !strcmp(name, "none") ? NONE : HERE; }

static const struct row *row_of(const char *name) {
    for (size_t i = 0; i < sizeof rows / sizeof *rows; i++)
        if (!strcmp(name, rows[i].name))
            return &rows[i];
    return 0;
}

static int tell(uint64_t sum) {
    printf("%llu\n", (unsigned long long)sum);
    return 0;
}

int main(int argc, char **argv) {
    fill_tape();
    if (argc == 3 && !strcmp(argv[1], "case")) {
        fill_kept(atol(argv[2]));
        return write(1, kept, sizeof kept) != (long)sizeof kept;
    }
    if (argc == 4 && !strcmp(argv[1], "book"))
        return write_book((uint32_t)atol(argv[2]), (size_t)atol(argv[3]));
    if (argc == 6)
        return tell(call_many(*argv[2], side_of(argv[1]), atol(argv[3]), (uint32_t)atol(argv[4]), (size_t)atol(argv[5])));
    if (argc != 4)
        return 2;
    if (!strcmp(argv[2], "kept")) {
        fill_kept(atol(argv[3]));
        return tell(rust_kept(kept, 4 + KEPT_WORDS));
    }
    const struct row *r = row_of(argv[2]);
    if (!r)
        return 2;
    if (!strcmp(argv[1], "times"))
        return tell_times(r, argv[3]);
    return tell(draw_many(r, side_of(argv[1]), atol(argv[3])));
}
