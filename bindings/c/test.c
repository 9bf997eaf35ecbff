/*
 * Every function of include/banlothek.h through C: what each accepts, every refusal that it can give, and that a refusal changes no byte.
 * `bindings/c/run test` builds and runs it. It writes each expectation that fails, then how many there were; its status is 0 if none
 * failed. Deliveries by a kind's name are `banlothek_deliver` of its number.
 */
#include "banlothek.h"

int printf(const char *format, ...);
int memcmp(const void *a, const void *b, size_t n);
void *memcpy(void *to, const void *from, size_t n);
void *memset(void *to, int byte, size_t n);

_Static_assert(sizeof(banlothek_answer) == 24, "the struct has 24 bytes");
_Static_assert(__builtin_offsetof(banlothek_answer, copied) == 4, "copied");
_Static_assert(__builtin_offsetof(banlothek_answer, serial) == 8, "serial");
_Static_assert(__builtin_offsetof(banlothek_answer, used) == 12, "used");
_Static_assert(__builtin_offsetof(banlothek_answer, count) == 16, "count");

#define TOP 0x8000000000000000u
#define THREE_QUARTERS 0xc000000000000000u
#define LAST 0xffffffffffffffffu
/* floats by their bits */
#define HALF 0x3fe0000000000000u
#define P_75 0x3fe8000000000000u
#define ONE 0x3ff0000000000000u
#define ABOVE_ONE 0x3ff0000000000001u
#define LEAST_T 0x3ed0000000000000u
#define BELOW_LEAST_T 0x3ecfffffffffffffu
#define P_2_32 0x3df0000000000000u
#define NAN_BITS 0x7ff8000000000000u

enum { TOO_MANY_WORDS = 1048577, MOST_BYTES = 65536 };

static uint64_t long_tape[TOO_MANY_WORDS];
static uint8_t book[MOST_BYTES + 1], kept[MOST_BYTES + 1];
static int expectations, failures;

static void fail(const char *what) {
    failures++;
    printf("FAIL: %s\n", what);
}

static void expect(const char *what, banlothek_answer a, uint32_t copied, uint32_t used, uint64_t count) {
    expectations++;
    if (a.refusal != 0 || a.copied != copied || a.serial != 0 || a.used != used || a.count != count)
        fail(what);
}

static void refused(const char *what, banlothek_answer a, uint32_t number, uint32_t serial) {
    expectations++;
    if (a.refusal != number || a.copied != 0 || a.serial != serial || a.used != 0 || a.count != 0)
        fail(what);
}

static void same(const char *what, const uint8_t *a, const uint8_t *b, size_t n) {
    expectations++;
    if (memcmp(a, b, n))
        fail(what);
}

static void keep(void) { memcpy(kept, book, sizeof book); }

/* A refusal over the book, which has to stay as it was kept. */
static void refused_and_kept(const char *what, banlothek_answer a, uint32_t number) {
    refused(what, a, number, 0);
    same(what, kept, book, sizeof book);
}

/* ---- draws */

static void hypergeometric(void) {
    const uint64_t zero[] = {0}, top[] = {TOP}, next[] = {TOP + 2048}, last[] = {LAST};
    expect("(60,24,7)", banlothek_draw_hypergeometric(zero, 1, 60, 24, 7), 0, 1, 0);
    expect("(50,35,10)", banlothek_draw_hypergeometric(zero, 1, 50, 35, 10), 0, 1, 10);
    expect("(2,1,1) over 2^63", banlothek_draw_hypergeometric(top, 1, 2, 1, 1), 0, 1, 0);
    expect("(2,1,1) over 2^63+2048", banlothek_draw_hypergeometric(next, 1, 2, 1, 1), 0, 1, 1);
    expect("(9,3,4) over 2^64-1", banlothek_draw_hypergeometric(last, 1, 9, 3, 4), 0, 1, 3);
    expect("(0,0,0)", banlothek_draw_hypergeometric(last, 1, 0, 0, 0), 0, 1, 0);
    refused("a tape too long", banlothek_draw_hypergeometric(long_tape, TOO_MANY_WORDS, 1, 2, 0), BANLOTHEK_TAPE_TOO_LONG, 0);
    refused("K > N", banlothek_draw_hypergeometric(zero, 1, 10, 11, 12), BANLOTHEK_PROBABILITY_TOO_LARGE, 0);
    refused("n > N", banlothek_draw_hypergeometric(zero, 1, 10, 3, 11), BANLOTHEK_SAMPLE_SIZE_TOO_LARGE, 0);
    refused("N over the cap", banlothek_draw_hypergeometric(zero, 1, 1048577, 3, 3), BANLOTHEK_CAP_EXCEEDED, 0);
    refused("(98,39,24)", banlothek_draw_hypergeometric(zero, 1, 98, 39, 24), BANLOTHEK_MODE_TOO_HIGH, 0);
    refused("(1048576,3000,3000)", banlothek_draw_hypergeometric(zero, 1, 1048576, 3000, 3000), BANLOTHEK_POPULATION_TOO_LARGE, 0);
    refused("no word", banlothek_draw_hypergeometric(zero, 0, 60, 24, 7), BANLOTHEK_EXHAUSTED, 0);
}

static void poisson(void) {
    const uint64_t words[] = {THREE_QUARTERS, THREE_QUARTERS, THREE_QUARTERS};
    expect("T = 0.5", banlothek_draw_poisson(words, 3, HALF), 0, 3, 2);
    expect("T = 1", banlothek_draw_poisson(words, 3, ONE), 0, 1, 0);
    refused("T = 2^-18 goes on", banlothek_draw_poisson(words, 3, LEAST_T), BANLOTHEK_EXHAUSTED, 0);
    refused("T below 2^-18", banlothek_draw_poisson(words, 3, BELOW_LEAST_T), BANLOTHEK_THRESHOLD_OUTSIDE, 0);
    refused("T above 1", banlothek_draw_poisson(words, 3, ABOVE_ONE), BANLOTHEK_THRESHOLD_OUTSIDE, 0);
    refused("T is a NaN", banlothek_draw_poisson(words, 3, NAN_BITS), BANLOTHEK_THRESHOLD_OUTSIDE, 0);
    refused("two words of three", banlothek_draw_poisson(words, 2, HALF), BANLOTHEK_EXHAUSTED, 0);
    refused("a tape too long", banlothek_draw_poisson(long_tape, TOO_MANY_WORDS, NAN_BITS), BANLOTHEK_TAPE_TOO_LONG, 0);
}

static void geometric(void) {
    const uint64_t one_try[] = {TOP, 1, 0}, two_tries[] = {TOP, 1, TOP, 0, TOP}, above[] = {LAST, 0};
    expect("p = 0.5, one try", banlothek_draw_geometric(one_try, 3, HALF), 0, 3, 1);
    expect("p = 0.5, two tries", banlothek_draw_geometric(two_tries, 5, HALF), 0, 5, 0);
    expect("p = 0.75", banlothek_draw_geometric(above, 2, P_75), 0, 2, 1);
    expect("p = 0", banlothek_draw_geometric(above, 0, 0), 0, 0, LAST);
    expect("p = -0.0", banlothek_draw_geometric(above, 0, TOP), 0, 0, LAST);
    refused("p above 1", banlothek_draw_geometric(above, 2, ABOVE_ONE), BANLOTHEK_INVALID_PROBABILITY, 0);
    refused("p below 0", banlothek_draw_geometric(above, 2, TOP + 1), BANLOTHEK_INVALID_PROBABILITY, 0);
    refused("p is a NaN", banlothek_draw_geometric(above, 2, NAN_BITS), BANLOTHEK_INVALID_PROBABILITY, 0);
    refused("p = 2^-32", banlothek_draw_geometric(above, 2, P_2_32), BANLOTHEK_TOO_RARE, 0);
    refused("the try's fraction is missing", banlothek_draw_geometric(one_try, 2, HALF), BANLOTHEK_EXHAUSTED, 0);
    refused("a tape too long", banlothek_draw_geometric(long_tape, TOO_MANY_WORDS, NAN_BITS), BANLOTHEK_TAPE_TOO_LONG, 0);
}

static void standard(void) {
    const uint64_t words[] = {0, TOP}, one[] = {1};
    expect("0, 2^63", banlothek_draw_standard_geometric(words, 2), 0, 2, 64);
    expect("the word 1", banlothek_draw_standard_geometric(one, 1), 0, 1, 63);
    refused("zeros to the end", banlothek_draw_standard_geometric(words, 1), BANLOTHEK_EXHAUSTED, 0);
    refused("no word", banlothek_draw_standard_geometric(words, 0), BANLOTHEK_EXHAUSTED, 0);
    refused("a tape too long", banlothek_draw_standard_geometric(long_tape, TOO_MANY_WORDS), BANLOTHEK_TAPE_TOO_LONG, 0);
}

/* ---- the book */

/* Of the first seven words one, three, two and one are for serials 1 to 4, none is left; the eighth is for one more. */
static const uint64_t tape[] = {0, THREE_QUARTERS, THREE_QUARTERS, THREE_QUARTERS, LAST, 0, 1, 1};
enum { WORDS = 7, ROOM = 48 + 32 + 32 + 48 };

/* Trays, a Poisson and a geometric pull, which fill a book of ROOM bytes. */
static void fill(void) {
    expect("serial 1", banlothek_deliver_hypergeometric(tape, WORDS, book, ROOM, 1, 50, 35, 10), 0, 1, 10);
    expect("serial 2", banlothek_deliver_poisson(tape, WORDS, book, ROOM, 2, HALF), 0, 3, 2);
    expect("serial 3", banlothek_deliver_geometric(tape, WORDS, book, ROOM, 3, P_75), 0, 2, 1);
    expect("serial 4", banlothek_deliver_hypergeometric(tape, WORDS, book, ROOM, 4, 10, 8, 7), 0, 1, 5);
}

/* A true copy, in a full book and at the tape's end; then the same serials for other requests. */
static void copies(void) {
    keep();
    expect("a copy of 1", banlothek_deliver_hypergeometric(tape, WORDS, book, ROOM, 1, 50, 35, 10), 1, 1, 10);
    expect("a copy of 2", banlothek_deliver_poisson(tape, WORDS, book, ROOM, 2, HALF), 1, 3, 2);
    expect("a copy of 3", banlothek_deliver_geometric(tape, WORDS, book, ROOM, 3, P_75), 1, 2, 1);
    expect("a copy of 4", banlothek_deliver_hypergeometric(tape, WORDS, book, ROOM, 4, 10, 8, 7), 1, 1, 5);
    same("copies change nothing", kept, book, sizeof book);
    refused_and_kept("1 with n and K exchanged", banlothek_deliver_hypergeometric(tape, WORDS, book, ROOM, 1, 50, 10, 35),
                     BANLOTHEK_SERIAL_REUSED);
    refused_and_kept("2 of another kind", banlothek_deliver_geometric(tape, WORDS, book, ROOM, 2, HALF), BANLOTHEK_SERIAL_REUSED);
    refused_and_kept("3 of another p", banlothek_deliver_geometric(tape, WORDS, book, ROOM, 3, ONE), BANLOTHEK_SERIAL_REUSED);
    refused_and_kept("4 of another kind", banlothek_deliver_poisson(tape, WORDS, book, ROOM, 4, HALF), BANLOTHEK_SERIAL_REUSED);
}

static void ahead_and_full(void) {
    refused_and_kept("serial 0", banlothek_deliver_hypergeometric(tape, WORDS, book, ROOM, 0, 50, 35, 10), BANLOTHEK_SERIAL_AHEAD);
    refused_and_kept("serial 6", banlothek_deliver_poisson(tape, WORDS, book, ROOM, 6, HALF), BANLOTHEK_SERIAL_AHEAD);
    refused_and_kept("serial 7", banlothek_deliver_geometric(tape, WORDS, book, ROOM, 7, HALF), BANLOTHEK_SERIAL_AHEAD);
    refused_and_kept("serial 2^32-1", banlothek_deliver_geometric(tape, WORDS, book, ROOM, 0xffffffff, HALF), BANLOTHEK_SERIAL_AHEAD);
    refused_and_kept("parameters before the room", banlothek_deliver_geometric(tape, WORDS, book, ROOM, 5, NAN_BITS),
                     BANLOTHEK_INVALID_PROBABILITY);
    refused_and_kept("full: hypergeometric", banlothek_deliver_hypergeometric(tape, WORDS, book, ROOM + 47, 5, 50, 35, 10),
                     BANLOTHEK_BOOK_FULL);
    refused_and_kept("full: Poisson", banlothek_deliver_poisson(tape, WORDS, book, ROOM + 31, 5, HALF), BANLOTHEK_BOOK_FULL);
    refused_and_kept("full: geometric", banlothek_deliver_geometric(tape, WORDS, book, ROOM + 31, 5, HALF), BANLOTHEK_BOOK_FULL);
    refused_and_kept("no word left: Poisson", banlothek_deliver_poisson(tape, WORDS, book, ROOM + 32, 5, HALF), BANLOTHEK_EXHAUSTED);
    refused_and_kept("no word left: geometric", banlothek_deliver_geometric(tape, WORDS, book, ROOM + 32, 5, HALF), BANLOTHEK_EXHAUSTED);
    refused_and_kept("no word left: a tray", banlothek_deliver_hypergeometric(tape, WORDS, book, ROOM + 48, 5, 50, 35, 10),
                     BANLOTHEK_EXHAUSTED);
}

/* The standard geometric pull over the full book, and with room for one. */
static void standard_delivered(void) {
    refused_and_kept("1 as standard", banlothek_deliver_standard_geometric(tape, WORDS, book, ROOM, 1), BANLOTHEK_SERIAL_REUSED);
    refused_and_kept("standard ahead", banlothek_deliver_standard_geometric(tape, WORDS, book, ROOM, 6), BANLOTHEK_SERIAL_AHEAD);
    refused_and_kept("full: standard", banlothek_deliver_standard_geometric(tape, WORDS, book, ROOM + 23, 5), BANLOTHEK_BOOK_FULL);
    refused_and_kept("no word left: standard", banlothek_deliver_standard_geometric(tape, WORDS, book, ROOM + 24, 5), BANLOTHEK_EXHAUSTED);
    expect("standard", banlothek_deliver_standard_geometric(tape, WORDS + 1, book, ROOM + 24, 5), 0, 1, 63);
    expect("its copy", banlothek_deliver_standard_geometric(tape, WORDS + 1, book, ROOM + 24, 5), 1, 1, 63);
    refused("5 of another kind", banlothek_deliver_poisson(tape, WORDS + 1, book, ROOM + 24, 5, HALF), BANLOTHEK_SERIAL_REUSED, 0);
    expect("drawn again", banlothek_redraw(tape, WORDS + 1, book, ROOM + 24), 0, 0, 5);
    expect("struck", banlothek_strike(tape, WORDS + 1, book, ROOM + 24, 1), 0, 0, 4);
    same("the book is what it was before", kept, book, sizeof book);
}

/* With room for an entry, and in a full book at the tape's end: parameters are refused before 15 and 10. */
static void parameters(size_t n) {
    refused_and_kept("delivered K > N", banlothek_deliver_hypergeometric(tape, WORDS, book, n, 5, 10, 11, 12),
                     BANLOTHEK_PROBABILITY_TOO_LARGE);
    refused_and_kept("delivered n > N", banlothek_deliver_hypergeometric(tape, WORDS, book, n, 5, 10, 3, 11),
                     BANLOTHEK_SAMPLE_SIZE_TOO_LARGE);
    refused_and_kept("delivered N", banlothek_deliver_hypergeometric(tape, WORDS, book, n, 5, 1048577, 3, 3), BANLOTHEK_CAP_EXCEEDED);
    refused_and_kept("delivered (98,39,24)", banlothek_deliver_hypergeometric(tape, WORDS, book, n, 5, 98, 39, 24),
                     BANLOTHEK_MODE_TOO_HIGH);
    refused_and_kept("delivered 3000s", banlothek_deliver_hypergeometric(tape, WORDS, book, n, 5, 1048576, 3000, 3000),
                     BANLOTHEK_POPULATION_TOO_LARGE);
    refused_and_kept("delivered T", banlothek_deliver_poisson(tape, WORDS, book, n, 5, ABOVE_ONE), BANLOTHEK_THRESHOLD_OUTSIDE);
    refused_and_kept("delivered a p above 1", banlothek_deliver_geometric(tape, WORDS, book, n, 5, ABOVE_ONE),
                     BANLOTHEK_INVALID_PROBABILITY);
    refused_and_kept("delivered p", banlothek_deliver_geometric(tape, WORDS, book, n, 5, P_2_32), BANLOTHEK_TOO_RARE);
}

/* Every call over a tape or a book that is too long, and over a book that is damaged. */
static void limits(const char *what, const uint64_t *words, size_t n, size_t bytes, uint32_t number) {
    keep();
    refused_and_kept(what, banlothek_deliver_hypergeometric(words, n, book, bytes, 1, 50, 35, 10), number);
    refused_and_kept(what, banlothek_deliver_poisson(words, n, book, bytes, 1, HALF), number);
    refused_and_kept(what, banlothek_deliver_geometric(words, n, book, bytes, 1, HALF), number);
    refused_and_kept(what, banlothek_deliver_standard_geometric(words, n, book, bytes, 1), number);
    refused_and_kept(what, banlothek_strike(words, n, book, bytes, 0), number);
    refused_and_kept(what, banlothek_redraw(words, n, book, bytes), number);
}

/* Where two conditions hold at once or more, the earlier in the call's order is given. */
static void two_at_once(void) {
    refused_and_kept("15 with 10", banlothek_deliver_poisson(tape, WORDS, book, ROOM, 5, HALF), BANLOTHEK_BOOK_FULL);
    refused_and_kept("14 with 8 and 15", banlothek_deliver_geometric(tape, WORDS, book, ROOM, 3, NAN_BITS), BANLOTHEK_SERIAL_REUSED);
    refused_and_kept("13 with 8 and 15", banlothek_deliver_geometric(tape, WORDS, book, ROOM, 6, NAN_BITS), BANLOTHEK_SERIAL_AHEAD);
    book[MOST_BYTES] = 1;
    limits("1 with 11 and 12", long_tape, TOO_MANY_WORDS, MOST_BYTES + 1, BANLOTHEK_TAPE_TOO_LONG);
    limits("11 with 12", tape, WORDS, MOST_BYTES + 1, BANLOTHEK_BOOK_TOO_LONG);
    book[MOST_BYTES] = 0;
    book[ROOM] = 1;
    keep();
    refused_and_kept("12 with 13, serial 0", banlothek_deliver_poisson(tape, WORDS, book, ROOM + 24, 0, HALF), BANLOTHEK_BOOK_DAMAGED);
    refused_and_kept("12 with 13, serial 6", banlothek_deliver_geometric(tape, WORDS, book, ROOM + 24, 6, HALF), BANLOTHEK_BOOK_DAMAGED);
    refused_and_kept("12 with 16", banlothek_strike(tape, WORDS, book, ROOM + 24, 5), BANLOTHEK_BOOK_DAMAGED);
    book[ROOM] = 0;
}

static void redraw_and_strike(void) {
    uint8_t zeros[ROOM] = {0};
    expect("all agree", banlothek_redraw(tape, WORDS, book, ROOM), 0, 0, 4);
    book[48 + 16]++; /* the count of serial 2 */
    keep();
    refused("serial 2 differs", banlothek_redraw(tape, WORDS, book, ROOM), BANLOTHEK_REDRAW_DIFFERS, 2);
    same("a redraw changes nothing", kept, book, sizeof book);
    book[48 + 16]--;
    keep();
    refused_and_kept("a strike of 5", banlothek_strike(tape, WORDS, book, ROOM, 5), BANLOTHEK_STRIKE_TOO_MANY);
    expect("a strike of 0", banlothek_strike(tape, WORDS, book, ROOM, 0), 0, 0, 4);
    expect("a strike of 2", banlothek_strike(tape, WORDS, book, ROOM, 2), 0, 0, 2);
    same("a strike changes no other byte", kept, book, 80);
    same("a strike zeroes its entries", zeros, book + 80, ROOM - 80);
    refused("serial 4 is ahead", banlothek_deliver_hypergeometric(tape, WORDS, book, ROOM, 4, 10, 8, 7), BANLOTHEK_SERIAL_AHEAD, 0);
    expect("3 is fresh again", banlothek_deliver_geometric(tape, WORDS, book, ROOM, 3, P_75), 0, 2, 1);
    expect("4 is fresh again", banlothek_deliver_hypergeometric(tape, WORDS, book, ROOM, 4, 10, 8, 7), 0, 1, 5);
    same("the book is what it was", kept, book, sizeof book);
    expect("a strike of all", banlothek_strike(tape, WORDS, book, ROOM, 4), 0, 0, 0);
    same("an empty book is all zeros", zeros, book, ROOM);
    expect("an empty book agrees", banlothek_redraw(tape, WORDS, book, ROOM), 0, 0, 0);
}

/* ---- deliveries by number */

/* Each kind by its number, with parameters that it doesn't have: they are not looked at, so that each call but the first of a kind is a copy. */
static void by_number(void) {
    const uint64_t own[4][3] = {{50, 35, 10}, {HALF, 0, 0}, {P_75, 0, 0}, {0, 0, 0}};
    const uint32_t parameters[4] = {3, 1, 1, 0}, used[4] = {1, 3, 2, 1};
    const uint64_t count[4] = {10, 2, 1, 63};
    memset(book, 0, sizeof book);
    for (uint32_t kind = 1; kind <= 4; kind++) {
        const uint64_t *p = own[kind - 1];
        expect("by number", banlothek_deliver(tape, WORDS + 1, book, ROOM, kind, kind, p[0], p[1], p[2]), 0, used[kind - 1], count[kind - 1]);
        keep();
        for (uint32_t past = parameters[kind - 1]; past < 3; past++) {
            uint64_t with[3] = {p[0], p[1], p[2]};
            with[past] = LAST;
            expect("past its parameters", banlothek_deliver(tape, WORDS + 1, book, ROOM, kind, kind, with[0], with[1], with[2]), 1,
                   used[kind - 1], count[kind - 1]);
        }
        for (uint32_t within = 0; within < parameters[kind - 1]; within++) {
            uint64_t with[3] = {p[0], p[1], p[2]};
            with[within]++;
            refused_and_kept("within its parameters", banlothek_deliver(tape, WORDS + 1, book, ROOM, kind, kind, with[0], with[1], with[2]),
                             BANLOTHEK_SERIAL_REUSED);
        }
        same("its entry has its kind", (const uint8_t[2]){(uint8_t)kind, 0}, book + (size_t[4]){0, 48, 80, 112}[kind - 1] + 2, 2);
    }
    expect("drawn again", banlothek_redraw(tape, WORDS + 1, book, ROOM), 0, 0, 4);
}

/* A number that is no kind's, over a book where it would be next, a copy and ahead, and where everything else would refuse too. 5 is here until
 * it is a kind. */
static void no_such_kind(void) {
    const uint32_t none[] = {0, 5, 255, 256, 65535, 65536, 65537, 65540, 0x7fffffff, 0x80000001, 0xffffffff};
    keep();
    for (size_t i = 0; i < sizeof none / sizeof *none; i++) {
        const uint32_t kind = none[i];
        for (uint32_t serial = 0; serial <= 6; serial++)
            refused_and_kept("no kind", banlothek_deliver(tape, WORDS + 1, book, ROOM, serial, kind, 50, 35, 10), BANLOTHEK_NO_SUCH_KIND);
        refused_and_kept("no kind with 11", banlothek_deliver(tape, WORDS, book, MOST_BYTES + 1, 1, kind, 50, 35, 10), BANLOTHEK_NO_SUCH_KIND);
        refused_and_kept("no kind with 1", banlothek_deliver(long_tape, TOO_MANY_WORDS, book, ROOM, 1, kind, LAST, LAST, LAST),
                         BANLOTHEK_NO_SUCH_KIND);
        refused_and_kept("no kind with 12", banlothek_deliver(tape, 1, book, ROOM, 1, kind, 0, 0, 0), BANLOTHEK_NO_SUCH_KIND);
        refused_and_kept("no kind with 15", banlothek_deliver(tape, WORDS, book, 0, 1, kind, 0, 0, 0), BANLOTHEK_NO_SUCH_KIND);
    }
}

/* ---- what a caller owes */

/*
 * Rounding up, as a caller must not leave it: the product of two fractions of 1 - 2^-53 is a last bit higher than to nearest, and so above the
 * threshold. What is booked so is not what the rules draw, and a redraw to nearest finds it out.
 */
static void rounding(void) {
    const uint64_t words[] = {LAST, LAST, 0}, threshold = 0x3feffffffffffffe;
    const uint32_t nearest = __builtin_ia32_stmxcsr(), up = (nearest & ~0x6000u) | 0x4000u;
    memset(book, 0, sizeof book);
    expect("to nearest", banlothek_draw_poisson(words, 3, threshold), 0, 2, 1);
    __builtin_ia32_ldmxcsr(up);
    banlothek_answer drawn = banlothek_draw_poisson(words, 3, threshold);
    banlothek_answer booked = banlothek_deliver_poisson(words, 3, book, 32, 1, threshold);
    __builtin_ia32_ldmxcsr(nearest);
    expect("rounding up", drawn, 0, 3, 2);
    expect("booked rounding up", booked, 0, 3, 2);
    refused("redrawn to nearest", banlothek_redraw(words, 3, book, 32), BANLOTHEK_REDRAW_DIFFERS, 1);
}

static void version(void) {
    expectations++;
    if (banlothek_version() != BANLOTHEK_VERSION)
        fail("the library's version is the header's");
}

/* ---- worked books */

/* The first worked book, after one standard draw over the word 1. */
static void worked(void) {
    const uint8_t bytes[24] = {0x18, 0, 4, 0, 1, 0, 0, 0, 0, 0, 0, 0, 1, 0, 0, 0, 0x3f};
    const uint64_t one[] = {1};
    memset(book, 0, sizeof book);
    expect("the worked draw", banlothek_deliver_standard_geometric(one, 1, book, 24, 1), 0, 1, 63);
    same("the worked book", bytes, book, 24);
    refused("a book of no byte is full", banlothek_deliver_geometric(one, 1, book, 0, 1, P_75), BANLOTHEK_BOOK_FULL, 0);
}

/* The second: every kind, copies and a strike; no two fields of an entry are alike but a tray's kind and used. */
static void worked_second(void) {
    const uint64_t words[17] = {
        0x1000000000000000u, 0x4000000000000000u, 0xa000000000000000u, 0x0123456789abcdefu, 0x8000000000000000u, 0x0f1e2d3c4b5a6976u,
        0x7000000000000000u, 0, 0, 0x0400000000000000u, 0xa800000000000000u, 0xe800000000000000u, 0xe000000000000000u,
        0xd000000000000000u, 0xc800000000000000u, 0xb000000000000000u, 0x9000000000000000u};
    const uint8_t bytes[140] = {
        0x20, 0, 3, 0, 1, 0, 0, 0, 0, 0, 0, 0, 7, 0, 0, 0, 10, 0, 0, 0, 0, 0, 0, 0, 0, 0, 0, 0, 0, 0, 0xd0, 0x3f,
        0x18, 0, 4, 0, 2, 0, 0, 0, 7, 0, 0, 0, 3, 0, 0, 0, 0x85, 0, 0, 0, 0, 0, 0, 0,
        0x30, 0, 1, 0, 3, 0, 0, 0, 10, 0, 0, 0, 1, 0, 0, 0, 8, 0, 0, 0, 0, 0, 0, 0,
        50, 0, 0, 0, 0, 0, 0, 0, 35, 0, 0, 0, 0, 0, 0, 0, 12, 0, 0, 0, 0, 0, 0, 0,
        0x20, 0, 2, 0, 4, 0, 0, 0, 11, 0, 0, 0, 6, 0, 0, 0, 5, 0, 0, 0, 0, 0, 0, 0, 0, 0, 0, 0, 0, 0, 0xd4, 0x3f};
    const uint64_t quarter = 0x3fd0000000000000u, three_eighths = 0x3fd8000000000000u, five_sixteenths = 0x3fd4000000000000u;
    memset(book, 0, sizeof book);
    expect("a geometric draw", banlothek_deliver_geometric(words, 17, book, 140, 1, quarter), 0, 7, 10);
    expect("a standard draw", banlothek_deliver_standard_geometric(words, 17, book, 140, 2), 0, 3, 133);
    expect("a draw to be struck", banlothek_deliver_poisson(words, 17, book, 140, 3, three_eighths), 0, 5, 4);
    expect("a copy", banlothek_deliver_geometric(words, 17, book, 140, 1, quarter), 1, 7, 10);
    expect("a strike", banlothek_strike(words, 17, book, 140, 1), 0, 0, 2);
    expect("a tray over the same words", banlothek_deliver_hypergeometric(words, 17, book, 140, 3, 50, 35, 12), 0, 1, 8);
    expect("a Poisson draw", banlothek_deliver_poisson(words, 17, book, 140, 4, five_sixteenths), 0, 6, 5);
    expect("another copy", banlothek_deliver_standard_geometric(words, 17, book, 140, 2), 1, 3, 133);
    same("the second worked book", bytes, book, 140);
}

int main(void) {
    hypergeometric();
    poisson();
    geometric();
    standard();
    fill();
    copies();
    ahead_and_full();
    standard_delivered();
    parameters(MOST_BYTES);
    parameters(ROOM);
    limits("a tape of 1,048,577 words", long_tape, TOO_MANY_WORDS, ROOM, BANLOTHEK_TAPE_TOO_LONG);
    limits("a book of 65,537 bytes", tape, WORDS, MOST_BYTES + 1, BANLOTHEK_BOOK_TOO_LONG);
    limits("a tape shorter than its book", tape, WORDS - 1, ROOM, BANLOTHEK_BOOK_DAMAGED);
    book[ROOM] = 1;
    limits("a byte after the end", tape, WORDS, ROOM + 24, BANLOTHEK_BOOK_DAMAGED);
    book[ROOM] = 0;
    keep();
    two_at_once();
    redraw_and_strike();
    by_number();
    no_such_kind();
    rounding();
    version();
    worked();
    worked_second();
    printf("%d of %d expectations hold\n", expectations - failures, expectations);
    return failures != 0;
}
