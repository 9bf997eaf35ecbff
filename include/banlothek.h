/*
 * Banlothek: how many vials of a tray go to the reference scale, drawn from a recorded tape of random words and kept in a book, so that a
 * copy of a message gets the answer that it got before.
 *
 * What keeps a line safe:
 *
 *   1. The book is on the disk before the answer is used. A call changes the book in memory alone. After a call that changed it, write it to a
 *      new file, sync that file, rename it over the old one and sync the folder; only then hand the answer on. If one of these steps fails, give
 *      no answer and end; the next start goes on from the file.
 *   2. One tape for one book. The words are those that the first booking was drawn from, to the last call. Over another tape a book can look
 *      sound; a redraw tells (refusal 17).
 *   3. The same message again after a crash. Whoever has no answer sends the same serial with the same parameters once more: if it was booked,
 *      it gets what was booked, as a copy; if not, it is booked now.
 *   4. A strike that is sent again strikes again, and takes back bookings that were answered. `banlothek_strike` with j = 0 changes nothing and
 *      answers how many entries stand: look first, and strike only what is still there.
 *   5. One writer for one book: hold a lock while you have it.
 *
 * bindings/c/examples/durable.c is a small host that does all of this but strikes.
 *
 * What a caller owes beside, and no function here can test:
 *
 *   - no pointer is null, also where its length is 0;
 *   - a tape is aligned to 8 bytes;
 *   - `tape` can be read for `words` words and `book` for `bytes` bytes; a book that isn't const can be written too;
 *   - a tape and a book that is written do not overlap (a redraw writes neither);
 *   - nothing else writes either during the call;
 *   - floating point is as a process starts with it: rounding to nearest, nothing flushed to zero, no exception that traps. (The same Poisson
 *     draw counted 1 to nearest and 2 rounding up, and a redraw to nearest refused what was booked so, by 17: `bindings/c/test.c` has the case.)
 *
 * What these functions answer is proved of them for every input that meets this: no parameter, word or byte is wrong to pass. Each call ends,
 * and answers or refuses by one number. docs/PUBLIC.md names the contract of each.
 *
 * Link with libbanlothek.a, which `bin/library` writes for x86-64 Linux. It needs a memset and nothing else, keeps nothing between
 * calls, allocates nothing, and calls nothing back. This header is C99, and C++.
 */
#ifndef BANLOTHEK_H
#define BANLOTHEK_H

#include <stddef.h>
#include <stdint.h>

#ifdef __cplusplus
extern "C" {
#endif

/*
 * Which functions these are: a number that grows whenever a function, a kind, a refusal or a field comes or changes. The library has its own;
 * where the two differ, header and library don't belong together, and nothing else may be called: the struct below may have another size.
 */
#define BANLOTHEK_VERSION 1
uint32_t banlothek_version(void);

/*
 * What every other function answers. A refusal has its number in `refusal`, and copied, used and count are 0; serial is 0 but with refusal 17.
 * A call that is refused changes no byte of the book.
 */
typedef struct {
    uint32_t refusal; /* 0: accepted; else one of the numbers below */
    uint32_t copied;  /* 1: a copy of a standing booking, else 0 */
    uint32_t serial;  /* with refusal 17 the lowest serial that differs, else 0 */
    uint32_t used;    /* the words that the draw used; 0 of a strike and a redraw */
    uint64_t count;   /* the count drawn; the entries left (strike); the entries (redraw) */
} banlothek_answer;

/* The refusals. Each is given exactly when its condition holds and none before it in the call's order does. */
enum {
    BANLOTHEK_TAPE_TOO_LONG = 1,         /* over 1,048,576 words */
    BANLOTHEK_POPULATION_TOO_LARGE = 2,  /* the first probability is zero or not finite */
    BANLOTHEK_PROBABILITY_TOO_LARGE = 3, /* K > N */
    BANLOTHEK_SAMPLE_SIZE_TOO_LARGE = 4, /* n > N */
    BANLOTHEK_CAP_EXCEEDED = 5,          /* N > 1,048,576 */
    BANLOTHEK_MODE_TOO_HIGH = 6,         /* (k+1)(n1+1) is 10(N+2) or more, by the reduced tray */
    BANLOTHEK_THRESHOLD_OUTSIDE = 7,     /* T is not in 2^-18 to 1 */
    BANLOTHEK_INVALID_PROBABILITY = 8,   /* p is not in 0 to 1 */
    BANLOTHEK_TOO_RARE = 9,              /* 31 squarings of 1 - p leave it above 0.5, and 1 - p is below 1 */
    BANLOTHEK_EXHAUSTED = 10,            /* the draw calls for a word past the tape's end */
    BANLOTHEK_BOOK_TOO_LONG = 11,        /* over 65,536 bytes */
    BANLOTHEK_BOOK_DAMAGED = 12,         /* the book is not sound for this tape */
    BANLOTHEK_SERIAL_AHEAD = 13,         /* serial 0, or above the next */
    BANLOTHEK_SERIAL_REUSED = 14,        /* the serial is booked, for another request */
    BANLOTHEK_BOOK_FULL = 15,            /* the entry is longer than the room left */
    BANLOTHEK_STRIKE_TOO_MANY = 16,      /* j is above the number of entries */
    BANLOTHEK_REDRAW_DIFFERS = 17,       /* an entry is not what its request draws; `serial` names the lowest */
    BANLOTHEK_NO_SUCH_KIND = 100         /* of banlothek_deliver alone: `kind` is no kind's number */
};

/* The kinds of draw, by the numbers that a book has for them. */
enum {
    BANLOTHEK_HYPERGEOMETRIC = 1,     /* N, K, n */
    BANLOTHEK_POISSON = 2,            /* the bits of T */
    BANLOTHEK_GEOMETRIC = 3,          /* the bits of p */
    BANLOTHEK_STANDARD_GEOMETRIC = 4  /* no parameter */
};

/*
 * Draws, from the front of a tape. `count` is what was drawn and `used` the words that it used; no word after those is looked at. The
 * order of refusals is 1, those of the parameters, 10.
 */

/* The marked among n things taken without replacement from N things of which K are marked. Refusals 1, 3, 4, 5, 6, 2, 10. */
banlothek_answer banlothek_draw_hypergeometric(const uint64_t *tape, size_t words, uint64_t N, uint64_t K, uint64_t n);

/* Poisson by its threshold T, which is e to the minus mean, given by the bits of a double. Refusals 1, 7, 10. */
banlothek_answer banlothek_draw_poisson(const uint64_t *tape, size_t words, uint64_t threshold_bits);

/* Failures before the first success of probability p, given by the bits of a double. Refusals 1, 8, 9, 10. */
banlothek_answer banlothek_draw_geometric(const uint64_t *tape, size_t words, uint64_t p_bits);

/* The same with p one half, by the leading zeros of words. Refusals 1, 10. */
banlothek_answer banlothek_draw_standard_geometric(const uint64_t *tape, size_t words);

/*
 * Delivers into a book: at most 65,536 bytes, all zero before the first call, and written by these functions alone. `kind` is one of the
 * numbers above, and a, b, c are its parameters in their order; those that it doesn't have are not looked at.
 *
 * A serial that is next (1, 2, 3, ..) is drawn from the tape at the book's place and booked: its entry is written, and no other byte. A copy of
 * a booked message, the same serial with the same kind and parameters to the bit, gets the booked count and used, with `copied` 1, and changes
 * nothing; it is answered in a full book and at the tape's end too. A number that is no kind's is refused by 100 before anything is looked at.
 * After it the order of refusals is 1, 11, 12, 13, then a copy is answered or refused by 14, then the parameters' as above, 15, 10.
 */
banlothek_answer banlothek_deliver(const uint64_t *tape, size_t words, uint8_t *book, size_t bytes, uint32_t serial, uint32_t kind,
                                   uint64_t a, uint64_t b, uint64_t c);

/* The same by the kind's name. */
static inline banlothek_answer banlothek_deliver_hypergeometric(const uint64_t *tape, size_t words, uint8_t *book, size_t bytes,
                                                                uint32_t serial, uint64_t N, uint64_t K, uint64_t n) {
    return banlothek_deliver(tape, words, book, bytes, serial, BANLOTHEK_HYPERGEOMETRIC, N, K, n);
}

static inline banlothek_answer banlothek_deliver_poisson(const uint64_t *tape, size_t words, uint8_t *book, size_t bytes, uint32_t serial,
                                                         uint64_t threshold_bits) {
    return banlothek_deliver(tape, words, book, bytes, serial, BANLOTHEK_POISSON, threshold_bits, 0, 0);
}

static inline banlothek_answer banlothek_deliver_geometric(const uint64_t *tape, size_t words, uint8_t *book, size_t bytes, uint32_t serial,
                                                           uint64_t p_bits) {
    return banlothek_deliver(tape, words, book, bytes, serial, BANLOTHEK_GEOMETRIC, p_bits, 0, 0);
}

static inline banlothek_answer banlothek_deliver_standard_geometric(const uint64_t *tape, size_t words, uint8_t *book, size_t bytes,
                                                                    uint32_t serial) {
    return banlothek_deliver(tape, words, book, bytes, serial, BANLOTHEK_STANDARD_GEOMETRIC, 0, 0, 0);
}

/*
 * Takes the last j bookings back: their bytes become 0, and no other byte changes. `count` is the number of entries left. Their serials are
 * fresh again, over the same words. j = 0 changes nothing, and tells how many entries stand. Refusals 1, 11, 12, 16.
 */
banlothek_answer banlothek_strike(const uint64_t *tape, size_t words, uint8_t *book, size_t bytes, uint64_t j);

/*
 * Draws every entry again from its place, and changes nothing. `count` is the number of entries where all agree; else refusal 17, with the
 * lowest serial whose request is refused or whose count or used differs. Refusals 1, 11, 12, 17.
 */
banlothek_answer banlothek_redraw(const uint64_t *tape, size_t words, const uint8_t *book, size_t bytes);

#ifdef __cplusplus
}
#endif

#endif
