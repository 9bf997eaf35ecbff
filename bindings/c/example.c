/*
 * A host that keeps a tape and a book, and has messages answered over them, one of them delivered twice. Build and run it with
 * `bindings/c/run example`; with a compiler of your own: cc -I include bindings/c/example.c target/staticlib/libbanlothek.a
 */
#include "banlothek.h"

int printf(const char *format, ...);

/* The recorded words, and the book: all zeros at first. A service would keep both in files. */
static const uint64_t tape[] = {0x9000000000000000, 0x4000000000000000, 0xc000000000000000, 0xc000000000000000,
                                0xc000000000000000, 0x1000000000000000, 0xf000000000000000};
static uint8_t book[65536];

enum { WORDS = sizeof tape / sizeof *tape };

static void say(uint32_t serial, banlothek_answer answer) {
    if (answer.refusal)
        printf("serial %u is refused by %u\n", serial, answer.refusal);
    else
        printf("serial %u pulls %llu, from %u word(s)%s\n", serial, (unsigned long long)answer.count, answer.used,
               answer.copied ? ", as before" : "");
}

int main(void) {
    const uint64_t half = 0x3fe0000000000000; /* the bits of 0.5, a Poisson threshold */

    say(1, banlothek_deliver_hypergeometric(tape, WORDS, book, sizeof book, 1, 60, 24, 7));
    say(2, banlothek_deliver_hypergeometric(tape, WORDS, book, sizeof book, 2, 60, 24, 7));
    say(3, banlothek_deliver_poisson(tape, WORDS, book, sizeof book, 3, half));
    say(1, banlothek_deliver_hypergeometric(tape, WORDS, book, sizeof book, 1, 60, 24, 7));
    say(2, banlothek_deliver_hypergeometric(tape, WORDS, book, sizeof book, 2, 60, 25, 7));
    say(4, banlothek_deliver_hypergeometric(tape, WORDS, book, sizeof book, 4, 60, 24, 7));

    banlothek_answer left = banlothek_strike(tape, WORDS, book, sizeof book, 1);
    printf("one is taken back, and %llu are left\n", (unsigned long long)left.count);
    say(4, banlothek_deliver_hypergeometric(tape, WORDS, book, sizeof book, 4, 60, 24, 7));

    banlothek_answer all = banlothek_redraw(tape, WORDS, book, sizeof book);
    printf("drawn again, all %llu agree\n", (unsigned long long)all.count);
    return 0;
}
