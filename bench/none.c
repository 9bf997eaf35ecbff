/* Functions that do nothing, for the cost of the loop around a call. What they leave in the struct is never looked at. */
#include "banlothek.h"

void none_draw(banlothek_answer *answer, const uint64_t *tape, size_t words, uint64_t a, uint64_t b, uint64_t c) {
    (void)answer, (void)tape, (void)words, (void)a, (void)b, (void)c;
}

void none_call(banlothek_answer *answer, const uint64_t *tape, size_t words, uint8_t *book, size_t bytes, uint64_t a) {
    (void)answer, (void)tape, (void)words, (void)book, (void)bytes, (void)a;
}
