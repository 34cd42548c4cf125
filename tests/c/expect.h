/* What the tests in C share: a count of what was not so, and how to look at a refusal. */
#ifndef EXPECT_H
#define EXPECT_H

#include <stdio.h>
#include <stdlib.h>

#include "tejorva.h"

static int failures = 0;

/* Prints what does not hold. */
static inline void expect(const char *what, int holds) {
    if (!holds) {
        printf("not so: %s\n", what);
        failures++;
    }
}

/* Whether an answer is a refusal with this number and place. */
static inline int is_refused(uint64_t answer, unsigned number, uint64_t place) {
    return tejorva_word(answer) == TEJORVA_REFUSED && tejorva_number(answer) == number && tejorva_place(answer) == place;
}

/* The exit status of a test. */
static inline int outcome(void) { return failures == 0 ? EXIT_SUCCESS : EXIT_FAILURE; }

#endif
