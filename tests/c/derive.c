/* Derive called from C: the words, a refusal's number and place, and P7 to P11 of the paper. */
#include "expect.h"

int main(void) {
    /* agent a, constants c and d, pk(a), sk(a), {c}pk(a), {c}sk(a), {d}d, {c}{d}d */
    static const uint8_t table[] = {1, 0, 0, 3, 0, 0, 3, 1, 0, 8, 0, 0, 9, 0, 0, 12, 1, 3, 12, 1, 4, 12, 2, 2, 12, 1, 7};
    const uint8_t p7[] = {5, 4}, p8[] = {5, 3}, p9[] = {6, 3}, p10[] = {8, 2}, p11[] = {0}, bad[] = {0, 9};

    expect("P7: from {c}pk(a) and sk(a): c", tejorva_word(tejorva_derive(table, sizeof table, p7, 2, 1)) == TEJORVA_DERIVABLE);
    expect("P8: from {c}pk(a) and pk(a): not c", tejorva_word(tejorva_derive(table, sizeof table, p8, 2, 1)) == TEJORVA_NOT_DERIVABLE);
    expect("P9: from {c}sk(a) and pk(a): c", tejorva_word(tejorva_derive(table, sizeof table, p9, 2, 1)) == TEJORVA_DERIVABLE);
    expect("P10: from {c}{d}d and d: c", tejorva_word(tejorva_derive(table, sizeof table, p10, 2, 1)) == TEJORVA_DERIVABLE);
    expect("P11: from a: not pk(a)", tejorva_word(tejorva_derive(table, sizeof table, p11, 1, 3)) == TEJORVA_NOT_DERIVABLE);

    expect("a row cut short: 4 at the row", is_refused(tejorva_derive(table, sizeof table - 1, p7, 2, 1), 4, 24));
    expect("a listed row absent: 11 at its place in the list", is_refused(tejorva_derive(table, sizeof table, bad, 2, 1), 11, 1));
    expect("the target absent: 11 at the list's length", is_refused(tejorva_derive(table, sizeof table, p7, 2, 9), 11, 2));
    expect("no table and no list: 11 at 0", is_refused(tejorva_derive(NULL, 0, NULL, 0, 0), 11, 0));
    expect("no answer is no acceptance", tejorva_word(0) == TEJORVA_REFUSED);
    return outcome();
}
