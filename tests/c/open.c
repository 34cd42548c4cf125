/* Open called from C: acceptance, and a refusal's number and place. */
#include <string.h>

#include "expect.h"

/* The answer to P1 with one byte changed, which leaves the file as it was lent. */
static uint64_t changed(size_t at, uint8_t value) {
    static const uint8_t p1[] = {1, 0, 0, 0, 100, 0, 15, 1, 0, 0, 1, 1, 0, 5, 0, 0, 5, 1, 0, 7, 0, 0, 0, 15, 3,
                                 2, 3, 4, 2, 0, 1, 1, 4, 2, 2, 0, 4, 0, 0, 0, 3, 0, 0, 1, 0, 0};
    uint8_t file[sizeof p1], before[sizeof p1];
    uint64_t answer;
    memcpy(file, p1, sizeof p1);
    file[at] = value;
    memcpy(before, file, sizeof p1);
    answer = tejorva_open(file, sizeof file);
    expect("the file is left as it was", memcmp(file, before, sizeof file) == 0);
    return answer;
}

int main(void) {
    static const uint8_t long_file[4097] = {1};
    expect("P1 is accepted", tejorva_word(changed(4, 100)) == TEJORVA_ACCEPTED);
    expect("no file: 1 at 0", is_refused(tejorva_open(NULL, 0), 1, 0));
    expect("another version: 1 at 0", is_refused(changed(0, 2), 1, 0));
    expect("4,097 bytes: 2 at 4,096", is_refused(tejorva_open(long_file, 4097), 2, 4096));
    expect("4,096 bytes, misframed: 3", tejorva_number(tejorva_open(long_file, 4096)) == 3);
    expect("an unknown kind: 4 at the row", is_refused(changed(7, 99), 4, 7));
    expect("a repeated row: 5 at the row", is_refused(changed(11, 0), 5, 10));
    expect("an unknown event: 6 at the record", is_refused(changed(29, 9), 6, 24));
    expect("a run of an absent role: 8 at the run", is_refused(changed(41, 2), 8, 41));
    return outcome();
}
