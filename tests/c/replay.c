/* Replay called from C: a broken claim, none, and a refusal's number and place. */
#include <string.h>

#include "expect.h"

/* The answer to a trace through P1, a send of a local constant and its claim, which leaves file and trace as they were lent. */
static uint64_t replayed(const uint8_t *steps, size_t length) {
    static const uint8_t p1[] = {1, 0, 0, 0, 100, 0, 15, 1, 0, 0, 1, 1, 0, 5, 0, 0, 5, 1, 0, 7, 0, 0, 0, 15, 3,
                                 2, 3, 4, 2, 0, 1, 1, 4, 2, 2, 0, 4, 0, 0, 0, 3, 0, 0, 1, 0, 0};
    uint8_t file[sizeof p1], trace[16];
    uint64_t answer;
    memcpy(file, p1, sizeof p1);
    memcpy(trace, steps, length);
    answer = tejorva_replay(file, sizeof file, trace, length);
    expect("the file is left as it was", memcmp(file, p1, sizeof file) == 0);
    expect("the trace is left as it was", memcmp(trace, steps, length) == 0);
    return answer;
}

int main(void) {
    static const uint8_t steps[] = {1, 0, 1, 0, 1, 0}, value[] = {1, 1, 4, 1}, other[] = {2, 0};
    uint64_t broken = replayed(steps, 4);
    expect("the claim of run 1 is broken", tejorva_word(broken) == TEJORVA_CLAIM && tejorva_run(broken) == 1);
    expect("it is event 1, of secrecy", tejorva_event(broken) == 1 && tejorva_claim_kind(broken) == 2);
    expect("nothing else is in that answer", broken == ((uint64_t)7 << 60 | (uint64_t)2 << 40 | (uint64_t)1 << 36 | (uint64_t)1 << 32));
    expect("the send alone breaks none", replayed(steps, 2) == (uint64_t)TEJORVA_NO_CLAIM << 60);
    expect("nor does no step", replayed(steps, 0) == (uint64_t)TEJORVA_NO_CLAIM << 60);
    expect("a step past the end: 12 at it", is_refused(replayed(steps, 6), 12, 4));
    expect("a step cut short: 12 at it", is_refused(replayed(steps, 3), 12, 2));
    expect("a send with a value: 12", is_refused(replayed(value, 4), 12, 0));
    expect("an absent run: 12", is_refused(replayed(other, 2), 12, 0));
    expect("no file: as Open", is_refused(tejorva_replay(NULL, 0, NULL, 0), 1, 0));
    return outcome();
}
