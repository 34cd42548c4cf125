/* Search called from C, by the full list and by the short one: every word of an answer, the trace at the buffer's front, and buffers left as they were. */
#include <string.h>

#include "expect.h"

/* P1: one role sends its local constant in the clear and claims it secret. P2: it sends it under the public key of role 1. P4: two runs of P2. P12: a read of
 * a fresh variable, with both names known. */
static const uint8_t p1[] = {1, 0, 0, 0, 100, 0, 15, 1, 0, 0, 1, 1, 0, 5, 0, 0, 5, 1, 0, 7, 0, 0, 0, 15, 3,
                             2, 3, 4, 2, 0, 1, 1, 4, 2, 2, 0, 4, 0, 0, 0, 3, 0, 0, 1, 0, 0};
static const uint8_t p2[] = {1, 0, 0, 0, 100, 0, 21, 1, 0, 0, 1, 1, 0, 5, 0, 0, 5, 1, 0, 7, 0, 0, 8, 3, 0, 12, 4,
                             5, 0, 16, 4, 2, 3, 4, 5, 2, 0, 1, 1, 6, 2, 2, 0, 4, 0, 0, 0, 3, 0, 0, 1, 0, 0};
static const uint8_t p4[] = {1, 0, 0, 0, 100, 0, 21, 1, 0, 0, 1, 1, 0, 5, 0, 0, 5, 1, 0, 7, 0, 0, 8, 3, 0, 12, 4, 5,
                             0, 16, 4, 2, 3, 4, 5, 2, 0, 1, 1, 6, 2, 2, 0, 4, 0, 0, 0, 6, 0, 0, 1, 0, 0, 1, 0, 0};
static const uint8_t p12[] = {1, 0, 0, 0, 100, 0, 18, 1, 0, 0, 1, 1, 0, 5, 0, 0, 5, 1, 0, 4, 0, 0, 6, 0, 1,
                              0, 10, 2, 2, 3, 1, 1, 0, 1, 5, 0, 0, 0, 3, 0, 0, 1, 0, 2, 0, 1};

enum { BUFFER = 200 };

/* Either search. */
typedef uint64_t search_function(const uint8_t *file, size_t file_len, uint8_t *trace, size_t trace_len);

/* The bytes lent as a buffer, and those behind it. */
static uint8_t buffer[BUFFER + 64];

/* Byte i before a call. */
static uint8_t pattern(size_t i) { return (uint8_t)(i * 89 + 170); }

/* Whether every byte from an offset on is as it was before the call. */
static int kept_from(size_t first) {
    size_t i;
    for (i = first; i < sizeof buffer; i++)
        if (buffer[i] != pattern(i))
            return 0;
    return 1;
}

/* The answer to a file with byte `at` changed, with a buffer of some length. The file is left as it was lent. */
static uint64_t changed(search_function *search, const uint8_t *file, size_t file_len, size_t at, uint8_t value, size_t trace_len) {
    uint8_t lent[sizeof p4], before[sizeof p4];
    uint64_t answer;
    size_t i;
    memcpy(lent, file, file_len);
    lent[at] = value;
    memcpy(before, lent, file_len);
    for (i = 0; i < sizeof buffer; i++)
        buffer[i] = pattern(i);
    answer = search(lent, file_len, buffer, trace_len);
    expect("the file is left as it was", memcmp(lent, before, file_len) == 0);
    return answer;
}

/* A file with a budget below 256 has a verdict of this word and number, which keeps the buffer. */
static void judged(const char *what, search_function *search, const uint8_t *file, size_t file_len, uint8_t budget, enum tejorva_word word, uint32_t number) {
    uint64_t answer = changed(search, file, file_len, 4, budget, 128);
    expect(what, tejorva_word(answer) == word && tejorva_number(answer) == number);
    expect("and keeps the buffer", kept_from(0));
}

static void refused(const char *what, search_function *search, size_t at, uint8_t value, size_t trace_len, unsigned number, uint64_t place) {
    expect(what, is_refused(changed(search, p1, sizeof p1, at, value, trace_len), number, place));
    expect("a refused call changes no byte", kept_from(0));
}

static void broken(search_function *search, size_t trace_len) {
    static const uint8_t trace[] = {1, 0, 1, 0};
    uint64_t answer = changed(search, p1, sizeof p1, 4, 100, trace_len);
    expect("P1 is broken", tejorva_word(answer) == TEJORVA_BROKEN);
    expect("at the third trace", tejorva_number(answer) == 3);
    expect("in run 1", tejorva_run(answer) == 1);
    expect("at event 1", tejorva_event(answer) == 1);
    expect("a secrecy claim", tejorva_claim_kind(answer) == 2);
    expect("by a trace of 4 bytes", tejorva_trace_length(answer) == sizeof trace);
    expect("which stands at the buffer's front", memcmp(buffer, trace, sizeof trace) == 0);
    expect("and the rest of the buffer is kept", kept_from(sizeof trace));
}

/* What both searches answer alike. */
static void alike(search_function *search) {
    broken(search, 128);
    broken(search, 129);
    broken(search, BUFFER);

    judged("P2 is held with a list of 3", search, p2, sizeof p2, 100, TEJORVA_HELD, 3);
    judged("a budget of the list's length holds", search, p2, sizeof p2, 3, TEJORVA_HELD, 3);
    judged("P3: P2 with budget 2 is stopped", search, p2, sizeof p2, 2, TEJORVA_STOPPED, 2);
    judged("budget 0 is stopped", search, p1, sizeof p1, 0, TEJORVA_STOPPED, 0);
    judged("P12 is held with a list of 2", search, p12, sizeof p12, 100, TEJORVA_HELD, 2);

    expect("no file: 1 at 0", is_refused(search(NULL, 0, NULL, 0), 1, 0));
    refused("another version: 1 at 0", search, 0, 2, 128, 1, 0);
    refused("a block past the end: 3 at the file's length", search, 45, 1, 128, 3, sizeof p1);
    refused("an unknown kind: 4 at the row", search, 7, 99, 128, 4, 7);
    refused("a repeated row: 5 at the row", search, 11, 0, 128, 5, 10);
    refused("an unknown event: 6 at the record", search, 29, 9, 128, 6, 24);
    refused("a name that is not known: 7 at the event", search, 25, 1, 128, 7, 29);
    refused("a run of an absent role: 8 at the run", search, 41, 2, 128, 8, 41);
    refused("127 bytes of buffer: 10 at 127", search, 4, 100, 127, 10, 127);
    refused("no buffer: 10 at 0", search, 4, 100, 0, 10, 0);
    refused("Open's refusals come before 10", search, 7, 99, 0, 4, 7);
}

int main(void) {
    alike(tejorva_search);
    alike(tejorva_search_short);

    judged("P4 is held with a list of 19", tejorva_search, p4, sizeof p4, 100, TEJORVA_HELD, 19);
    judged("and with a short list of 5", tejorva_search_short, p4, sizeof p4, 100, TEJORVA_HELD, 5);
    judged("for which budget 4 is too small", tejorva_search_short, p4, sizeof p4, 4, TEJORVA_STOPPED, 4);
    return outcome();
}
