/* Judges the scenario file that its argument names, before firmware is built: exits with 0 on HELD and with 1 on anything else. */
#include <stdio.h>
#include <stdlib.h>

#include "tejorva.h"

int main(int argc, char **argv) {
    uint8_t file[4097]; /* one byte more than a scenario file may have: a longer one is refused and not cut */
    uint8_t trace[128];
    FILE *in = argc == 2 ? fopen(argv[1], "rb") : NULL;
    size_t length = in ? fread(file, 1, sizeof file, in) : 0;
    uint64_t answer;
    unsigned i;

    if (!in || ferror(in)) {
        fputs("no firmware: the scenario file cannot be read\n", stderr);
        return EXIT_FAILURE;
    }
    fclose(in);

    answer = tejorva_search(file, length, trace, sizeof trace);
    switch (tejorva_word(answer)) {
    case TEJORVA_HELD:
        printf("held: none of %u traces breaks a claim\n", (unsigned)tejorva_number(answer));
        return EXIT_SUCCESS;
    case TEJORVA_BROKEN:
        fprintf(stderr, "no firmware: event %u of run %u is broken by the trace", tejorva_event(answer), tejorva_run(answer));
        for (i = 0; i < tejorva_trace_length(answer); i++)
            fprintf(stderr, " %02x", trace[i]);
        fputs("\n", stderr);
        return EXIT_FAILURE;
    case TEJORVA_STOPPED:
        fprintf(stderr, "no firmware: the budget of %u traces ended first\n", (unsigned)tejorva_number(answer));
        return EXIT_FAILURE;
    default:
        fprintf(stderr, "no firmware: refusal %u at byte %llu of the scenario file\n", (unsigned)tejorva_number(answer),
                (unsigned long long)tejorva_place(answer));
        return EXIT_FAILURE;
    }
}
