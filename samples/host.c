/*
 * A host in C: hands a trial file to the engine and prints each offer's verdict.
 *
 *   host FILE      or      host < FILE
 *
 * Exit status: 0 where the trial was run, 1 where the file is refused, 2 where it can't be read.
 */
#include <stdio.h>

#include "becardlarder.h"

/* Why a file is turned away, by refusal number. */
static const char *reason(uint32_t refusal)
{
    switch (refusal) {
    case 1: return "the file is empty, too long, or not made of whole words";
    case 2: return "a word is missing or of another kind than its place needs";
    case 3: return "the level is not a fraction between 0 and 1, or its b is above 16383";
    case 4: return "a count or k is outside its range";
    case 5: return "an offer's number does not fit its printed digits";
    case 6: return "two offers have the same number";
    case 7: return "a difference, or a shop's figure, is outside its range";
    case 8: return "the end word's count is wrong, or words stand after it";
    case 12: return "the buffer has no byte for each offer";
    case 15: return "not 2 to 10 shops, or not 1 to all but one of them treated";
    default: return "unknown refusal";
    }
}

/* Word i of a file: 32 bits, little-endian. */
static uint32_t word(const uint8_t *file, size_t i)
{
    const uint8_t *b = file + 4 * i;
    return b[0] | (uint32_t)b[1] << 8 | (uint32_t)b[2] << 16 | (uint32_t)b[3] << 24;
}

/* The offers of an accepted file, by its word 1, which is of kind 5 where the trial is one of shops without partners. */
static unsigned offers_of(const uint8_t *file)
{
    uint32_t shape = word(file, 1);
    return shape >> (shape >> 28 == 5 ? 16 : 8) & 0xFF;
}

/* The verdict of each offer. An accepted file has the offers from word 2 on. */
static void print_verdicts(const uint8_t *file, const uint8_t *verdicts)
{
    unsigned offers = offers_of(file);
    for (unsigned i = 0; i < offers; i++) {
        uint32_t offer = word(file, 2 + i);
        int digits = offer >> 24 & 0xF;
        unsigned code = offer & 0xFFFFFF;
        if (verdicts[i] == BECARDLARDER_ASIDE)
            printf("%0*u set aside\n", digits, code);
        else if (verdicts[i] != 0)
            printf("%0*u rejected in step %u\n", digits, code, verdicts[i]);
        else
            printf("%0*u kept\n", digits, code);
    }
}

int main(int argc, char **argv)
{
    /* One byte more than the longest file, so that a longer one is refused and not cut. */
    uint8_t file[BECARDLARDER_LONGEST_FILE + 1];
    uint8_t verdicts[BECARDLARDER_MOST_OFFERS];

    FILE *in = argc > 1 ? fopen(argv[1], "rb") : stdin;
    if (in == NULL) {
        perror(argv[1]);
        return 2;
    }
    size_t length = fread(file, 1, sizeof file, in);
    if (ferror(in)) {
        perror("read");
        return 2;
    }

    uint32_t answer = becardlarder_trial_verdicts(file, length, verdicts, sizeof verdicts);
    if (answer > BECARDLARDER_REFUSED) {
        uint32_t refusal = answer - BECARDLARDER_REFUSED;
        fprintf(stderr, "refused %u: %s\n", refusal, reason(refusal));
        return 1;
    }
    print_verdicts(file, verdicts);
    printf("rejected: %u\n", answer);
    return 0;
}
