/* Encoding a word of 255 octets: ours, by the static library, against libfec's CCSDS encoder, on equal inputs in one run.
   Memory is warm: each routine goes over the same 256 words several times before it is timed. */
#include <fec.h>
#include <stdint.h>
#include <stdio.h>
#include <string.h>
#include <time.h>

size_t rs16_encode_word(uint8_t *row, size_t row_length, size_t depth, size_t word);

enum { WORDS = 256, TURNS = 200 };
static uint8_t ours[WORDS][255], theirs[WORDS][255];

static double now(void) {
    struct timespec t;
    clock_gettime(CLOCK_MONOTONIC, &t);
    return 1e9 * (double)t.tv_sec + (double)t.tv_nsec;
}

static double run_ours(int turns) {
    double start = now();
    for (int t = 0; t < turns; t++)
        for (int w = 0; w < WORDS; w++) rs16_encode_word(ours[w], 255, 1, 0);
    return (now() - start) / (double)turns / WORDS;
}

static double run_theirs(int turns) {
    double start = now();
    for (int t = 0; t < turns; t++)
        for (int w = 0; w < WORDS; w++) encode_rs_ccsds(theirs[w], theirs[w] + 223, 0);
    return (now() - start) / (double)turns / WORDS;
}

int main(void) {
    uint32_t x = 0x1ACFFC1D;
    for (int w = 0; w < WORDS; w++)
        for (int j = 0; j < 223; j++) {
            x ^= x << 13, x ^= x >> 17, x ^= x << 5;
            ours[w][j] = theirs[w][j] = (uint8_t)(x >> 24);
        }
    run_ours(5), run_theirs(5);
    if (memcmp(ours, theirs, sizeof ours)) {
        puts("the words differ");
        return 1;
    }
    double best_ours = 1e9, best_theirs = 1e9;
    for (int round = 0; round < 7; round++) {
        double a = run_ours(TURNS), b = run_theirs(TURNS);
        if (a < best_ours) best_ours = a;
        if (b < best_theirs) best_theirs = b;
    }
    printf("encode: ours %.0f ns a word, libfec %.0f ns, ratio %.1f\n", best_ours, best_theirs, best_theirs / best_ours);
    return 0;
}
