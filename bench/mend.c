/* Mending a word of 255 octets with 0, 8 and 16 altered octets: ours, a plain table decoder in Rust (bench/plain.rs) and libfec, on equal
   inputs in one run. Memory is warm; each routine gets the same damaged words, copied afresh before each turn, and the copy is timed for all. */
#include <fec.h>
#include <stdint.h>
#include <stdio.h>
#include <stdlib.h>
#include <string.h>
#include <time.h>

size_t rs16_encode_word(uint8_t *row, size_t row_length, size_t depth, size_t word);
size_t rs16_mend_word(uint8_t *row, size_t row_length, size_t depth, size_t word);
size_t plain_mend_word(uint8_t *row, size_t row_length, size_t depth, size_t word);

enum { WORDS = 256 };
static uint8_t clean[WORDS][255], damaged[WORDS][255], work[WORDS][255];
static uint32_t x = 0x1ACFFC1D;
static uint32_t draw(void) { return x ^= x << 13, x ^= x >> 17, x ^= x << 5; }

static double now(void) {
    struct timespec t;
    clock_gettime(CLOCK_MONOTONIC, &t);
    return 1e9 * (double)t.tv_sec + (double)t.tv_nsec;
}

static double run(int which, int turns) {
    double start = now();
    for (int t = 0; t < turns; t++) {
        memcpy(work, damaged, sizeof work);
        for (int w = 0; w < WORDS; w++) switch (which) {
            case 0: rs16_mend_word(work[w], 255, 1, 0); break;
            case 1: plain_mend_word(work[w], 255, 1, 0); break;
            default: decode_rs_ccsds(work[w], NULL, 0, 0);
            }
    }
    double spent = (now() - start) / turns / WORDS;
    if (memcmp(work, clean, sizeof work)) {
        printf("decoder %d did not give the words back\n", which);
        exit(1);
    }
    return spent;
}

int main(void) {
    static const int many[] = {0, 8, 16};
    for (int w = 0; w < WORDS; w++) {
        for (int j = 0; j < 223; j++) clean[w][j] = (uint8_t)(draw() >> 24);
        rs16_encode_word(clean[w], 255, 1, 0);
    }
    for (int m = 0; m < 3; m++) {
        memcpy(damaged, clean, sizeof clean);
        for (int w = 0; w < WORDS; w++)
            for (int left = many[m]; left;) {
                uint32_t j = draw() % 255;
                if (damaged[w][j] == clean[w][j]) damaged[w][j] ^= (uint8_t)(1 + draw() % 255), left--;
            }
        double best[3] = {1e9, 1e9, 1e9};
        for (int which = 0; which < 3; which++) run(which, 2);
        for (int round = 0; round < 7; round++)
            for (int which = 0; which < 3; which++) {
                double spent = run(which, 20);
                if (spent < best[which]) best[which] = spent;
            }
        printf("%2d altered: ours %.0f ns a word, plain Rust %.0f ns (ratio %.1f), libfec %.0f ns (ratio %.1f)\n", many[m], best[0], best[1], best[1] / best[0], best[2], best[2] / best[0]);
    }
    return 0;
}
