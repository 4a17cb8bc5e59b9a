/* The code rs16 once more, by the rules of docs/FORMAT.md: the syndromes by evaluating the word's polynomial, digit by digit
   arithmetic and no tables but the dual basis; the check octets by libfec's CCSDS encoder. It prints the digests that the program
   `vectors` prints, over rows made by the same generator. */
#include <fec.h>
#include <stdint.h>
#include <stdio.h>
#include <string.h>

static const uint8_t basis[8] = {0x8D, 0xEF, 0xEC, 0x86, 0xFA, 0x99, 0xAF, 0x7B};
static uint8_t element_of[256];

static void dual_basis(void) {
    for (int a = 0; a < 256; a++) {
        uint8_t octet = 0;
        for (int digit = 0; digit < 8; digit++)
            if (a >> (7 - digit) & 1) octet ^= basis[digit];
        element_of[octet] = (uint8_t)a;
    }
}

static uint8_t times(uint8_t a, uint8_t b) {
    unsigned sum = 0, x = b;
    for (; a; a >>= 1, x <<= 1)
        if (a & 1) sum ^= x;
    for (int digit = 14; digit >= 8; digit--)
        if (sum >> digit & 1) sum ^= 0x187u << (digit - 8);
    return (uint8_t)sum;
}

static uint8_t power(uint8_t x, unsigned n) {
    uint8_t result = 1;
    while (n--) result = times(result, x);
    return result;
}

static uint64_t digest(uint64_t sum, const uint8_t *octets, size_t n) {
    for (size_t i = 0; i < n; i++) sum = (sum ^ octets[i]) * 0x100000001B3ull;
    return sum;
}

static uint32_t next(uint32_t x) {
    x ^= x << 13;
    x ^= x >> 17;
    x ^= x << 5;
    return x;
}

int main(void) {
    static const int depths[] = {1, 2, 3, 4, 5, 8};
    uint8_t roots[32];
    dual_basis();
    for (int i = 0; i < 32; i++) roots[i] = power(2, 11u * (112u + (unsigned)i) % 255u);
    for (size_t d = 0; d < sizeof depths / sizeof *depths; d++) {
        int depth = depths[d];
        uint32_t number = 0x1ACFFC1D;
        uint64_t syndromes = 0xCBF29CE484222325ull, encoded = syndromes;
        for (int r = 0; r < 1000; r++) {
            uint8_t row[2040];
            for (int i = 0; i < 255 * depth; i++) {
                number = next(number);
                row[i] = (uint8_t)(number >> 24);
            }
            for (int word = 0; word < depth; word++) {
                uint8_t values[33] = {0};
                for (int i = 0; i < 32; i++)
                    for (int j = 0; j < 255; j++) values[i + 1] = times(values[i + 1], roots[i]) ^ element_of[row[j * depth + word]];
                syndromes = digest(syndromes, values, 33);
            }
            for (int word = 0; word < depth; word++) {
                uint8_t information[223], checks[32];
                for (int j = 0; j < 223; j++) information[j] = row[j * depth + word];
                encode_rs_ccsds(information, checks, 0);
                for (int j = 0; j < 32; j++) row[(223 + j) * depth + word] = checks[j];
            }
            encoded = digest(encoded, row, (size_t)(255 * depth));
        }
        printf("depth %d: syndromes %016llx, encoded %016llx, refused 0\n", depth, (unsigned long long)syndromes, (unsigned long long)encoded);
    }
    return 0;
}
