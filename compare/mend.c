/* A bounded-distance decoder for rs16, by the rules of docs/FORMAT.md (Berlekamp-Massey, search for roots, Forney, and a check), and
   the comparison of our mend with it: answer, octets and refusals, on words with 0 to 20 altered octets at every depth and on words
   chosen badly. Where no codeword is within 16 places no decoder may answer one, so both must refuse.

       mend [SEED [WORDS]] */
#include <stdint.h>
#include <stdio.h>
#include <stdlib.h>
#include <string.h>

size_t rs16_mend_word(uint8_t *row, size_t row_length, size_t depth, size_t word);
size_t rs16_encode_word(uint8_t *row, size_t row_length, size_t depth, size_t word);

/* what the exported call answers for refusal 9 */
enum { REFUSED = 109 };

static uint8_t element_of[256], octet_of[256], exps[510];
static int logs[256];

static void tables(void) {
    static const uint8_t basis[8] = {0x8D, 0xEF, 0xEC, 0x86, 0xFA, 0x99, 0xAF, 0x7B};
    for (int a = 0; a < 256; a++) {
        uint8_t octet = 0;
        for (int digit = 0; digit < 8; digit++)
            if (a >> (7 - digit) & 1) octet ^= basis[digit];
        element_of[octet] = (uint8_t)a;
        octet_of[a] = octet;
    }
    int x = 1;
    for (int i = 0; i < 255; i++) {
        exps[i] = exps[i + 255] = (uint8_t)x;
        logs[x] = i;
        x = x << 1 ^ (x & 128 ? 0x187 : 0);
    }
}

static uint8_t times(uint8_t a, uint8_t b) { return a && b ? exps[logs[a] + logs[b]] : 0; }
static uint8_t over(uint8_t a, uint8_t b) { return a ? exps[logs[a] + 255 - logs[b]] : 0; }
static uint8_t alpha(int n) { return exps[((n % 255) + 255) % 255]; }

static int syndromes(const uint8_t *word, uint8_t *s) {
    int any = 0;
    for (int i = 0; i < 32; i++) {
        s[i] = 0;
        for (int j = 0; j < 255; j++) s[i] = times(s[i], alpha(11 * (112 + i))) ^ element_of[word[j]];
        any |= s[i];
    }
    return any;
}

/* Mends a word of 255 octets; the octets altered, or REFUSED. */
static size_t decode(uint8_t *word) {
    uint8_t s[32], c[33] = {1}, b[33] = {1}, t[33], fixed[255];
    int length = 0, m = 1;
    uint8_t last = 1;
    if (!syndromes(word, s)) return 0;
    for (int n = 0; n < 32; n++) {
        uint8_t d = s[n];
        for (int i = 1; i <= length; i++) d ^= times(c[i], s[n - i]);
        if (!d) {
            m++;
            continue;
        }
        memcpy(t, c, 33);
        for (int i = 0; i + m < 33; i++) c[i + m] ^= times(over(d, last), b[i]);
        if (2 * length <= n) {
            length = n + 1 - length;
            memcpy(b, t, 33);
            last = d;
            m = 1;
        } else
            m++;
    }
    if (length > 16) return REFUSED;
    memcpy(fixed, word, 255);
    size_t altered = 0;
    for (int k = 0; k < 255; k++) {
        /* power k has locator X = α^(11 k); it is altered where Λ(1/X) is 0 */
        uint8_t inverse = alpha(-11 * k), value = 0, slope = 0, omega = 0;
        for (int i = 32; i >= 0; i--) value = times(value, inverse) ^ c[i];
        if (value) continue;
        for (int i = 1; i <= 32; i += 2) slope ^= times(c[i], alpha(-11 * k * (i - 1)));
        for (int n = 0; n < 32; n++) {
            uint8_t o = 0;
            for (int i = 0; i <= n; i++) o ^= times(c[i], s[n - i]);
            omega ^= times(n < length ? o : 0, alpha(-11 * k * n));
        }
        if (!slope) return REFUSED;
        /* S_n = Σ E X^n with E = e X^112; Ω(1/X) = E Π (1 + Y/X) and Λ'(1/X) = X Π (1 + Y/X), over the other locators Y */
        uint8_t e = times(times(over(omega, slope), alpha(11 * k)), alpha(-11 * 112 * k));
        if (!e) return REFUSED;
        fixed[254 - k] ^= octet_of[e];
        altered++;
    }
    if (altered > 16 || syndromes(fixed, s)) return REFUSED;
    memcpy(word, fixed, 255);
    return altered;
}

static uint64_t seed;
static uint32_t draw(uint32_t below) {
    seed = seed * 6364136223846793005ull + 1442695040888963407ull;
    return (uint32_t)((seed >> 33) % below);
}

static long refused, mended;

/* Compares both on word `w` of a row; 1 at a difference. */
static int differ(const uint8_t *row, int depth, int w, const char *kind) {
    static uint8_t ours[2040], theirs[2040];
    uint8_t word[255];
    size_t length = (size_t)(255 * depth);
    memcpy(ours, row, length);
    memcpy(theirs, row, length);
    for (int j = 0; j < 255; j++) word[j] = row[j * depth + w];
    size_t want = decode(word), got = rs16_mend_word(ours, length, (size_t)depth, (size_t)w);
    if (want != REFUSED)
        for (int j = 0; j < 255; j++) theirs[j * depth + w] = word[j];
    want == REFUSED ? refused++ : mended++;
    if (got != want || memcmp(ours, theirs, length)) {
        printf("%s, depth %d, word %d: ours %zu, theirs %zu%s\n", kind, depth, w, got, want, memcmp(ours, theirs, length) ? ", octets differ" : "");
        return 1;
    }
    return 0;
}

int main(int argc, char **argv) {
    static const int depths[] = {1, 2, 3, 4, 5, 8};
    static uint8_t row[2040];
    seed = argc > 1 ? strtoull(argv[1], NULL, 10) : 1;
    long words = argc > 2 ? atol(argv[2]) : 40000;
    tables();
    for (long n = 0; n < words; n++) {
        int depth = depths[draw(6)], w = (int)draw((uint32_t)depth), alter = (int)draw(21), kind = (int)draw(8);
        const char *name = "random";
        for (int i = 0; i < 255 * depth; i++) row[i] = (uint8_t)draw(256);
        if (kind == 0) memset(row, 0, sizeof row), name = "zero word";
        rs16_encode_word(row, (size_t)(255 * depth), (size_t)depth, (size_t)w);
        if (kind == 1) {
            name = "burst";
            for (int i = 0, at = (int)draw(255); i < alter; i++) row[(at + i) % 255 * depth + w] ^= (uint8_t)(1 + draw(255));
        } else if (kind == 2 && n % 4 == 0) {
            name = "all altered";
            for (int j = 0; j < 255; j++) row[j * depth + w] = (uint8_t)draw(256);
        } else if (kind == 3) {
            name = "one value at places a step apart";
            uint8_t value = (uint8_t)(1 + draw(255));
            int step = (int[]){1, 3, 5, 15, 17, 51, 85}[draw(7)];
            for (int i = 0, at = (int)draw(255); i < alter; i++) row[(at + i * step) % 255 * depth + w] ^= value;
        } else {
            for (int i = 0; i < alter; i++) row[(int)draw(255) * depth + w] ^= (uint8_t)(1 + draw(255));
        }
        if (differ(row, depth, w, name)) return 1;
    }
    /* a zero word with 16 octets altered is mended to zeros, with 17 never */
    for (int n = 0; n < 4000; n++) {
        int many = 16 + (n & 1), left = many;
        memset(row, 0, 255);
        while (left) {
            int j = (int)draw(255);
            if (!row[j]) row[j] = (uint8_t)(1 + draw(255)), left--;
        }
        size_t got = rs16_mend_word(row, 255, 1, 0);
        int zero = 1;
        for (int j = 0; j < 255; j++) zero &= !row[j];
        if (many == 16 ? got != 16 || !zero : zero) {
            printf("a zero word with %d octets altered: answer %zu\n", many, got);
            return 1;
        }
    }
    printf("mend: %ld words mended and %ld refused alike, 4,000 altered zero words\n", mended, refused);
    return 0;
}
