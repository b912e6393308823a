// Times operations on natural numbers of GMP: OPERATION WORDS TIMES, as bench/naturals/main.txt does those of lpd.
#include <gmp.h>
#include <stdlib.h>

static void number(mpz_t out, unsigned long seed, long len) {
    mp_limb_t *words = malloc(len * sizeof *words);
    unsigned long state = seed;
    for (long i = 0; i < len; i++) {
        state = state * 6364136223846793005UL + 1442695040888963407UL;
        words[i] = state ^ (state >> 29);
    }
    mpz_import(out, len, -1, sizeof *words, 0, 0, words);
    free(words);
}

int main(int count, char **words) {
    if (count != 4) return 2;
    int what = atoi(words[1]);
    long len = atol(words[2]), times = atol(words[3]);
    mpz_t x, y, twice, p, q;
    mpz_inits(x, y, twice, p, q, NULL);
    number(x, 12345, len);
    number(y, 987654321, len);
    number(twice, 5555, 2 * len);
    char *text = mpz_get_str(NULL, 10, x), *room = malloc(20 * len + 10);
    for (long i = 0; i < times; i++) {
        if (what == 1) mpz_mul(p, x, y);
        if (what == 2) mpz_tdiv_qr(p, q, twice, x);
        if (what == 3) {
            mpz_gcd(p, x, y);
            mpz_divexact(q, x, p);
            mpz_divexact(q, y, p);
        }
        if (what == 4) mpz_get_str(room, 10, x);
        if (what == 5) mpz_set_str(p, text, 10);
    }
    return 0;
}
