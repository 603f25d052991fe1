/* The operations of bench_all fractions by GMP's rationals, on operands of the same sizes from the same generator. */
#include <gmp.h>
#include <stdint.h>
#include <stdio.h>
#include <stdlib.h>
#include <time.h>

enum { OPERANDS = 64 };

static uint64_t state = 88172645463325252u;

static uint64_t next(void) {
    state ^= state << 13;
    state ^= state >> 7;
    state ^= state << 17;
    return state;
}

/* A number of at most `bits` bits, and above 0. */
static void draw(mpz_t part, unsigned bits) {
    mpz_set_ui(part, next());
    mpz_mul_2exp(part, part, 64);
    mpz_add_ui(part, part, next());
    mpz_fdiv_q_2exp(part, part, 1 + 127 - bits);
    if (mpz_sgn(part) == 0) mpz_set_ui(part, 1);
}

static void draw_all(mpq_t *made, unsigned bits) {
    for (int i = 0; i < OPERANDS; i++) {
        mpq_init(made[i]);
        draw(mpq_numref(made[i]), bits);
        draw(mpq_denref(made[i]), bits);
        mpq_canonicalize(made[i]);
    }
}

static double now(void) {
    struct timespec t;
    clock_gettime(CLOCK_MONOTONIC, &t);
    return t.tv_sec * 1e9 + t.tv_nsec;
}

int main(int argc, char **argv) {
    unsigned long count = argc > 1 ? strtoul(argv[1], 0, 10) : 1000000;
    const unsigned sizes[] = {8, 32, 60, 120};
    const char *names[] = {"plus", "times", "compare"};
    for (int s = 0; s < 4; s++) {
        mpq_t left[OPERANDS], right[OPERANDS], result;
        draw_all(left, sizes[s]);
        draw_all(right, sizes[s]);
        mpq_init(result);
        for (int op = 0; op < 3; op++) {
            long sum = 0;
            double start = now();
            for (unsigned long i = 0; i < count; i++) {
                mpq_t *a = &left[i % OPERANDS], *b = &right[i % OPERANDS];
                if (op == 0) mpq_add(result, *a, *b);
                else if (op == 1) mpq_mul(result, *a, *b);
                else sum += mpq_cmp(*a, *b) > 0;
            }
            double each = (now() - start) / count;
            if (op < 2) sum = mpz_get_ui(mpq_numref(result)) & 0xff;
            printf("%s %u %.0f %ld\n", names[op], sizes[s], each, sum);
        }
        mpq_clear(result);
        for (int i = 0; i < OPERANDS; i++) { mpq_clear(left[i]); mpq_clear(right[i]); }
    }
    return 0;
}
