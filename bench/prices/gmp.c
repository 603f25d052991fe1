/* The prices of bench_all by GMP's rationals, on the same network, potentials and marks. */
#include <gmp.h>
#include <stdio.h>
#include <stdlib.h>
#include <time.h>

enum { NODES = 1000, ARCS = 100000 };

enum mark { LOWER, UPPER, BASIC };

static struct {
    unsigned from, to;
    mpq_t gain, lower, upper, cost;
    enum mark mark;
} arcs[ARCS];

static mpq_t potentials[NODES];

/* The quotient of these numbers. */
static void set(mpq_t made, long num, unsigned long den) {
    mpq_init(made);
    mpq_set_si(made, num, den);
    mpq_canonicalize(made);
}

static void make(void) {
    for (unsigned i = 0; i < ARCS; i++) {
        arcs[i].from = i % NODES;
        arcs[i].to = (arcs[i].from + 1 + i / NODES) % NODES;
        set(arcs[i].gain, 90 + i % 20, 100);
        set(arcs[i].lower, 0, 1);
        set(arcs[i].upper, 10, 1);
        set(arcs[i].cost, (long)(i % 50) - 10, 1);
        arcs[i].mark = i % 10 == 9 ? BASIC : i % 3 == 0 ? UPPER : LOWER;
    }
    for (unsigned v = 0; v < NODES; v++) set(potentials[v], (long)(v * 37 % 1000) - 500, 1 + v % 8);
}

/* How many of the arcs may enter. */
static unsigned long candidates(mpq_t product, mpq_t difference) {
    unsigned long found = 0;
    for (unsigned i = 0; i < ARCS; i++) {
        if (arcs[i].mark == BASIC || mpq_cmp(arcs[i].lower, arcs[i].upper) >= 0) continue;
        mpq_mul(product, arcs[i].gain, potentials[arcs[i].to]);
        mpq_sub(difference, arcs[i].cost, potentials[arcs[i].from]);
        mpq_add(product, difference, product);
        int sign = mpq_sgn(product);
        found += arcs[i].mark == LOWER ? sign < 0 : sign > 0;
    }
    return found;
}

static double now(void) {
    struct timespec t;
    clock_gettime(CLOCK_MONOTONIC, &t);
    return t.tv_sec * 1e9 + t.tv_nsec;
}

int main(int argc, char **argv) {
    unsigned long count = argc > 1 ? strtoul(argv[1], 0, 10) : 2000000;
    unsigned long rounds = count / ARCS ? count / ARCS : 1, sum = 0;
    mpq_t product, difference;
    make();
    mpq_init(product);
    mpq_init(difference);
    double start = now();
    for (unsigned long i = 0; i < rounds; i++) sum += candidates(product, difference);
    double each = (now() - start) / (double)(rounds * ARCS);
    printf("%d %.0f %lu\n", ARCS, each, sum);
    return 0;
}
