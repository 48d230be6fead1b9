// The blocked heat solver in C, as bench/heat/run compares it with the program: solver RANKS BLOCKS CELLS STEPS SEED
//
// One thread works on the rows of all ranks. A block is copied in, worked on and copied back, as a task does with its accesses.
// Prints the time of all steps in nanoseconds, and for each rank the line that the program's report has. Sums wrap, so they are
// taken without a sign; a shift of a negative number keeps the sign with gcc.
#define _POSIX_C_SOURCE 199309L
#include <inttypes.h>
#include <stdio.h>
#include <stdlib.h>
#include <string.h>
#include <time.h>

typedef int64_t cell;
typedef uint64_t bits;

struct sizes {
    size_t ranks, blocks, cells, steps;
    cell seed;
};

// The cells of a rank: those of its blocks, and one more at each end.
static size_t row_len(const struct sizes *s) {
    return s->blocks * s->cells + 2;
}

static cell *zeros(size_t count) {
    cell *made = calloc(count, sizeof(cell));
    if (!made) {
        fprintf(stderr, "no memory\n");
        exit(1);
    }
    return made;
}

// Each block begins as a ramp by 4.
static void begin(const struct sizes *s, cell *u) {
    for (size_t rank = 0; rank < s->ranks; rank++)
        for (size_t b = 0; b < s->blocks; b++)
            for (size_t i = 0; i < s->cells; i++)
                u[rank * row_len(s) + 1 + b * s->cells + i] = s->seed + 1000 * (cell)rank + 100 * (cell)b + 4 * (cell)i;
}

// Neighbouring ranks hand each other their outer cells.
static void exchange(const struct sizes *s, cell *u) {
    size_t len = row_len(s);
    for (size_t rank = 0; rank + 1 < s->ranks; rank++) {
        cell *left = u + rank * len, *right = left + len;
        left[len - 1] = right[1];
        right[0] = left[len - 2];
    }
}

__attribute__((noinline)) static void jacobi2(cell *restrict d, const cell *restrict a, size_t n) {
    for (size_t i = 0; i < n; i++)
        d[i] = (cell)((bits)a[i] + 2 * (bits)a[i + 1] + (bits)a[i + 2]) >> 2;
}

__attribute__((noinline)) static void copy(cell *restrict d, const cell *restrict a, size_t n) {
    for (size_t i = 0; i < n; i++)
        d[i] = a[i];
}

// A step of one rank: each block from u to v, and then each block back.
static void step(const struct sizes *s, cell *u, cell *v, cell *in, cell *out) {
    size_t n = s->cells;
    for (size_t b = 0; b < s->blocks; b++) {
        memcpy(in, u + b * n, (n + 2) * sizeof(cell));
        jacobi2(out, in, n);
        memcpy(v + 1 + b * n, out, n * sizeof(cell));
    }
    for (size_t b = 0; b < s->blocks; b++) {
        memcpy(in, v + 1 + b * n, n * sizeof(cell));
        copy(out, in, n);
        memcpy(u + 1 + b * n, out, n * sizeof(cell));
    }
}

static void show(size_t rank, const cell *u, size_t n) {
    bits sum = 0;
    cell least = u[0], greatest = u[0];
    for (size_t i = 0; i < n; i++) {
        sum += (bits)u[i];
        least = u[i] < least ? u[i] : least;
        greatest = u[i] > greatest ? u[i] : greatest;
    }
    printf("%zu s %" PRId64 " %" PRId64 " %" PRId64 "\n", rank, (cell)sum, least, greatest);
}

static uint64_t now(void) {
    struct timespec t;
    clock_gettime(CLOCK_MONOTONIC, &t);
    return (uint64_t)t.tv_sec * 1000000000u + (uint64_t)t.tv_nsec;
}

int main(int argc, char **argv) {
    if (argc != 6)
        return 2;
    struct sizes s = {strtoull(argv[1], 0, 10), strtoull(argv[2], 0, 10), strtoull(argv[3], 0, 10),
                      strtoull(argv[4], 0, 10), strtoll(argv[5], 0, 10)};
    size_t len = row_len(&s);
    cell *u = zeros(s.ranks * len), *v = zeros(s.ranks * len), *in = zeros(s.cells + 2), *out = zeros(s.cells);
    begin(&s, u);
    uint64_t began = now();
    for (size_t t = 0; t < s.steps; t++) {
        exchange(&s, u);
        for (size_t rank = 0; rank < s.ranks; rank++)
            step(&s, u + rank * len, v + rank * len, in, out);
    }
    printf("%" PRIu64 "\n", now() - began);
    for (size_t rank = 0; rank < s.ranks; rank++)
        show(rank, u + rank * len + 1, len - 2);
    return 0;
}
