// The loops of the kernels in C, as bench/kernels/run compares them with the program: loops KERNEL CELLS TURNS
//
// Makes the cells, runs the kernel so many times, and prints the time in nanoseconds and the sum of the destination.
// Sums, differences and products wrap, so they are taken without a sign.
#define _POSIX_C_SOURCE 199309L
#include <inttypes.h>
#include <stdio.h>
#include <stdlib.h>
#include <string.h>
#include <time.h>

typedef int64_t cell;
typedef uint64_t bits;

#define KERNEL __attribute__((noinline)) static void

KERNEL fill(cell *restrict d, size_t n, cell value) {
    for (size_t i = 0; i < n; i++)
        d[i] = value;
}

KERNEL ramp(cell *restrict d, size_t n, cell value, cell step) {
    for (size_t i = 0; i < n; i++)
        d[i] = (cell)((bits)value + i * (bits)step);
}

KERNEL copy(cell *restrict d, const cell *restrict a, size_t n) {
    for (size_t i = 0; i < n; i++)
        d[i] = a[i];
}

KERNEL add(cell *restrict d, const cell *restrict a, const cell *restrict b, size_t n) {
    for (size_t i = 0; i < n; i++)
        d[i] = (cell)((bits)a[i] + (bits)b[i]);
}

KERNEL sub(cell *restrict d, const cell *restrict a, const cell *restrict b, size_t n) {
    for (size_t i = 0; i < n; i++)
        d[i] = (cell)((bits)a[i] - (bits)b[i]);
}

KERNEL scale(cell *restrict d, const cell *restrict a, size_t n, cell value) {
    for (size_t i = 0; i < n; i++)
        d[i] = (cell)((bits)a[i] * (bits)value);
}

KERNEL shift(cell *restrict d, const cell *restrict a, size_t n, int value) {
    for (size_t i = 0; i < n; i++)
        d[i] = a[i] >> value;
}

KERNEL jacobi2(cell *restrict d, const cell *restrict a, size_t n) {
    for (size_t i = 0; i < n; i++)
        d[i] = (cell)((bits)a[i] + 2 * (bits)a[i + 1] + (bits)a[i + 2]) >> 2;
}

KERNEL sum(cell *restrict d, const cell *restrict a, size_t n) {
    bits total = 0;
    for (size_t i = 0; i < n; i++)
        total += (bits)a[i];
    d[0] = (cell)total;
}

KERNEL least(cell *restrict d, const cell *restrict a, size_t n) {
    cell so_far = a[0];
    for (size_t i = 1; i < n; i++)
        so_far = a[i] < so_far ? a[i] : so_far;
    d[0] = so_far;
}

KERNEL greatest(cell *restrict d, const cell *restrict a, size_t n) {
    cell so_far = a[0];
    for (size_t i = 1; i < n; i++)
        so_far = a[i] > so_far ? a[i] : so_far;
    d[0] = so_far;
}

// d and a are the same cells
KERNEL add_in_place(cell *d, const cell *b, size_t n) {
    for (size_t i = 0; i < n; i++)
        d[i] = (cell)((bits)d[i] + (bits)b[i]);
}

KERNEL sub_in_place(cell *d, const cell *a, size_t n) {
    for (size_t i = 0; i < n; i++)
        d[i] = (cell)((bits)a[i] - (bits)d[i]);
}

KERNEL scale_in_place(cell *d, size_t n, cell value) {
    for (size_t i = 0; i < n; i++)
        d[i] = (cell)((bits)d[i] * (bits)value);
}

KERNEL shift_in_place(cell *d, size_t n, int value) {
    for (size_t i = 0; i < n; i++)
        d[i] = d[i] >> value;
}

// each cell becomes the one before it
KERNEL copy_along(cell *d, size_t n) {
    memmove(d + 1, d, (n - 1) * sizeof(cell));
}

// each cell becomes the one behind it
KERNEL copy_back(cell *d, size_t n) {
    memmove(d, d + 1, (n - 1) * sizeof(cell));
}

static int turn(const char *kernel, cell *d, const cell *a, const cell *b, size_t n) {
    if (!strcmp(kernel, "fill")) fill(d, n, 7);
    else if (!strcmp(kernel, "ramp")) ramp(d, n, 3, 7);
    else if (!strcmp(kernel, "copy")) copy(d, a, n);
    else if (!strcmp(kernel, "add")) add(d, a, b, n);
    else if (!strcmp(kernel, "sub")) sub(d, a, b, n);
    else if (!strcmp(kernel, "scale")) scale(d, a, n, 11);
    else if (!strcmp(kernel, "shift")) shift(d, a, n, 5);
    else if (!strcmp(kernel, "jacobi2")) jacobi2(d, a, n);
    else if (!strcmp(kernel, "sum")) sum(d, a, n);
    else if (!strcmp(kernel, "least")) least(d, a, n);
    else if (!strcmp(kernel, "greatest")) greatest(d, a, n);
    else if (!strcmp(kernel, "add_in_place")) add_in_place(d, b, n);
    else if (!strcmp(kernel, "sub_in_place")) sub_in_place(d, a, n);
    else if (!strcmp(kernel, "scale_in_place")) scale_in_place(d, n, 11);
    else if (!strcmp(kernel, "shift_in_place")) shift_in_place(d, n, 1);
    else if (!strcmp(kernel, "copy_along")) copy_along(d, n);
    else if (!strcmp(kernel, "copy_back")) copy_back(d, n);
    else return 0;
    // no turn may be left out because the next one writes the same cells
    __asm__ volatile("" ::: "memory");
    return 1;
}

static int64_t now(void) {
    struct timespec t;
    clock_gettime(CLOCK_MONOTONIC, &t);
    return (int64_t)t.tv_sec * 1000000000 + t.tv_nsec;
}

int main(int count, char **words) {
    if (count != 4) return 2;
    size_t n = strtoull(words[2], NULL, 10);
    long turns = strtol(words[3], NULL, 10);
    cell *d = calloc(n, sizeof(cell)), *a = malloc((n + 2) * sizeof(cell)), *b = malloc(n * sizeof(cell));
    if (!d || !a || !b) return 3;
    ramp(d, n, 1, 1);
    ramp(a, n + 2, -1000, 3);
    ramp(b, n, 5, -2);
    int64_t began = now();
    for (long k = 0; k < turns; k++)
        if (!turn(words[1], d, a, b, n)) return 2;
    int64_t took = now() - began;
    cell total;
    sum(&total, d, n);
    printf("%" PRId64 " %" PRId64 "\n", took, total);
    return 0;
}
