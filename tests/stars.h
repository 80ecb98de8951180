/* A small run for the tests in C: five East stars, terms IH, ID and CH, all free, with buffers for its fit; sigma by stars. */

#ifndef TESTS_STARS_H
#define TESTS_STARS_H

#include <math.h>
#include <stdio.h>
#include <string.h>

#include "pointing.h"

enum { M = 3, N = 5, SCRATCH = POINTING_SCRATCH(M, N) };

static const uint8_t names[16 * M + 1] = "IH\0\0\0\0\0\0\0\0\0\0\0\0\0\0ID\0\0\0\0\0\0\0\0\0\0\0\0\0\0CH\0\0\0\0\0\0\0\0\0\0\0\0\0";
static uint8_t fixed[M], pier[N];
static double start[M], dh[N], dd[N], sheets[37 * N];
static double out[M], change[M], sigma[M], diagnostics[3 * N], scratch[SCRATCH];
static pointing_fit_options options = {50, 1e-6, 1e-3, 10, 10, false, 1.345};
static int failures;

static void expect(bool held, const char *what) {
    if (held) return;
    failures++;
    printf("not so: %s\n", what);
}

static uint64_t bits(double x) {
    uint64_t b;
    memcpy(&b, &x, sizeof b);
    return b;
}

/* Fills the run: differences of some arcseconds, times a factor. */
static void fill(double times) {
    for (int i = 0; i < N; i++) {
        const double h = -0.9 + 0.4 * i, dec = 0.1 + 0.2 * i;
        for (int k = 0; k < 9; k++) {
            sheets[37 * i + 2 * k] = sin((k + 1) * h), sheets[37 * i + 2 * k + 1] = cos((k + 1) * h);
            sheets[37 * i + 18 + 2 * k] = sin((k + 1) * dec), sheets[37 * i + 19 + 2 * k] = cos((k + 1) * dec);
        }
        sheets[37 * i + 36] = tan(dec);
        dh[i] = times * (10 + 3 * i % 4), dd[i] = times * (7 - 5 * i % 3), pier[i] = POINTING_EAST;
    }
    for (int j = 0; j < M; j++) start[j] = 0, fixed[j] = 0;
}

static pointing_fit_answer single(void) {
    return pointing_fit_model(names, 16 * M, fixed, M, start, M, dh, N, dd, N, pier, N, sheets, 37 * N, 0.5, 0.8, 1e-12, POINTING_BY_STARS, out, M,
                              change, M, sigma, M, diagnostics, 3 * N, scratch, SCRATCH);
}

static pointing_fit_answer iterated(void) {
    return pointing_fit_model_iterated(names, 16 * M, fixed, M, start, M, dh, N, dd, N, pier, N, sheets, 37 * N, 0.5, 0.8, 1e-12, POINTING_BY_STARS,
                                       options, out, M, change, M, sigma, M, diagnostics, 3 * N, scratch, SCRATCH);
}

#endif
