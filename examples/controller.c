/* A mount controller in C: fits the run of a PMF file (docs/PMF.md) and points at a field.
 *
 *     controller FILE.pmf [HOURS DEGREES east|west|unknown]
 *
 * It has no heap: the run, the answer and the scratch stand in arrays of the most that a file asks. Where the floating-point environment is not the
 * one that the library counts on, as in a program linked with -ffast-math, it refuses to fit. */

#include <math.h>
#include <stdio.h>
#include <stdlib.h>
#include <string.h>

#include "pointing.h"

enum { TERMS = 16, STARS = 100, SCRATCH = POINTING_SCRATCH(TERMS, STARS), HEADER = 75, OF_TERM = 25, OF_STAR = 313 };

static uint8_t file[HEADER + OF_TERM * TERMS + OF_STAR * STARS + 1];

/* the run */
static size_t m, n;
static uint8_t mode, names[POINTING_NAME * TERMS], fixed[TERMS], pier[STARS];
static double start[TERMS], dh[STARS], dd[STARS], sheets[POINTING_SHEET * STARS];
static double sin_lat, cos_lat, fit_tol;
static pointing_fit_options options;

/* the answer */
static double coefficients[TERMS], change[TERMS], sigma[TERMS], diagnostics[3 * STARS], scratch[SCRATCH];

static const char *const REFUSALS[] = {
    "accepted",
    "too many terms or stars",
    "a list has the wrong length",
    "a buffer is too short",
    "a number is not finite",
    "a pier code, a fixed flag or sigma_by is unknown",
    "max_iter is above 1,000",
    "a slot holds no name",
    "a term of an alt-azimuth mount",
    "an unknown name",
    "a harmonic that is not well formed",
    "no term",
    "no free term",
    "fewer stars than free terms",
};

static double take(const uint8_t **at) {
    double x;
    memcpy(&x, *at, sizeof x);
    *at += sizeof x;
    return x;
}

static size_t take_16(const uint8_t *at) { return at[0] | (size_t)at[1] << 8; }

/* Reads a PMF file; false where it is none. */
static bool read_run(const char *path) {
    FILE *in = fopen(path, "rb");
    if (in == NULL) return false;
    size_t length = fread(file, 1, sizeof file, in);
    fclose(in);
    if (length < HEADER || memcmp(file, "PMF\1\0", 5) != 0) return false;
    m = file[5], mode = file[6], n = take_16(file + 7);
    if (mode == 2 || mode > 3 || m > TERMS || n > STARS || length != HEADER + OF_TERM * m + OF_STAR * n) return false;
    const uint8_t *at = file + 9;
    sin_lat = take(&at), cos_lat = take(&at), fit_tol = take(&at);
    options.tol_rad = take(&at), options.initial_lambda = take(&at);
    options.lambda_up = take(&at), options.lambda_down = take(&at), options.huber_k = take(&at);
    options.max_iter = take_16(at), options.robust = mode == 3;
    memcpy(names, file + HEADER, 16 * m);
    memcpy(fixed, file + HEADER + 16 * m, m);
    memcpy(start, file + HEADER + 17 * m, 8 * m);
    for (size_t i = 0; i < n; i++) {
        at = file + HEADER + OF_TERM * m + OF_STAR * i;
        pier[i] = *at++;
        dh[i] = take(&at), dd[i] = take(&at);
        memcpy(sheets + POINTING_SHEET * i, at, 8 * POINTING_SHEET);
    }
    return true;
}

/* Sigma is by stars, as version 1 of the file means it. */
static pointing_fit_answer fit(void) {
    if (mode == 0)
        return pointing_fit_model(names, 16 * m, fixed, m, start, m, dh, n, dd, n, pier, n, sheets, 37 * n, sin_lat, cos_lat, fit_tol, POINTING_BY_STARS,
                                  coefficients, TERMS, change, TERMS, sigma, TERMS, diagnostics, 3 * STARS, scratch, SCRATCH);
    return pointing_fit_model_iterated(names, 16 * m, fixed, m, start, m, dh, n, dd, n, pier, n, sheets, 37 * n, sin_lat, cos_lat, fit_tol,
                                       POINTING_BY_STARS, options, coefficients, TERMS, change, TERMS, sigma, TERMS, diagnostics, 3 * STARS, scratch,
                                       SCRATCH);
}

static unsigned long long bits(double x) {
    uint64_t b;
    memcpy(&b, &x, sizeof b);
    return b;
}

static pointing_term term(size_t j) { return pointing_read_term(names + 16 * j, 16); }

/* The name in slot j as it is stored. */
static const char *stored(size_t j) {
    static char name[17];
    memcpy(name, term(j).name, 16);
    return name;
}

/* The listing's word for a term: `pier` where it turns with the pier side, `both` where both sides have the same. */
static const char *word(bool pier_sensitive) { return pier_sensitive ? "pier" : "both"; }

static void print_fit(const pointing_fit_answer *answer) {
    printf("%zu free, rank %zu, %zu iterations, %s, %zu sweeps, %s\n", answer->n_free, answer->rank, answer->iterations,
           answer->converged ? "converged" : "not converged", answer->sweeps, answer->settled ? "settled" : "not settled");
    if (!answer->settled) printf("look at this fit with care: after %zu sweeps, the most, its terms were still being told apart\n", answer->sweeps);
    printf("%-16s %14s %14s   %-33s sides\n", "term", "coefficient", "sigma", "their bits");
    for (size_t j = 0; j < m; j++)
        printf("%-16s %14.6f %14.6f   %016llx %016llx %s\n", stored(j), coefficients[j], sigma[j], bits(coefficients[j]), bits(sigma[j]),
               word(term(j).pier_sensitive));
    printf("%-16s %14.6f %14.6f   %016llx %016llx\n", "sky", answer->sky_rms, answer->popn_sd, bits(answer->sky_rms), bits(answer->popn_sd));
}

/* The sheet of an hour angle and a declination, in radians. */
static void fill_sheet(double sheet[POINTING_SHEET], double h, double dec) {
    for (int k = 0; k < 9; k++) {
        sheet[2 * k] = sin((k + 1) * h), sheet[2 * k + 1] = cos((k + 1) * h);
        sheet[18 + 2 * k] = sin((k + 1) * dec), sheet[19 + 2 * k] = cos((k + 1) * dec);
    }
    sheet[36] = tan(dec);
}

/* Where the mount is to be sent for a field: the correction, and what each term adds to it. */
static int point_at(double hours, double degrees, const char *side) {
    const double degree = 3.141592653589793 / 180;
    double sheet[POINTING_SHEET];
    fill_sheet(sheet, hours * 15 * degree, degrees * degree);
    uint8_t code = strcmp(side, "east") == 0 ? POINTING_EAST : strcmp(side, "west") == 0 ? POINTING_WEST : POINTING_UNKNOWN;
    pointing_pair sum = pointing_apply_equatorial(names, 16 * m, coefficients, m, sheet, 37, sin_lat, cos_lat, code);
    pointing_breakdown parts = pointing_predict_breakdown(names, 16 * m, coefficients, m, sheet, 37, sin_lat, cos_lat, code);
    if (sum.refusal != 0 || parts.refusal != 0) {
        printf("not pointed: %d, %s\n", sum.refusal, REFUSALS[sum.refusal]);
        return 1;
    }
    printf("at hour angle %.4f h, declination %.4f deg, pier %s: arcseconds in hour angle and declination\n", hours, degrees, side);
    printf("(pier: the other sign from the other side; both: the same from both sides)\n");
    for (size_t j = 0; j < m; j++) printf("%-16s %14.6f %14.6f %s\n", stored(j), parts.dh[j], parts.dd[j], word(parts.pier_sensitive[j]));
    printf("%-16s %14.6f %14.6f\n", "together", sum.dh, sum.dd);
    printf("send the mount to hour angle %.6f h, declination %.6f deg\n", hours + sum.dh / 54000, degrees + sum.dd / 3600);
    return 0;
}

int main(int argc, char **argv) {
    if (argc != 2 && argc != 5) {
        fprintf(stderr, "controller FILE.pmf [HOURS DEGREES east|west|unknown]\n");
        return 2;
    }
    if (!pointing_default_environment()) {
        printf("not fitted: the floating-point environment is not the default one: rounding, flushed subnormals or traps\n");
        return 1;
    }
    if (!read_run(argv[1])) {
        printf("%s is no PMF file\n", argv[1]);
        return 1;
    }
    pointing_scratch asked = pointing_scratch_length(m, n);
    printf("%s: %zu terms, %zu stars, %zu doubles of scratch\n", argv[1], m, n, asked.length);
    pointing_fit_answer answer = fit();
    if (answer.refusal != 0) {
        printf("refused: %d, %s\n", answer.refusal, REFUSALS[answer.refusal]);
        return 1;
    }
    print_fit(&answer);
    if (argc == 2) return point_at(-2.5, 41.3, "east");
    return point_at(strtod(argv[2], NULL), strtod(argv[3], NULL), argv[4]);
}
