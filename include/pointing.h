/* The pointing fit as a C library: target/staticlib/libexports.a, which `sh ffi/build` writes for x86-64.
 *
 * Every call answers every input. It asks the questions below in their order; the first that is answered "no" gives its number in `refusal`,
 * every other field is 0, and every lent buffer holds what it held. Where `refusal` is 0 the answer is whole.
 *
 *    1  at most 32 terms (coefficients lent) and 1,024 stars (hour-angle differences lent)
 *    2  lists of the right lengths: 16 name bytes and one fixed flag for each coefficient; a declination difference, a pier code and 37 sheet
 *       numbers for each hour-angle difference; 16 bytes for one name, 37 numbers for one point
 *    3  buffers long enough
 *    4  every lent number finite
 *    5  pier codes 0 to 2, fixed flags 0 or 1, sigma_by 0 or 1
 *    6  max_iter at most 1,000
 *    7  each slot holds a name: 1 to 16 bytes below 128, none zero, then zeros (7 to 10 are put to one name before the next)
 *    8  no term of an alt-azimuth mount: IA IE CA NPAE AN AW
 *    9  a known name, or one that begins with H
 *   10  a harmonic is well formed
 *   11  some term
 *   12  some free term
 *   13  at least as many stars as free terms
 *
 * A call puts only the questions about what it takes; a model without terms corrects by 0 and 0.
 *
 * Units. Coefficients, differences, sigmas, residuals, sky_rms, popn_sd, corrections: arcseconds. tol_rad, final_step_norm: radians.
 * Hour-angle numbers are of the hour angle itself, not times cos dec; a residual on the sky is.
 *
 * A name slot is 16 bytes: the name in any case, then zeros. Known are IH ID CH NP MA ME TF TX DAF FO HCES HCEC DCES DCEC, TX with a number
 * from 1 to 255 (`TX5`, `tx+05`), and harmonics: H, a result of H D X P A E Z S, then parts of S or C, a coordinate of H D A E Z and a digit
 * from 1 to 9 or none (`HXSHCD2`).
 *
 * A sheet is 37 numbers of one star or point: sin h, cos h, sin 2h, cos 2h, .. sin 9h, cos 9h, the same of the declination, tan dec; h is the
 * hour angle. They are read as they stand. Sheet i of a run begins at 37 * i.
 *
 * A pier code is 0 unknown, 1 East, 2 West; unknown counts as East.
 *
 * A term is pier sensitive where its Jacobian turns with the pier side: ID, CH, NP and the harmonics of result P. Proved of each of these: there is a
 * sheet at which East and West differ, if only in the sign of a zero (`HPSA`, whose sine is 0 everywhere). Proved of every other term: its Jacobian is
 * the same for every pier code, at every sheet and latitude.
 *
 * Extreme numbers can overflow: an answer may then hold infinities, or NaNs, whose bits mean nothing.
 *
 * The library counts on the floating-point environment that a program starts with: rounding to nearest, subnormals kept, no exception trapped.
 * After fesetround(FE_UPWARD), with subnormals flushed to zero (as in every program that is linked with -ffast-math) or with traps on
 * (feenableexcept) nothing is promised: the bits of the answers differ, and a call may not come back. It neither asks nor changes the environment,
 * which belongs to each thread: pointing_default_environment() below tells whether it is the default, and is to be called before a fit or a
 * correction wherever other code may have changed it.
 *
 * The library keeps no state, allocates nothing, and calls nothing but memcpy and memset. Calls may be made at the same time from several
 * threads, on buffers that do not overlap. A pointer must lead to as many values as its length says, aligned as C asks; one of length 0 is not
 * read or written, and may be null: names NULL, 0 and coefficients NULL, 0 are the empty model. Buffers must overlap neither each other nor what is
 * read. Answers are handed over by value, whole structs: a program is to be compiled with the header of the library that it links. */

#ifndef POINTING_H
#define POINTING_H

#include <stdbool.h>
#include <stddef.h>
#include <stdint.h>
#include <xmmintrin.h>

#ifdef __cplusplus
extern "C" {
#endif

#define POINTING_NAME 16
#define POINTING_SHEET 37
#define POINTING_MAX_TERMS 32
#define POINTING_MAX_STARS 1024
#define POINTING_MAX_ITER 1000

/* Doubles of scratch that a fit of m terms and n stars asks, for arrays declared ahead: what pointing_scratch_length answers for m and n within the
 * limits. The most is 77,056. */
#define POINTING_SCRATCH(m, n) ((2 * (n) + 3 * (m)) * (m) + 8 * (n) + 8 * (m))
#define POINTING_MAX_SCRATCH POINTING_SCRATCH(POINTING_MAX_TERMS, POINTING_MAX_STARS)

enum pointing_pier { POINTING_UNKNOWN = 0, POINTING_EAST = 1, POINTING_WEST = 2 };

/* How sigma divides: by stars less rank, or by rows less rank, a star having two; by at least 1. */
enum pointing_sigma_by { POINTING_BY_STARS = 0, POINTING_BY_ROWS = 1 };

/* Whether this thread has the floating-point environment that the library counts on. In MXCSR, which rules all its operations, bits 13 and 14 are
 * the rounding, 0 to nearest; 15 and 6 flush subnormal results and operands; 7 to 12 mask the exceptions. The flags below them don't count. */
static inline bool pointing_default_environment(void) { return (_mm_getcsr() & 0xffc0u) == 0x1f80u; }

/* The square root, correctly rounded. */
double pointing_sqrt(double x);

/* Doubles of scratch that a fit of m terms and n stars asks: refusal 1 and length 0 where m > 32 or n > 1,024. */
typedef struct {
    uint8_t refusal;
    size_t length;
} pointing_scratch;

pointing_scratch pointing_scratch_length(size_t m, size_t n);

/* What a name is read as: questions 2 and 7 to 10. */
typedef struct {
    uint8_t refusal;
    uint8_t kind;           /* IH ID CH NP MA ME TF TX TXN DAF FO HCES HCEC DCES DCEC are 0 to 14, a harmonic 15 */
    uint8_t number;         /* TXN's */
    uint8_t result;         /* a harmonic's: H D X P A E Z S are 0 to 7 */
    uint8_t count;          /* components of a harmonic, at most 7 */
    uint8_t name[16];       /* as stored: capitals, TX's number bare, then zeros */
    uint8_t functions[7];   /* of each component: sin 0, cos 1 */
    uint8_t coordinates[7]; /* H D A E Z are 0 to 4 */
    uint8_t frequencies[7]; /* 1 to 9 */
    bool pier_sensitive;    /* the Jacobian turns with the pier side */
} pointing_term;

pointing_term pointing_read_term(const uint8_t *slot, size_t slot_len);

typedef struct {
    uint8_t refusal;
    double dh, dd;
} pointing_pair;

/* What a coefficient of 1 adds to hour angle and declination at one point: questions 2, 4, 5, 7 to 10. sin_lat and cos_lat are of the latitude. */
pointing_pair pointing_jacobian(const uint8_t *name, size_t name_len, const double *sheet, size_t sheet_len, double sin_lat, double cos_lat,
                                uint8_t pier);

/* The correction of a model at one point: questions 1, 2, 4, 5, 7 to 10. For a field there the mount is sent to hour angle plus dh and declination
 * plus dd. */
pointing_pair pointing_apply_equatorial(const uint8_t *names, size_t names_len, const double *coefficients, size_t coefficients_len,
                                        const double *sheet, size_t sheet_len, double sin_lat, double cos_lat, uint8_t pier);

/* What each term adds to it, and whether that turns with the pier side: a pair and a flag for each term, then zeros and false. The flags are those of
 * the names, as pointing_read_term has them. The same questions. */
typedef struct {
    uint8_t refusal;
    double dh[POINTING_MAX_TERMS], dd[POINTING_MAX_TERMS];
    bool pier_sensitive[POINTING_MAX_TERMS];
} pointing_breakdown;

pointing_breakdown pointing_predict_breakdown(const uint8_t *names, size_t names_len, const double *coefficients, size_t coefficients_len,
                                              const double *sheet, size_t sheet_len, double sin_lat, double cos_lat, uint8_t pier);

typedef struct {
    size_t max_iter;       /* the most trials; usual is 50 */
    double tol_rad;        /* converged where a kept step is shorter; 1e-6 */
    double initial_lambda; /* the first damping; 1e-3 */
    double lambda_up;      /* the factor after a rejected step; 10 */
    double lambda_down;    /* the divisor after a kept step; 10 */
    bool robust;           /* weigh rows by Huber's rule: a star's hour angle and its declination each for itself */
    double huber_k;        /* its constant; 1.345 */
} pointing_fit_options;

typedef struct {
    uint8_t refusal;
    double sky_rms, popn_sd;
    size_t n_free, rank;             /* free terms, and how many of them the stars tell apart */
    double sigma_max, sigma_min;     /* largest and smallest singular value of the last solve, its columns scaled to length 1 */
    double tol;                      /* fit_tol as lent */
    size_t iterations;               /* trials, without the last undamped one */
    bool converged;                  /* a kept step was shorter than tol_rad */
    double final_lambda;             /* the damping that the next trial would have had */
    double final_step_norm;          /* the length of the last step that was kept before the undamped trial; +infinity where none was */
    size_t sweeps;                   /* that the last undamped solve's factorisation made, the one without a turn included; 1 to 30 */
    bool settled;                    /* the last sweep had no turn; false only after 30, the columns still being turned: look at the fit with care */
} pointing_fit_answer;               /* the single step says iterations 1, converged true, final_lambda 0, final_step_norm 0 */

/* Both fits of n stars to m terms. The iterated one returns the best of the sets that it tried (docs/PROMISES.md, demand 3). The single step
 * asks questions 1 to 5 and 7 to 13, the iterated fit 1 to 13.
 *
 * Read: m names; m fixed flags (0 free, 1 fixed); m start coefficients; n differences in hour angle and n in declination, observed less commanded;
 * n pier codes; n sheets; fit_tol: a singular value counts where it is above fit_tol times the largest, or above 0 where fit_tol is not above 0;
 * sigma_by: how sigma divides.
 * A fixed term's coefficient stays what it is: the iterated fit keeps its bits, the single step adds 0 to it, so that -0 becomes +0.
 * Written, where accepted: m coefficients to out, m changes from the start to change, m to sigma, 3 n to diagnostics (residual on the sky, leverage,
 * studentized residual for each star), zeros to the scratch asked for. Places behind these are kept.
 *
 * A free term's sigma is sqrt(|s2 * c|), with c its place on the covariance diagonal; a fixed term's is 0. s2 is the sum of the squares of the last
 * solve's residuals, two for each star, divided by n - rank (POINTING_BY_STARS, as the Rust does) or by 2 n - rank (POINTING_BY_ROWS, the equations
 * less the rank), and by 1 where that is below 1. Nothing else that a fit answers or writes changes with sigma_by. */
pointing_fit_answer pointing_fit_model(const uint8_t *names, size_t names_len, const uint8_t *fixed, size_t fixed_len, const double *coefficients,
                                       size_t coefficients_len, const double *dh, size_t dh_len, const double *dd, size_t dd_len,
                                       const uint8_t *pier, size_t pier_len, const double *sheets, size_t sheets_len, double sin_lat,
                                       double cos_lat, double fit_tol, uint8_t sigma_by, double *out, size_t out_len, double *change,
                                       size_t change_len, double *sigma, size_t sigma_len, double *diagnostics, size_t diagnostics_len,
                                       double *scratch, size_t scratch_len);

pointing_fit_answer pointing_fit_model_iterated(const uint8_t *names, size_t names_len, const uint8_t *fixed, size_t fixed_len,
                                                const double *coefficients, size_t coefficients_len, const double *dh, size_t dh_len,
                                                const double *dd, size_t dd_len, const uint8_t *pier, size_t pier_len, const double *sheets,
                                                size_t sheets_len, double sin_lat, double cos_lat, double fit_tol, uint8_t sigma_by,
                                                pointing_fit_options options, double *out, size_t out_len, double *change, size_t change_len,
                                                double *sigma, size_t sigma_len, double *diagnostics, size_t diagnostics_len, double *scratch,
                                                size_t scratch_len);

#ifdef __cplusplus
}
#endif

#endif
