/* Tests what include/pointing.h says at the edges: null pointers of length 0, which terms are pier sensitive, fixed coefficients of -0, the length of
 * scratch, what a fit reports of itself, and sigma by stars and by rows. */

#include <ctype.h>

#include "stars.h"

/* Whether a breakdown has the refusal and nothing in its places. */
static bool empty(pointing_breakdown parts, uint8_t refusal) {
    bool held = parts.refusal == refusal;
    for (int j = 0; j < POINTING_MAX_TERMS; j++) held = held && bits(parts.dh[j]) == 0 && bits(parts.dd[j]) == 0 && !parts.pier_sensitive[j];
    return held;
}

static pointing_fit_answer without_anything(void) {
    return pointing_fit_model(NULL, 0, NULL, 0, NULL, 0, NULL, 0, NULL, 0, NULL, 0, NULL, 0, 0.5, 0.8, 1e-12, POINTING_BY_STARS, NULL, 0, NULL, 0, NULL, 0,
                              NULL, 0, NULL, 0);
}

static pointing_fit_answer without_anything_iterated(void) {
    return pointing_fit_model_iterated(NULL, 0, NULL, 0, NULL, 0, NULL, 0, NULL, 0, NULL, 0, NULL, 0, 0.5, 0.8, 1e-12, POINTING_BY_STARS, options, NULL, 0,
                                       NULL, 0, NULL, 0, NULL, 0, NULL, 0);
}

/* m terms of the run, and no star. */
static pointing_fit_answer without_stars(size_t m) {
    return pointing_fit_model(names, 16 * m, fixed, m, start, m, NULL, 0, NULL, 0, NULL, 0, NULL, 0, 0.5, 0.8, 1e-12, POINTING_BY_STARS, out, M, change, M,
                              sigma, M, NULL, 0, scratch, SCRATCH);
}

static pointing_fit_answer without_buffers(void) {
    return pointing_fit_model(names, 16 * M, fixed, M, start, M, dh, N, dd, N, pier, N, sheets, 37 * N, 0.5, 0.8, 1e-12, POINTING_BY_STARS, NULL, 0, NULL, 0,
                              NULL, 0, NULL, 0, NULL, 0);
}

static void null_fits(void) {
    fill(1);
    expect(without_anything().refusal == 11, "a fit of nothing at null pointers gives 11");
    expect(without_anything_iterated().refusal == 11, "an iterated fit of nothing at null pointers gives 11");
    expect(without_stars(1).refusal == 13, "a free term and no star at null pointers give 13");
    fixed[0] = 1;
    expect(without_stars(1).refusal == 12, "a fixed term and no star at null pointers give 12");
    expect(without_stars(0).refusal == 11, "no term and no star give 11");
    fixed[0] = 0;
    const pointing_fit_answer said = without_buffers();
    expect(said.refusal == 3, "null buffers of length 0 give 3");
    expect(said.sweeps == 0 && !said.settled, "a refused fit made no sweep and is not settled");
}

/* The empty model, and slots and sheets that are not there. */
static void null_points(void) {
    fill(1);
    pointing_pair pair = pointing_apply_equatorial(NULL, 0, NULL, 0, sheets, 37, 0.5, 0.8, 1);
    expect(pair.refusal == 0 && bits(pair.dh) == 0 && bits(pair.dd) == 0, "the empty model at null pointers corrects by 0 and 0");
    expect(pointing_apply_equatorial(NULL, 0, NULL, 0, NULL, 0, 0.5, 0.8, 1).refusal == 2, "no sheet gives 2");
    expect(pointing_apply_equatorial(NULL, 0, start, 1, sheets, 37, 0.5, 0.8, 1).refusal == 2, "no names for a coefficient give 2");
    expect(pointing_apply_equatorial(names, 16, NULL, 0, sheets, 37, 0.5, 0.8, 1).refusal == 2, "no coefficient for a name gives 2");
    expect(empty(pointing_predict_breakdown(NULL, 0, NULL, 0, sheets, 37, 0.5, 0.8, 1), 0), "the empty model at null pointers has no parts");
    expect(empty(pointing_predict_breakdown(NULL, 0, NULL, 0, NULL, 0, 0.5, 0.8, 1), 2), "no sheet gives 2");
    expect(pointing_jacobian(NULL, 0, sheets, 37, 0.5, 0.8, 1).refusal == 2, "no slot gives 2");
    expect(pointing_jacobian(names, 16, NULL, 0, 0.5, 0.8, 1).refusal == 2, "no sheet gives 2");
    expect(pointing_read_term(NULL, 0).refusal == 2, "no slot gives 2");
}

/* Names, and whether their terms are pier sensitive: ID, CH, NP and the harmonics of result P, no others. */
typedef struct {
    const char *name;
    bool sensitive;
} flagged;

enum { FLAGGED = 30 };

static const flagged terms[FLAGGED] = {
    {"IH", false},   {"ID", true},     {"CH", true},     {"NP", true},   {"MA", false},   {"ME", false},   {"TF", false},      {"TX", false},
    {"TX1", false},  {"TX+05", false}, {"TX255", false}, {"DAF", false}, {"FO", false},   {"HCES", false}, {"HCEC", false},    {"DCES", false},
    {"DCEC", false}, {"HHSH", false},  {"HDCD2", false}, {"HPSH", true}, {"HPCD9", true}, {"HPCA", true},  {"HXSHCD2", false}, {"HASH", false},
    {"HECD", false}, {"HZSZ", false},  {"HSCE3", false}, {"HPSHCDSHCDSHCDSH", true},      {"HHSHCDSHCDSHCDSH", false},
    {"HPSA", true}, /* sin A is 0: East's and West's zeros differ in their sign */
};

/* Names that are refused, and with what number. */
typedef struct {
    const char *name;
    uint8_t no;
} refused;

enum { REFUSED = 16 };

static const refused no_terms[REFUSED] = {
    {"", 7},    {"IA", 8},  {"IE", 8}, {"CA", 8},  {"NPAE", 8}, {"AN", 8},   {"AW", 8},     {"TX0", 9},
    {"IDS", 9}, {"TXP", 9}, {"P", 9},  {"NPP", 9}, {"HP", 10},  {"HPS", 10}, {"HPSH0", 10}, {"HPSHP", 10},
};

/* Puts a name in a slot, as it stands or in small letters. */
static void put_name(uint8_t *slot, const char *name, bool small) {
    memset(slot, 0, POINTING_NAME);
    for (size_t i = 0; i < strlen(name); i++) slot[i] = (uint8_t)(small ? tolower(name[i]) : name[i]);
}

/* Expects it of what has a name. */
static void expect_of(const char *name, bool held, const char *what) {
    char text[160];
    snprintf(text, sizeof text, "'%s': %s", name, what);
    expect(held, text);
}

/* Every name is told, and a refused one is not pier sensitive. */
static void sensitive_names(bool small) {
    uint8_t slot[POINTING_NAME];
    for (int j = 0; j < FLAGGED; j++) {
        put_name(slot, terms[j].name, small);
        const pointing_term read = pointing_read_term(slot, POINTING_NAME);
        expect_of(terms[j].name, read.refusal == 0 && read.pier_sensitive == terms[j].sensitive, "a name tells whether it is pier sensitive");
    }
    for (int j = 0; j < REFUSED; j++) {
        put_name(slot, no_terms[j].name, small);
        const pointing_term read = pointing_read_term(slot, POINTING_NAME);
        expect_of(no_terms[j].name, read.refusal == no_terms[j].no && !read.pier_sensitive, "a refused name is not pier sensitive");
    }
    expect(!pointing_read_term(NULL, 0).pier_sensitive, "a slot that is not there is not pier sensitive");
}

/* The breakdown of all those terms, with coefficients 1, 2, 3 and so on, at the run's first star. */
static pointing_breakdown of_terms(uint8_t side, bool small) {
    uint8_t slots[POINTING_NAME * FLAGGED];
    double coefficients[FLAGGED];
    for (int j = 0; j < FLAGGED; j++) put_name(slots + POINTING_NAME * j, terms[j].name, small), coefficients[j] = j + 1;
    return pointing_predict_breakdown(slots, sizeof slots, coefficients, FLAGGED, sheets, 37, 0.5, 0.8, side);
}

static bool alike(pointing_breakdown a, pointing_breakdown b, int j) { return bits(a.dh[j]) == bits(b.dh[j]) && bits(a.dd[j]) == bits(b.dd[j]); }

/* Each flag is its name's. What has it changes its sign between East and West, nothing else changes, and unknown is as East. */
static void sensitive_parts(bool small) {
    const pointing_breakdown east = of_terms(POINTING_EAST, small), west = of_terms(POINTING_WEST, small), unknown = of_terms(POINTING_UNKNOWN, small);
    expect(east.refusal == 0 && west.refusal == 0 && unknown.refusal == 0, "every term has its part");
    for (int j = 0; j < POINTING_MAX_TERMS; j++) {
        const char *name = j < FLAGGED ? terms[j].name : "behind the terms";
        const bool sensitive = j < FLAGGED && terms[j].sensitive;
        const bool flags = east.pier_sensitive[j] == sensitive && west.pier_sensitive[j] == sensitive && unknown.pier_sensitive[j] == sensitive;
        expect_of(name, flags, "a part has the flag of its name, from every side");
        expect_of(name, alike(east, unknown, j), "unknown is as East");
        expect_of(name, alike(east, west, j) == !sensitive, "East and West differ where it is pier sensitive, and nowhere else");
        expect_of(name, !sensitive || (east.dh[j] == -west.dh[j] && east.dd[j] == -west.dd[j]), "West has the other sign");
    }
}

/* Breakdowns that are refused have no flag, though ID, CH and NP stand first. */
static void refused_parts(void) {
    const double four[4] = {1, 2, 3, 4}, no_number[4] = {1, 2, 3, NAN}, many[33] = {0};
    static uint8_t slots[POINTING_NAME * 33];
    for (int j = 0; j < 33; j++) put_name(slots + POINTING_NAME * j, terms[1 + j % 3].name, false);
    expect(empty(pointing_predict_breakdown(slots, 16 * 33, many, 33, sheets, 37, 0.5, 0.8, 1), 1), "33 terms give 1 and no flag");
    expect(empty(pointing_predict_breakdown(slots, 16 * 4 - 1, four, 4, sheets, 37, 0.5, 0.8, 1), 2), "a byte too few gives 2 and no flag");
    expect(empty(pointing_predict_breakdown(slots, 16 * 4, four, 4, sheets, 36, 0.5, 0.8, 1), 2), "a short sheet gives 2 and no flag");
    expect(empty(pointing_predict_breakdown(slots, 16 * 4, no_number, 4, sheets, 37, 0.5, 0.8, 1), 4), "a NaN gives 4 and no flag");
    expect(empty(pointing_predict_breakdown(slots, 16 * 4, four, 4, sheets, 37, 0.5, INFINITY, 1), 4), "an infinite latitude gives 4 and no flag");
    expect(empty(pointing_predict_breakdown(slots, 16 * 4, four, 4, sheets, 37, 0.5, 0.8, 3), 5), "a pier code of 3 gives 5 and no flag");
    for (int j = 0; j < REFUSED; j++) {
        put_name(slots + POINTING_NAME * 3, no_terms[j].name, false);
        const pointing_breakdown parts = pointing_predict_breakdown(slots, 16 * 4, four, 4, sheets, 37, 0.5, 0.8, 1);
        expect_of(no_terms[j].name, empty(parts, no_terms[j].no), "behind ID, CH and NP it gives its number and no flag");
    }
}

static void pier_sensitive(void) {
    fill(1);
    for (int small = 0; small < 2; small++) sensitive_names(small == 1), sensitive_parts(small == 1);
    refused_parts();
}

/* A fixed -0: the single step makes it +0, the iterated fit keeps its bits; another fixed coefficient stays. */
static void fixed_coefficients(void) {
    fill(1);
    fixed[1] = fixed[2] = 1, start[1] = -0.0, start[2] = 0.3;
    expect(single().refusal == 0 && bits(out[1]) == 0 && bits(out[2]) == bits(0.3), "the single step adds 0 to a fixed coefficient");
    expect(iterated().refusal == 0 && bits(out[1]) == bits(-0.0) && bits(out[2]) == bits(0.3), "the iterated fit keeps its bits");
}

/* The single step in scratch of another length, which holds 7 before. */
static double lent[SCRATCH + 2 * M * N];

static pointing_fit_answer in_scratch(size_t length) {
    for (int i = 0; i < SCRATCH + 2 * M * N; i++) lent[i] = 7;
    return pointing_fit_model(names, 16 * M, fixed, M, start, M, dh, N, dd, N, pier, N, sheets, 37 * N, 0.5, 0.8, 1e-12, POINTING_BY_STARS, out, M,
                              change, M, sigma, M, diagnostics, 3 * N, lent, length);
}

/* Whether so many places of it were made zeros, and no more. */
static bool cleared(int count) {
    bool held = true;
    for (int i = 0; i < SCRATCH + 2 * M * N; i++) held = held && bits(lent[i]) == bits(i < count ? 0.0 : 7.0);
    return held;
}

/* The length asked, one less, one more, and two doubles longer for each term and star, as document 01 asked. */
static void scratch_lengths(void) {
    bool same = POINTING_MAX_SCRATCH == 77056;
    for (size_t m = 0; m <= 32; m++) {
        for (size_t n = 0; n <= 1024; n++) {
            pointing_scratch asked = pointing_scratch_length(m, n);
            same = same && asked.refusal == 0 && asked.length == POINTING_SCRATCH(m, n);
        }
    }
    expect(same, "POINTING_SCRATCH is what pointing_scratch_length answers, 77,056 at most");
    fill(1);
    expect(in_scratch(SCRATCH).refusal == 0 && cleared(SCRATCH), "a fit takes the scratch that it asks");
    expect(in_scratch(SCRATCH - 1).refusal == 3 && cleared(0), "one double less gives 3");
    expect(in_scratch(SCRATCH + 1).refusal == 0 && cleared(SCRATCH), "one double more is kept");
    expect(in_scratch(SCRATCH + 2 * M * N).refusal == 0 && cleared(SCRATCH), "the length of document 01 still fits, its tail is kept");
}

static void reports(void) {
    fill(1);
    pointing_fit_answer said = single();
    expect(said.refusal == 0 && bits(said.tol) == bits(1e-12), "tol is fit_tol as lent");
    expect(said.iterations == 1 && said.converged, "the single step says 1 iteration and converged");
    expect(bits(said.final_lambda) == 0 && bits(said.final_step_norm) == 0, "the single step says lambda 0 and step 0");
    said = iterated();
    expect(said.refusal == 0 && bits(said.tol) == bits(1e-12), "tol is fit_tol as lent");
    expect(said.converged && said.final_step_norm >= 0 && said.final_step_norm < options.tol_rad, "converged where a kept step is short");
    options.max_iter = 0;
    said = iterated();
    expect(said.refusal == 0 && said.iterations == 0 && !said.converged, "no trial, not converged");
    expect(bits(said.final_step_norm) == 0x7ff0000000000000, "without a kept step its length is +infinity");
    expect(bits(said.final_lambda) == bits(options.initial_lambda), "without a trial the damping is the first");
    options.max_iter = 50;
}

/* Whether a fit says so many sweeps. */
static bool made(pointing_fit_answer said, size_t sweeps, bool settled) { return said.refusal == 0 && said.sweeps == sweeps && said.settled == settled; }

/* The run's fit of two terms, both free: the single step or the iterated one. */
static pointing_fit_answer of_two(const char *first, const char *second, bool iterate) {
    uint8_t two[2 * POINTING_NAME];
    put_name(two, first, false), put_name(two + POINTING_NAME, second, false);
    if (iterate)
        return pointing_fit_model_iterated(two, 32, fixed, 2, start, 2, dh, N, dd, N, pier, N, sheets, 37 * N, 0.5, 0.8, 1e-12, POINTING_BY_STARS, options,
                                           out, M, change, M, sigma, M, diagnostics, 3 * N, scratch, SCRATCH);
    return pointing_fit_model(two, 32, fixed, 2, start, 2, dh, N, dd, N, pier, N, sheets, 37 * N, 0.5, 0.8, 1e-12, POINTING_BY_STARS, out, M, change, M,
                              sigma, M, diagnostics, 3 * N, scratch, SCRATCH);
}

/* Counts that follow from docs/SCOPE.md 6.2. IH and ID have no row in common: no turn. FO twice: zeta is 0, so that one turn makes the first column zeros.
 * FO of ones and DCES of 1.5e-162, whose squares are 0, so that it is not scaled: gamma squared is above 0, beta 0, zeta squared infinite and the turn's
 * sine 0, so that it turns for ever and changes nothing. */
static void sweeps(void) {
    for (int i = 0; i < 2; i++) {
        const bool iterate = i == 1;
        fill(1);
        const pointing_fit_answer said = iterate ? iterated() : single();
        expect(said.sweeps >= 1 && said.sweeps <= 30 && (said.settled || said.sweeps == 30), "1 to 30 sweeps, below 30 settled");
        expect(made(of_two("IH", "ID", iterate), 1, true), "columns without a common row take 1 sweep");
        expect(made(of_two("FO", "FO", iterate), 2, true), "equal columns take 2 sweeps");
        fixed[0] = fixed[2] = 1;
        expect(made(iterate ? iterated() : single(), 1, true), "a single free term takes 1 sweep");
        fixed[0] = fixed[2] = 0;
        for (int star = 0; star < N; star++) sheets[37 * star + 1] = 1, sheets[37 * star + 18] = 1.5e-162;
        expect(made(of_two("FO", "DCES", iterate), 30, false), "columns that turn for ever make 30 sweeps and don't settle");
    }
}

/* A call on the four stars of docs/SCOPE.md 12.1, as it stands there or with one fault. */
typedef struct {
    uint8_t no; /* the question that says no, 0 none */
    const char *what;
    size_t m, n, dds, places; /* terms, stars, declination differences, places for sigma */
    double first, tol_rad;    /* the first star's difference in declination, an option */
    uint8_t pier, fixed;      /* the first star's code, the first term's flag; further terms are fixed */
    const char *name;         /* of every term */
    size_t max_iter;
} four_call;

/* The last two faults are of options, and so of the iterated fit alone. */
enum { CALLS = 16, OF_OPTIONS = 2 };

static const four_call calls[CALLS] = {
    /*                                            m   n  dds  places  first  tol_rad  pier  fixed    name  max_iter */
    {0,  "four stars",                           1,  4,   4,      M,   -10,    1e-6,    1,     0,   "ID",        50},
    {1,  "33 terms",                            33,  4,   4,      M,   -10,    1e-6,    1,     0,   "ID",        50},
    {2,  "three declination differences",        1,  4,   3,      M,   -10,    1e-6,    1,     0,   "ID",        50},
    {3,  "no place for sigma",                   1,  4,   4,      0,   -10,    1e-6,    1,     0,   "ID",        50},
    {4,  "a NaN among the differences",          1,  4,   4,      M,   NAN,    1e-6,    1,     0,   "ID",        50},
    {5,  "a pier code of 3",                     1,  4,   4,      M,   -10,    1e-6,    3,     0,   "ID",        50},
    {5,  "a fixed flag of 2",                    1,  4,   4,      M,   -10,    1e-6,    1,     2,   "ID",        50},
    {7,  "an empty name",                        1,  4,   4,      M,   -10,    1e-6,    1,     0,     "",        50},
    {8,  "an alt-azimuth term",                  1,  4,   4,      M,   -10,    1e-6,    1,     0,   "IA",        50},
    {9,  "an unknown name",                      1,  4,   4,      M,   -10,    1e-6,    1,     0,  "TX0",        50},
    {10, "a harmonic that is not well formed",   1,  4,   4,      M,   -10,    1e-6,    1,     0,  "HHS",        50},
    {11, "no term",                              0,  4,   4,      M,   -10,    1e-6,    1,     0,   "ID",        50},
    {12, "no free term",                         1,  4,   4,      M,   -10,    1e-6,    1,     1,   "ID",        50},
    {13, "no star",                              1,  0,   0,      M,   -10,    1e-6,    1,     0,   "ID",        50},
    {4,  "a NaN among the options",              1,  4,   4,      M,   -10,     NAN,    1,     0,   "ID",        50},
    {6,  "max_iter 1,001",                       1,  4,   4,      M,   -10,    1e-6,    1,     0,   "ID",      1001},
};

static uint8_t four_names[POINTING_NAME * 33], four_fixed[33];
static double four_start[33];

/* Lays out stars and terms: sines and tan 0, cosines 1; differences 0 and -10, -20, -10, -20; starts 0. */
static void lay(const four_call *call) {
    for (int i = 0; i < 4; i++) {
        for (int k = 0; k < 37; k++) sheets[37 * i + k] = k % 2;
        dh[i] = 0, dd[i] = i % 2 == 0 ? -10 : -20, pier[i] = POINTING_EAST;
    }
    dd[0] = call->first, pier[0] = call->pier;
    for (int j = 0; j < 33; j++) put_name(four_names + 16 * j, call->name, false), four_fixed[j] = j == 0 ? call->fixed : 1;
}

/* All that a fit may write, as it stands. */
typedef struct {
    double out[M], change[M], sigma[M], diagnostics[3 * N], scratch[SCRATCH];
} buffers;

static buffers written(void) {
    buffers now;
    memcpy(now.out, out, sizeof out), memcpy(now.change, change, sizeof change), memcpy(now.sigma, sigma, sizeof sigma);
    memcpy(now.diagnostics, diagnostics, sizeof diagnostics), memcpy(now.scratch, scratch, sizeof scratch);
    return now;
}

/* Puts 7 in every place of them. */
static buffers unwritten(void) {
    for (int j = 0; j < M; j++) out[j] = change[j] = sigma[j] = 7;
    for (int i = 0; i < 3 * N; i++) diagnostics[i] = 7;
    for (int i = 0; i < SCRATCH; i++) scratch[i] = 7;
    return written();
}

static bool equal(buffers a, buffers b) { return memcmp(&a, &b, sizeof a) == 0; }

/* The fit, in buffers that hold 7 before. The iterated one has no damping, so that its trials make the single step's numbers. */
static pointing_fit_answer of_four(const four_call *call, uint8_t sigma_by, bool iterate) {
    const size_t m = call->m, n = call->n;
    const pointing_fit_options undamped = {call->max_iter, call->tol_rad, 0, 10, 10, false, 1.345};
    lay(call);
    unwritten();
    if (iterate)
        return pointing_fit_model_iterated(four_names, 16 * m, four_fixed, m, four_start, m, dh, n, dd, call->dds, pier, n, sheets, 37 * n, 0.5, 0.8, 1e-12,
                                           sigma_by, undamped, out, M, change, M, sigma, call->places, diagnostics, 3 * N, scratch, SCRATCH);
    return pointing_fit_model(four_names, 16 * m, four_fixed, m, four_start, m, dh, n, dd, call->dds, pier, n, sheets, 37 * n, 0.5, 0.8, 1e-12, sigma_by,
                              out, M, change, M, sigma, call->places, diagnostics, 3 * N, scratch, SCRATCH);
}

static bool same(pointing_fit_answer a, pointing_fit_answer b) {
    return a.refusal == b.refusal && bits(a.sky_rms) == bits(b.sky_rms) && bits(a.popn_sd) == bits(b.popn_sd) && a.n_free == b.n_free &&
           a.rank == b.rank && bits(a.sigma_max) == bits(b.sigma_max) && bits(a.sigma_min) == bits(b.sigma_min) && bits(a.tol) == bits(b.tol) &&
           a.iterations == b.iterations && a.converged == b.converged && bits(a.final_lambda) == bits(b.final_lambda) &&
           bits(a.final_step_norm) == bits(b.final_step_norm) && a.sweeps == b.sweeps && a.settled == b.settled;
}

/* Whether the first term's sigma is as given by stars and by rows, and nothing else differs. The buffers are left as by rows. */
static bool has_sigmas(const four_call *call, bool iterate, double by_stars, double by_rows) {
    const pointing_fit_answer of_stars = of_four(call, POINTING_BY_STARS, iterate);
    buffers stars = written();
    const pointing_fit_answer of_rows = of_four(call, POINTING_BY_ROWS, iterate);
    const bool held = of_stars.refusal == 0 && bits(stars.sigma[0]) == bits(by_stars) && bits(sigma[0]) == bits(by_rows);
    stars.sigma[0] = by_rows;
    return held && same(of_stars, of_rows) && equal(stars, written());
}

/* Sigmas that follow from docs/SCOPE.md 9.3. ID's column on the four stars is -1 four times, so that its covariance is 1/4; at 15 the residuals are 5, -5, 5
 * and -5, and their squares' sum 100. IH's on one star is -1, and the residual is all of -10, in declination: the divisor is 1 by stars and by rows. */
static void sigmas(void) {
    const double by_stars = sqrt(100.0 / 3 * 0.25), by_rows = sqrt(100.0 / 7 * 0.25);
    const size_t trials[] = {0, 1, 50};
    for (int i = 0; i < 4; i++) {
        const bool iterate = i > 0;
        four_call call = calls[0];
        call.max_iter = iterate ? trials[i - 1] : 50;
        expect(has_sigmas(&call, iterate, by_stars, by_rows), "four stars have the divisor 3 by stars and 7 by rows, and else the same fit");
        const pointing_fit_answer said = of_four(&call, POINTING_BY_ROWS, iterate);
        expect(out[0] == 15 && said.rank == 1 && said.sky_rms == 5 && diagnostics[1] == 0.25, "by rows too ID is 15, the sky RMS 5, a leverage 0.25");
        call.m = 2;
        expect(has_sigmas(&call, iterate, by_stars, by_rows) && bits(sigma[1]) == 0, "a fixed term's sigma is 0 by stars and by rows");
        call.m = call.n = call.dds = 1, call.name = "IH";
        expect(has_sigmas(&call, iterate, 10, 10), "one star has the divisor 1 by stars and by rows");
    }
}

/* Whether a call is answered in its order: a choice that is neither by stars nor by rows is question 5's, and a refusal leaves every buffer as it was. */
static bool answered(const four_call *call, uint8_t sigma_by, bool iterate) {
    static pointing_fit_answer none;
    none.refusal = sigma_by > POINTING_BY_ROWS && (call->no == 0 || call->no > 5) ? 5 : call->no;
    const pointing_fit_answer said = of_four(call, sigma_by, iterate);
    if (none.refusal == 0) return said.refusal == 0;
    const buffers left = written();
    return same(said, none) && equal(left, unwritten());
}

/* Every choice beside every fault. */
static void choices(void) {
    for (int i = 0; i < 2; i++) {
        const bool iterate = i == 1;
        for (int k = 0; k < (iterate ? CALLS : CALLS - OF_OPTIONS); k++) {
            bool held = true;
            for (int choice = 0; choice < 256; choice++) held = answered(&calls[k], (uint8_t)choice, iterate) && held;
            expect_of(calls[k].what, held, iterate ? "iterated, every choice is answered in its order" : "every choice is answered in its order");
        }
    }
}

int main(void) {
    null_fits();
    null_points();
    pier_sensitive();
    fixed_coefficients();
    scratch_lengths();
    reports();
    sweeps();
    sigmas();
    choices();
    return failures != 0;
}
