/* Tests that pointing_default_environment() tells the default floating-point environment from every other one, and that the library's answers do
 * differ in the others: each rounding, with and without subnormals flushed, and each exception unmasked. FAST is defined where the program is linked
 * with -ffast-math, so that it starts with subnormals flushed. */

#include "stars.h"

enum { DAZ = 1 << 6, MASKS = 0x3f << 7, ROUNDING = 1 << 13, FTZ = 1 << 15 };

static void set(unsigned mxcsr) { _mm_setcsr(mxcsr); }

/* What arithmetic shows of an environment: rounding to nearest, ties to even, and subnormals kept. */
static bool usual(void) {
    volatile double one = 1, half_unit = 1.1102230246251565e-16, normal = 2.2250738585072014e-308, half = 0.5;
    volatile double even = one + half_unit, odd = one + 2 * half_unit, up = odd + half_unit;
    volatile double subnormal = normal * half, twice = subnormal * 2;
    return even == one && up == one + 4 * half_unit && twice == normal;
}

/* Every rounding, flushing results, operands, both or neither. */
static void modes(void) {
    for (unsigned rounding = 0; rounding < 4; rounding++)
        for (unsigned flush = 0; flush < 4; flush++) {
            set(MASKS | rounding * ROUNDING | (flush & 1) * FTZ | (flush >> 1) * DAZ);
            const bool said = pointing_default_environment(), shown = usual();
            set(MASKS);
            expect(said == (rounding == 0 && flush == 0), "the environment is told");
            expect(said == shown, "arithmetic shows the same environment");
        }
}

/* Every exception unmasked alone, and the flags that operations leave. */
static void traps(void) {
    for (unsigned exception = 0; exception < 6; exception++) {
        set(MASKS & ~(1u << (7 + exception)));
        const bool said = pointing_default_environment();
        set(MASKS | 1u << exception);
        expect(!said, "a trap is told");
        expect(pointing_default_environment(), "a flag does not count");
    }
    set(MASKS);
}

/* The sum of the bits of all that a fit writes. */
static uint64_t written(void) {
    uint64_t sum = 0;
    for (int j = 0; j < M; j++) sum = sum * 31 + bits(out[j]) + 7 * bits(sigma[j]) + 3 * bits(change[j]);
    for (int i = 0; i < 3 * N; i++) sum = sum * 31 + bits(diagnostics[i]);
    return sum;
}

/* Both fits of the run, in an environment, from the default one. */
static uint64_t fits(unsigned mxcsr) {
    set(mxcsr);
    const pointing_fit_answer first = single();
    const uint64_t sum = written();
    const pointing_fit_answer second = iterated();
    set(MASKS);
    expect(first.refusal == 0 && second.refusal == 0, "the run is fitted");
    return sum * 31 + written();
}

/* What the header says of other environments: the bits of the answers differ. */
static void answers(void) {
    fill(1);
    uint64_t usual_bits = fits(MASKS);
    for (unsigned rounding = 1; rounding < 4; rounding++) expect(fits(MASKS | rounding * ROUNDING) != usual_bits, "a rounding changes the bits");
    expect(fits(MASKS) == usual_bits, "the default gives the same bits again");
    fill(1e-310);
    usual_bits = fits(MASKS);
    expect(fits(MASKS | FTZ) != usual_bits, "subnormal results flushed change the bits");
    expect(fits(MASKS | DAZ) != usual_bits, "subnormal operands flushed change the bits");
    expect(fits(MASKS) == usual_bits, "the default gives the same bits again");
}

int main(void) {
#ifdef FAST
    expect(!pointing_default_environment(), "a program linked with -ffast-math starts with subnormals flushed");
#else
    expect(pointing_default_environment(), "a program starts with the default");
#endif
    set(MASKS);
    modes();
    traps();
    answers();
    return failures != 0;
}
