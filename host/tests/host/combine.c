/* Calls the combining step from C: a duplex, both limits, a refusal. Ends in 0 if every answer is right. */
#include "codec_ffi.h"
#include <string.h>

#define BOTH(column) column, sizeof column

/* Cases P2 and P11 of document 01. */
static const uint8_t a_bases[] = {'A', 'A'}, a_quals[] = {30, 30};
static const uint8_t a_depths[] = {5, 0, 0x40, 0x9c}, a_errors[] = {1, 0, 0x40, 0x9c};
static const uint8_t b_bases[] = {'C', 'n'}, b_quals[] = {20, 0};
static const uint8_t b_depths[] = {4, 0, 0, 0}, b_errors[] = {1, 0, 0, 0};
static uint8_t bases[3], quals[3], depths[6], errors[6];

static struct codec_ffi_answer combine(uint64_t max_disagreements, double max_rate, size_t depths_len) {
    memset(bases, 7, sizeof bases);
    memset(quals, 7, sizeof quals);
    memset(depths, 7, sizeof depths);
    memset(errors, 7, sizeof errors);
    return codec_ffi_combine(BOTH(a_bases), BOTH(a_quals), BOTH(a_depths), BOTH(a_errors), BOTH(b_bases),
                             BOTH(b_quals), BOTH(b_depths), BOTH(b_errors), max_disagreements, max_rate,
                             BOTH(bases), BOTH(quals), depths, depths_len, BOTH(errors));
}

static int is(struct codec_ffi_answer answer, uint32_t kind, uint32_t refusal, uint32_t with, uint32_t both,
              uint32_t disagreements, double rate) {
    return answer.kind == kind && answer.refusal == refusal && answer.with == with && answer.bases == both &&
           answer.disagreements == disagreements && answer.rate == rate;
}

static int hold(const char *b, const char *q, const char *d, const char *e) {
    return !memcmp(bases, b, 3) && !memcmp(quals, q, 3) && !memcmp(depths, d, 6) && !memcmp(errors, e, 6);
}

static int untouched(void) {
    return hold("\7\7\7", "\7\7\7", "\7\7\7\7\7\7", "\7\7\7\7\7\7");
}

int main(void) {
    if (!is(combine(1, 1.0, 6), CODEC_FFI_DUPLEX, 0, 0, 1, 1, 0.0)) return 1;
    if (!hold("AA\7", "\12\36\7", "\11\0\100\234\7\7", "\4\0\100\234\7\7")) return 2;
    if (!is(combine(0, 0.5, 6), CODEC_FFI_COUNT, 0, 0, 0, 1, 0.0) || !untouched()) return 3;
    if (!is(combine(1, 0.5, 6), CODEC_FFI_RATE, 0, 0, 0, 0, 1.0) || !untouched()) return 4;
    if (!is(combine(1, 1.0, 5), CODEC_FFI_REFUSED, 12, 0, 0, 0, 0.0) || !untouched()) return 5;
    return 0;
}
