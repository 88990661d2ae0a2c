/* Calls selection alone from C: case F1, an empty family, a refusal. Ends in 0 if every answer is right. */
#include "codec_ffi.h"

/* 10M */
static const uint32_t ops[] = {160};

static const struct codec_ffi_record f1[] = {
    {.flags = 65, .name = 7, .verdict = true, .rank = -1, .clipped = 10, .position = 100, .start = 0, .count = 1},
    {.flags = 145, .name = 7, .verdict = true, .rank = 3, .clipped = 10, .position = 105, .start = 0, .count = 1},
};

static struct codec_ffi_select_answer family(size_t records, uint64_t min_duplex_length) {
    struct codec_ffi_options options = {
        .min_reads_per_strand = 1,
        .min_duplex_length = min_duplex_length,
        .max_duplex_disagreements = UINT64_MAX,
        .max_duplex_disagreement_rate = 1.0,
    };
    return codec_ffi_select(f1, records, ops, 1, options);
}

static int is(struct codec_ffi_select_decision decision, uint32_t kind, uint32_t number, uint64_t with) {
    return decision.kind == kind && decision.number == number && decision.with == with;
}

static int marks(struct codec_ffi_select_answer answer, uint64_t r1, uint64_t r2) {
    for (int word = 1; word < 8; word++)
        if (answer.r1[word] || answer.r2[word]) return 0;
    return answer.r1[0] == r1 && answer.r2[0] == r2;
}

static int has(struct codec_ffi_select_decision decision, uint64_t start, uint64_t end, uint64_t length, bool r1_is_negative,
               bool r2_is_negative) {
    return decision.start == start && decision.end == end && decision.length == length &&
           decision.r1_is_negative == r1_is_negative && decision.r2_is_negative == r2_is_negative;
}

int main(void) {
    struct codec_ffi_select_answer kept = family(2, 5), rejected = family(2, 6), empty = family(1, 5), refused = family(2, UINT64_MAX);
    if (!is(kept.decision, CODEC_FFI_SELECT_KEPT, 0, 0) || !has(kept.decision, 105, 109, 15, false, true)) return 1;
    if (!marks(kept, 1, 2)) return 2;
    if (!is(rejected.decision, CODEC_FFI_SELECT_REJECTED, 6, 0) || !has(rejected.decision, 0, 0, 0, false, false)) return 3;
    if (!is(empty.decision, CODEC_FFI_SELECT_EMPTY, 0, 0) || !marks(empty, 0, 0)) return 4;
    if (!is(refused.decision, CODEC_FFI_SELECT_REFUSED, 1, 0) || !marks(refused, 0, 0)) return 5;
    return 0;
}
