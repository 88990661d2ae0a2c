/* Calls a family from C in each of its endings, and the ledger's rates. Ends in 0 if every answer is right. */
#include "codec_ffi.h"
#include <string.h>

enum { POSITIONS = 2048, LISTED = 512, MARKS = 8 };

/* 10M */
static const uint32_t ops[] = {160};

static const struct codec_ffi_record f1[] = {
    {.flags = 65, .name = 7, .verdict = true, .rank = -1, .clipped = 10, .position = 100, .start = 0, .count = 1},
    {.flags = 145, .name = 7, .verdict = true, .rank = 3, .clipped = 10, .position = 105, .start = 0, .count = 1},
};

static const uint8_t bases[] = "ACGTACGTAC", quals[10] = {30, 30, 30, 30, 30, 30, 30, 30, 30, 30};
static const uint16_t depths[10] = {2, 2, 2, 2, 2, 2, 2, 2, 2, 2}, errors[10] = {0};

static struct columns {
    uint8_t bases[POSITIONS], quals[POSITIONS];
    uint16_t depths[POSITIONS], errors[POSITIONS];
} d, s1, s2, blank;
static uint32_t listed[LISTED];
static uint8_t reasons[LISTED];
static uint64_t marks[MARKS];
static struct codec_ffi_ledger ledger;
static struct codec_ffi_samples samples;
static uint32_t sample = 95;

/* An absent R1 lends columns that no present strand may have; they are not read. */
static struct codec_ffi_family_answer family(size_t records, uint64_t min_duplex_length, bool has_r1, size_t marks_len) {
    struct codec_ffi_options options = {
        .min_reads_per_strand = 1,
        .min_duplex_length = min_duplex_length,
        .max_duplex_disagreements = UINT64_MAX,
        .max_duplex_disagreement_rate = 1.0,
    };
    const uint8_t *r1_bases = has_r1 ? bases : (const uint8_t *)"??";
    size_t r1_len = has_r1 ? 10 : 2;
    struct codec_ffi_family_answer answer = codec_ffi_family(
        f1, records, ops, 1, options,
        has_r1, r1_bases, r1_len, quals, 10, depths, 10, errors, 10,
        true, bases, 10, quals, 10, depths, 10, errors, 10,
        ledger, sample, &samples,
        d.bases, POSITIONS, d.quals, POSITIONS, d.depths, POSITIONS, d.errors, POSITIONS,
        s1.bases, POSITIONS, s1.quals, POSITIONS, s1.depths, POSITIONS, s1.errors, POSITIONS,
        s2.bases, POSITIONS, s2.quals, POSITIONS, s2.depths, POSITIONS, s2.errors, POSITIONS,
        listed, LISTED, reasons, LISTED, marks, marks_len);
    ledger = answer.ledger;
    return answer;
}

static int is(struct codec_ffi_family_answer answer, uint32_t kind, uint32_t number, uint64_t length, uint64_t listed_records) {
    struct codec_ffi_family_ending ending = answer.ending;
    return ending.kind == kind && ending.number == number && ending.with == 0 && ending.length == length &&
           answer.listed == listed_records;
}

static int columns_blank(void) {
    return !memcmp(&d, &blank, sizeof d) && !memcmp(&s1, &blank, sizeof s1) && !memcmp(&s2, &blank, sizeof s2);
}

int main(void) {
    if (!is(family(2, 5, true, MARKS - 1), CODEC_FFI_FAMILY_REFUSED, 9, 0, 0) || ledger.families != 0) return 1;
    if (!is(family(2, 6, true, MARKS), CODEC_FFI_FAMILY_REJECTED, CODEC_FFI_INSUFFICIENT_OVERLAP, 0, 2)) return 2;
    if (marks[0] != 3 || reasons[0] != 6 || reasons[1] != 6 || listed[0] + listed[1] != 1) return 3;
    if (!is(family(1, 5, true, MARKS), CODEC_FFI_FAMILY_EMPTY, 0, 0, 1) || marks[0] != 1 || reasons[0] != 2) return 4;
    if (!is(family(2, 5, false, MARKS), CODEC_FFI_FAMILY_NO_STRAND, 0, 0, 0) || marks[0] != 0) return 5;
    if (!columns_blank()) return 6;
    if (!is(family(2, 5, true, MARKS), CODEC_FFI_FAMILY_CALLED, 0, 15, 0)) return 7;
    if (memcmp(s1.bases, "ACGTACGTACnnnnn", 16) || memcmp(s2.bases, "nnnnnGTACGTACGT", 16)) return 8;
    if (memcmp(d.bases, "ACGTANNNNNTACGT", 16) || d.quals[4] != 30 || d.depths[5] != 4 || d.errors[5] != 2) return 9;
    if (ledger.families != 4 || ledger.records != 7 || ledger.used != 2 || ledger.no_strand != 2) return 10;
    if (memcmp(&samples.ledgers[95], &ledger, sizeof ledger)) return 11;
    sample = 96;
    struct codec_ffi_samples before = samples;
    if (!is(family(2, UINT64_MAX, true, MARKS), CODEC_FFI_FAMILY_REFUSED, 20, 0, 0) || memcmp(&before, &samples, sizeof samples)) return 12;
    struct codec_ffi_rates_answer rates = codec_ffi_rates(ledger);
    if (rates.kind != CODEC_FFI_RATES_FIGURES || rates.filtered != 3 || rates.rate != 1.0 || rates.millionths != 1000000) return 13;
    ledger.families = UINT64_MAX;
    rates = codec_ffi_rates(ledger);
    if (rates.kind != CODEC_FFI_RATES_REFUSED || rates.number != 10 || rates.with != 0 || rates.filtered != 0) return 14;
    return 0;
}
