/*
 * Calls one family of sample 7 from C and prints its duplex, the rejected records with their reasons, the run's figures, and the
 * sheet of the samples:
 *
 *     cc -Iinclude examples/family.c ../target/staticlib/libcodec_ffi.a -o family && ./family
 */
#include "codec_ffi.h"
#include <inttypes.h>
#include <stdio.h>
#include <stdlib.h>

enum { POSITIONS = 2048, LISTED = 512, MARKS = 8, SHEET = 16384 };

/* Four columns of room. */
struct columns {
    uint8_t bases[POSITIONS], quals[POSITIONS];
    uint16_t depths[POSITIONS], errors[POSITIONS];
};

/* Lent again at each call. */
static struct columns duplex, r1, r2;
static uint32_t listed[LISTED];
static uint8_t reasons[LISTED];
static uint64_t marks[MARKS];
static uint8_t sheet[SHEET];

/* Fresh: all counts 0. */
static struct codec_ffi_samples samples;

/* 10M, and 4M 2D 6M */
static const uint32_t ops[] = {10 << 4 | 0, 4 << 4 | 0, 2 << 4 | 2, 6 << 4 | 0};

/* Three pairs: the third one's R1 has a deletion, and its R2 the highest rank. Last, a read without a mate. */
static const struct codec_ffi_record records[] = {
    {.flags = 65, .name = 0, .verdict = true, .rank = 5, .clipped = 10, .position = 100, .start = 0, .count = 1},
    {.flags = 145, .name = 0, .verdict = true, .rank = 5, .clipped = 10, .position = 105, .start = 0, .count = 1},
    {.flags = 65, .name = 1, .verdict = true, .rank = 6, .clipped = 10, .position = 100, .start = 0, .count = 1},
    {.flags = 145, .name = 1, .verdict = true, .rank = 6, .clipped = 10, .position = 105, .start = 0, .count = 1},
    {.flags = 65, .name = 2, .verdict = true, .rank = 7, .clipped = 10, .position = 100, .start = 1, .count = 3},
    {.flags = 145, .name = 2, .verdict = true, .rank = 7, .clipped = 10, .position = 105, .start = 0, .count = 1},
    {.flags = 0, .name = 3, .verdict = true, .rank = 0, .clipped = 10, .position = 100, .start = 0, .count = 1},
};

/* The strands that the caller has built of each side's reads, R2's as it was read. */
static const uint8_t r1_bases[] = "ACGTACGTAC", r2_bases[] = "TTTTTGTACG";
static const uint8_t quals[10] = {30, 30, 30, 30, 30, 30, 30, 30, 30, 30};
static const uint16_t depths[10] = {2, 2, 2, 2, 2, 2, 2, 2, 2, 2}, errors[10] = {0};

int main(void) {
    struct codec_ffi_options options = {
        .min_reads_per_strand = 1,
        .has_max_reads_per_strand = true,
        .max_reads_per_strand = 2,
        .min_duplex_length = 1,
        .max_duplex_disagreements = UINT64_MAX,
        .max_duplex_disagreement_rate = 1.0,
    };
    struct codec_ffi_ledger ledger = {0};
    struct codec_ffi_family_answer answer = codec_ffi_family(
        records, sizeof records / sizeof *records, ops, sizeof ops / sizeof *ops, options,
        true, r1_bases, 10, quals, 10, depths, 10, errors, 10,
        true, r2_bases, 10, quals, 10, depths, 10, errors, 10,
        ledger, 7, &samples,
        duplex.bases, POSITIONS, duplex.quals, POSITIONS, duplex.depths, POSITIONS, duplex.errors, POSITIONS,
        r1.bases, POSITIONS, r1.quals, POSITIONS, r1.depths, POSITIONS, r1.errors, POSITIONS,
        r2.bases, POSITIONS, r2.quals, POSITIONS, r2.depths, POSITIONS, r2.errors, POSITIONS,
        listed, LISTED, reasons, LISTED, marks, MARKS);
    ledger = answer.ledger;

    switch (answer.ending.kind) {
    case CODEC_FFI_FAMILY_CALLED:
        printf("called %" PRIu64 "\n", answer.ending.length);
        printf("duplex %.*s\n", (int)answer.ending.length, (const char *)duplex.bases);
        printf("R1     %.*s\n", (int)answer.ending.length, (const char *)r1.bases);
        printf("R2     %.*s\n", (int)answer.ending.length, (const char *)r2.bases);
        break;
    case CODEC_FFI_FAMILY_EMPTY: puts("empty"); break;
    case CODEC_FFI_FAMILY_NO_STRAND: puts("no strand"); break;
    case CODEC_FFI_FAMILY_REJECTED: printf("rejected %" PRIu32 "\n", answer.ending.number); break;
    default: printf("refused %" PRIu32 " %" PRIu64 "\n", answer.ending.number, answer.ending.with); return EXIT_FAILURE;
    }
    for (uint64_t place = 0; place < answer.listed; place++)
        printf("record %" PRIu32 " rejected for %d%s\n", listed[place], reasons[place],
               marks[listed[place] / 64] >> listed[place] % 64 & 1 ? "" : ", not marked");
    struct codec_ffi_rates_answer rates = codec_ffi_rates(ledger);
    printf("%" PRIu64 " of %" PRIu64 " records filtered, %" PRIu64 " of %" PRIu64 " duplex bases disagree: %" PRIu64 " millionths\n",
           rates.filtered, ledger.records, ledger.disagreements, ledger.duplex_bases, rates.millionths);
    struct codec_ffi_sheet_answer written = codec_ffi_sheet(&samples, sheet, SHEET);
    if (written.number != 0) return EXIT_FAILURE;
    fwrite(sheet, 1, written.length, stdout);
    return EXIT_SUCCESS;
}
