/*
 * Holds the exported calls against htslib: htslib SEED CIGARS. Through selection alone: of random operations the read and
 * reference length, of an alignment each read position, of random flags pairing, side and orientation. Of both conversions of CIGARs
 * the lengths of what they are given and what they give. Ends in 1 at the first difference.
 *
 * A second read of one base, 1M at a place q, makes the window q to q, so that the length answered is the first read's position at q.
 */
#include "codec_ffi.h"
#include <htslib/sam.h>
#include <stdio.h>
#include <stdlib.h>
#include <string.h>

enum { MOST = 24, PLACE = 1000, INSUFFICIENT_OVERLAP = 6, INDEL = 7 };

static uint64_t state;

static uint64_t draw(uint64_t below) {
    state += 0x9e3779b97f4a7c15;
    uint64_t z = state;
    z = (z ^ (z >> 30)) * 0xbf58476d1ce4e5b9;
    z = (z ^ (z >> 27)) * 0x94d049bb133111eb;
    return (z ^ (z >> 31)) % below;
}

static void differs(const char *what, const uint32_t *ops, int count, long expected, long found) {
    printf("htslib: %s of", what);
    for (int i = 0; i < count; i++) printf(" %u%c", bam_cigar_oplen(ops[i]), bam_cigar_opchr(ops[i]));
    printf(": htslib %ld, here %ld\n", expected, found);
    exit(1);
}

static struct codec_ffi_select_answer select_pair(const uint32_t *ops, int count, const struct codec_ffi_record pair[2]) {
    const struct codec_ffi_options options = {
        .min_reads_per_strand = 1,
        .min_duplex_length = 1,
        .max_duplex_disagreements = UINT64_MAX,
        .max_duplex_disagreement_rate = 1.0,
    };
    return codec_ffi_select(pair, 2, ops, (size_t)count, options);
}

/* A forward read of all operations but the last, which is the reverse read's 1M at the place given. */
static struct codec_ffi_select_decision beside(const uint32_t *ops, int count, int64_t clipped, int64_t place) {
    const struct codec_ffi_record pair[2] = {
        {.flags = BAM_FPAIRED | BAM_FREAD1, .verdict = true, .clipped = (uint32_t)clipped, .position = PLACE, .start = 0, .count = (uint32_t)count},
        {.flags = BAM_FPAIRED | BAM_FREAD2 | BAM_FREVERSE, .verdict = true, .clipped = 1, .position = (uint32_t)place, .start = (uint32_t)count, .count = 1},
    };
    return select_pair(ops, count + 1, pair).decision;
}

static void lengths(const uint32_t *ops, int count) {
    const int64_t read = bam_cigar2qlen(count, ops), reference = bam_cigar2rlen(count, ops);
    const int64_t end = PLACE + (reference ? reference : 1);
    const struct codec_ffi_select_decision right = beside(ops, count, read, end - 1), more = beside(ops, count, read + 1, end - 1);
    const struct codec_ffi_select_decision past = beside(ops, count, read, end);
    if (right.kind == CODEC_FFI_SELECT_REFUSED) differs("read length", ops, count, read, -(long)right.number);
    if (more.kind != CODEC_FFI_SELECT_REFUSED || more.number != 5) differs("read length", ops, count, read, read + 1);
    if (right.number == INSUFFICIENT_OVERLAP) differs("reference length", ops, count, reference, reference - 1);
    if (past.number != INSUFFICIENT_OVERLAP) differs("reference length", ops, count, reference, reference + 1);
}

static int one_record(void *data, bam1_t *record) {
    bam1_t **left = data;
    if (!*left) return -1;
    if (!bam_copy1(record, *left)) abort();
    *left = NULL;
    return 0;
}

/* Each place of the alignment, as a pileup of this one read has it. */
static void positions(const uint32_t *ops, int count) {
    static char bases[1100], quals[1100];
    const int64_t read = bam_cigar2qlen(count, ops);
    bam1_t *record = bam_init1(), *left = record;
    memset(bases, 'A', sizeof bases);
    if (bam_set1(record, 1, "r", BAM_FPAIRED | BAM_FREAD1, 0, PLACE - 1, 60, (size_t)count, ops, -1, -1, 0, (size_t)read, bases, quals, 0) < 0) abort();
    bam_plp_t pileup = bam_plp_init(one_record, &left);
    const bam_pileup1_t *piled;
    int reference, place, depth;
    while ((piled = bam_plp_auto(pileup, &reference, &place, &depth))) {
        const long expected = piled->is_del || piled->is_refskip ? 0 : piled->qpos + 1;
        const struct codec_ffi_select_decision here = beside(ops, count, read, place + 1);
        const long found = here.kind == CODEC_FFI_SELECT_KEPT ? (long)here.length : here.number == INDEL ? 0 : -1;
        if (found != expected) differs("read position", ops, count, expected, found);
    }
    bam_plp_destroy(pileup);
    bam_destroy1(record);
}

static void flags(void) {
    static const uint32_t ops[] = {160};
    uint16_t own[2];
    for (int i = 0; i < 2; i++) {
        own[i] = (uint16_t)draw(65536);
        if (draw(4)) own[i] = (uint16_t)((own[i] | BAM_FPAIRED) & ~(BAM_FSECONDARY | BAM_FSUPPLEMENTARY));
    }
    const struct codec_ffi_record pair[2] = {
        {.flags = own[0], .verdict = true, .clipped = 10, .position = PLACE, .count = 1},
        {.flags = own[1], .verdict = true, .clipped = 10, .position = PLACE, .count = 1},
    };
    const struct codec_ffi_select_answer answer = select_pair(ops, 1, pair);
    const bool entered = own[0] & own[1] & BAM_FPAIRED && !((own[0] | own[1]) & (BAM_FSECONDARY | BAM_FSUPPLEMENTARY));
    const int r1 = own[0] & BAM_FREAD1 ? 0 : 1;
    const bool right = entered ? answer.decision.kind == CODEC_FFI_SELECT_KEPT && answer.r1[0] == 1u << r1 && answer.r2[0] == 2u >> r1 &&
                                     answer.decision.r1_is_negative == !!(own[r1] & BAM_FREVERSE) && answer.decision.r2_is_negative == !!(own[1 - r1] & BAM_FREVERSE)
                               : answer.decision.kind == CODEC_FFI_SELECT_EMPTY;
    if (!right) {
        printf("htslib: flags %d and %d: kind %u\n", own[0], own[1], answer.decision.kind);
        exit(1);
    }
}

static uint32_t operation(const char *kinds) {
    return bam_cigar_gen((uint32_t)(1 + draw(12)), (uint32_t)(strchr(BAM_CIGAR_STR, kinds[draw(strlen(kinds))]) - BAM_CIGAR_STR));
}

/* Any operations of these kinds, in any order. */
static int any(const char *kinds, uint32_t *ops) {
    const int count = (int)(1 + draw(MOST));
    for (int i = 0; i < count; i++) ops[i] = operation(kinds);
    return count;
}

/* There and back keeps the read and the reference length, whatever the bases. */
static void conversions(const uint32_t *ops, int count) {
    static uint8_t read[1024], reference[1024];
    static uint32_t extended[2048], plain[2048];
    const int64_t bases = bam_cigar2qlen(count, ops), under = bam_cigar2rlen(count, ops);
    for (int i = 0; i < 1024; i++) read[i] = "ACGT"[draw(4)], reference[i] = "ACGT"[draw(4)];
    const struct codec_ffi_cigar_answer there = codec_ffi_extend_cigar(ops, (size_t)count, read, (size_t)bases, reference, (size_t)under, extended, 2048);
    if (there.kind != CODEC_FFI_CIGAR_WRITTEN) differs("extended list", ops, count, 0, -(long)there.number);
    const struct codec_ffi_cigar_answer back = codec_ffi_flatten_cigar(extended, there.count, plain, 2048);
    if (back.kind != CODEC_FFI_CIGAR_WRITTEN) differs("plain list", ops, count, 0, -(long)back.number);
    const uint32_t *lists[] = {extended, plain};
    const int counts[] = {(int)there.count, (int)back.count};
    for (int i = 0; i < 2; i++) {
        if (bam_cigar2qlen(counts[i], lists[i]) != bases) differs("read length after conversion", ops, count, bases, bam_cigar2qlen(counts[i], lists[i]));
        if (bam_cigar2rlen(counts[i], lists[i]) != under) differs("reference length after conversion", ops, count, under, bam_cigar2rlen(counts[i], lists[i]));
    }
}

/* Clips at the ends, matches next to them, anything between. */
static int alignment(uint32_t *ops) {
    int count = 0;
    if (draw(3) == 0) ops[count++] = operation("H");
    if (draw(3) == 0) ops[count++] = operation("S");
    ops[count++] = operation("M=X");
    for (uint64_t more = draw(MOST / 2); more; more--) {
        ops[count++] = operation("MIDNP=X");
        ops[count++] = operation("M=X");
    }
    if (draw(3) == 0) ops[count++] = operation("S");
    if (draw(3) == 0) ops[count++] = operation("H");
    return count;
}

int main(int words, char **word) {
    const long cigars = words > 2 ? atol(word[2]) : 100000;
    uint32_t ops[2 * MOST];
    state = words > 1 ? strtoull(word[1], NULL, 10) : 1;
    for (long i = 0; i < cigars; i++) {
        int count = any("MIDNSHP=X", ops);
        ops[count] = bam_cigar_gen(1, BAM_CMATCH);
        lengths(ops, count);
        count = alignment(ops);
        ops[count] = bam_cigar_gen(1, BAM_CMATCH);
        positions(ops, count);
        flags();
        conversions(ops, any("MIDNSHP", ops));
    }
    printf("htslib %s: %ld random CIGARs, alignments, flags and conversions: no difference\n", hts_version(), cigars);
    return 0;
}
