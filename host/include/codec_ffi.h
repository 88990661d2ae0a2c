/* The proved calls of a CODEC duplex caller, for C. Link target/staticlib/libcodec_ffi.a (x86-64 Linux). */
#ifndef CODEC_FFI_H
#define CODEC_FFI_H

#include <stdbool.h>
#include <stddef.h>
#include <stdint.h>

enum codec_ffi_kind {
    CODEC_FFI_DUPLEX = 0,  /* bases and disagreements: the only kind that writes into the results */
    CODEC_FFI_COUNT = 1,   /* disagreements: above the count limit */
    CODEC_FFI_RATE = 2,    /* rate: above the rate limit */
    CODEC_FFI_REFUSED = 3, /* refusal 12 with 0: the columns do not fit together */
};

/* Fields that do not belong to the kind are 0. */
struct codec_ffi_answer {
    uint32_t kind;
    uint32_t refusal;
    uint32_t with;
    uint32_t bases;
    uint32_t disagreements;
    double rate;
};

/*
 * Every length is in bytes. Depths and errors are byte pairs, low byte first. The eight columns of the strands a and b
 * have the same number of positions, at most 2,048, and the four results room for as many; what lies beyond stays as it
 * is. No pointer is null, also where its length is 0, and no result overlaps another column.
 */
struct codec_ffi_answer codec_ffi_combine(
    const uint8_t *a_bases, size_t a_bases_len,
    const uint8_t *a_quals, size_t a_quals_len,
    const uint8_t *a_depths, size_t a_depths_len,
    const uint8_t *a_errors, size_t a_errors_len,
    const uint8_t *b_bases, size_t b_bases_len,
    const uint8_t *b_quals, size_t b_quals_len,
    const uint8_t *b_depths, size_t b_depths_len,
    const uint8_t *b_errors, size_t b_errors_len,
    uint64_t max_disagreements, double max_rate,
    uint8_t *bases, size_t bases_len,
    uint8_t *quals, size_t quals_len,
    uint8_t *depths, size_t depths_len,
    uint8_t *errors, size_t errors_len);

struct codec_ffi_record {
    uint16_t flags;
    uint32_t name; /* equal for equal names */
    bool verdict;  /* the pair test's; only that of a name's earlier record counts */
    int32_t rank;
    uint32_t clipped;  /* the read's length after clipping */
    uint32_t position; /* its first reference base after clipping, from 1 */
    uint32_t start;    /* the record's part of the operation words */
    uint32_t count;
};

/* What is missing has 0 in its `has_` field. */
struct codec_ffi_options {
    uint64_t min_reads_per_strand;
    bool has_max_reads_per_strand;
    uint64_t max_reads_per_strand;
    uint64_t min_duplex_length;
    bool legacy_overlap_window;
    uint64_t outer_bases_length;
    bool has_outer_bases_qual;
    uint8_t outer_bases_qual;
    bool has_single_strand_qual;
    uint8_t single_strand_qual;
    uint64_t max_duplex_disagreements;
    double max_duplex_disagreement_rate;
};

enum codec_ffi_select_kind {
    CODEC_FFI_SELECT_KEPT = 0,     /* the window's ends, the length and which sides are negative, with the marks */
    CODEC_FFI_SELECT_EMPTY = 1,    /* no record entered a side */
    CODEC_FFI_SELECT_REJECTED = 2, /* the reason's number */
    CODEC_FFI_SELECT_REFUSED = 3,  /* the refusal's number, and with it a record or 0 */
};

/* Fields that do not belong to the kind are 0. */
struct codec_ffi_select_decision {
    uint32_t kind;
    uint32_t number;
    uint64_t with;
    uint64_t start;
    uint64_t end;
    uint64_t length;
    bool r1_is_negative;
    bool r2_is_negative;
};

/* The records of each side that stay: record i is bit i mod 64 of word i / 64. */
struct codec_ffi_select_answer {
    struct codec_ffi_select_decision decision;
    uint64_t r1[8];
    uint64_t r2[8];
};

/*
 * Selection alone: steps 1 to 7 of a family. Lengths are counts of records and of words. No pointer is null, also where
 * its length is 0, and each `bool` is 0 or 1.
 */
struct codec_ffi_select_answer codec_ffi_select(
    const struct codec_ffi_record *records, size_t records_len,
    const uint32_t *ops, size_t ops_len,
    struct codec_ffi_options options);

/* The counts of all calls so far, all 0 at first. A call takes a ledger and gives the next one. */
struct codec_ffi_ledger {
    uint64_t families;
    uint64_t records;
    uint64_t reasons[10]; /* records by reason, that with number n at n - 1 */
    uint64_t passed_over;
    uint64_t no_strand;
    uint64_t used;
    uint64_t disagreement_rejected; /* families */
    uint64_t duplexes;
    uint64_t bases;
    uint64_t duplex_bases; /* positions that both strands call */
    uint64_t disagreements;
};

enum codec_ffi_rates_kind {
    CODEC_FFI_RATES_FIGURES = 0, /* the rejected records, the rate of disagreements, and that in millionths, rounded down */
    CODEC_FFI_RATES_REFUSED = 1, /* refusal 10 with 0 */
};

/* Fields that do not belong to the kind are 0. */
struct codec_ffi_rates_answer {
    uint32_t kind;
    uint32_t number;
    uint64_t with;
    uint64_t filtered;
    double rate;
    uint64_t millionths;
};

struct codec_ffi_rates_answer codec_ffi_rates(struct codec_ffi_ledger ledger);

enum codec_ffi_reason {
    CODEC_FFI_FRAGMENT_READ = 1,
    CODEC_FFI_NOT_PRIMARY_FR_PAIR = 2,
    CODEC_FFI_INSUFFICIENT_READS = 3,
    CODEC_FFI_MINORITY_ALIGNMENT = 4,
    CODEC_FFI_DOWNSAMPLED = 5,
    CODEC_FFI_INSUFFICIENT_OVERLAP = 6,
    CODEC_FFI_INDEL_ERROR_BETWEEN_STRANDS = 7,
    CODEC_FFI_DOVETAIL = 8,
    CODEC_FFI_CLIP_OVERLAP_FAILED = 9,
    CODEC_FFI_HIGH_DUPLEX_DISAGREEMENT = 10,
};

enum codec_ffi_family_kind {
    CODEC_FFI_FAMILY_CALLED = 0,    /* the duplex's length: the only kind that writes into the twelve columns */
    CODEC_FFI_FAMILY_EMPTY = 1,     /* no record entered a side */
    CODEC_FFI_FAMILY_NO_STRAND = 2, /* a strand is absent */
    CODEC_FFI_FAMILY_REJECTED = 3,  /* the reason's number */
    CODEC_FFI_FAMILY_REFUSED = 4,   /* the refusal's number and what goes with it: nothing at all is written */
};

/* Fields that do not belong to the kind are 0. */
struct codec_ffi_family_ending {
    uint32_t kind;
    uint32_t number;
    uint64_t with;
    uint64_t length;
};

/* The ending, how many records are listed, and the run's ledger for the next call. */
struct codec_ffi_family_answer {
    struct codec_ffi_family_ending ending;
    uint64_t listed;
    struct codec_ffi_ledger ledger;
};

/* A ledger for each sample of a run, 0 to 95, all counts 0 at first. */
struct codec_ffi_samples {
    struct codec_ffi_ledger ledgers[96];
};

/*
 * A whole family, counted in the run's ledger and in that of its sample, the same in both; no other sample's is looked at or
 * touched. Refusals 1 to 11, and before them 20: the sample is above 95. Lengths are counts of elements; depths and errors are 16-bit numbers here. The columns of a strand that
 * is absent, its `has_` 0, are not read. Lent room: at least 2,048 places in each column of d (the duplex), s1 and s2 (R1's and
 * R2's strand under it), 512 in listed and reasons, 8 words in marks. The list gives each rejected record with its reason, by
 * rising record number. The answer fills the first places of each, what lies beyond stays as it is; after a refusal the samples
 * are as they were too. No pointer is null, also where its length is 0, nothing that is written overlaps anything else, and each
 * `bool` is 0 or 1.
 */
struct codec_ffi_family_answer codec_ffi_family(
    const struct codec_ffi_record *records, size_t records_len,
    const uint32_t *ops, size_t ops_len,
    struct codec_ffi_options options,
    bool has_r1,
    const uint8_t *r1_bases, size_t r1_bases_len,
    const uint8_t *r1_quals, size_t r1_quals_len,
    const uint16_t *r1_depths, size_t r1_depths_len,
    const uint16_t *r1_errors, size_t r1_errors_len,
    bool has_r2,
    const uint8_t *r2_bases, size_t r2_bases_len,
    const uint8_t *r2_quals, size_t r2_quals_len,
    const uint16_t *r2_depths, size_t r2_depths_len,
    const uint16_t *r2_errors, size_t r2_errors_len,
    struct codec_ffi_ledger ledger,
    uint32_t sample,
    struct codec_ffi_samples *samples,
    uint8_t *d_bases, size_t d_bases_len,
    uint8_t *d_quals, size_t d_quals_len,
    uint16_t *d_depths, size_t d_depths_len,
    uint16_t *d_errors, size_t d_errors_len,
    uint8_t *s1_bases, size_t s1_bases_len,
    uint8_t *s1_quals, size_t s1_quals_len,
    uint16_t *s1_depths, size_t s1_depths_len,
    uint16_t *s1_errors, size_t s1_errors_len,
    uint8_t *s2_bases, size_t s2_bases_len,
    uint8_t *s2_quals, size_t s2_quals_len,
    uint16_t *s2_depths, size_t s2_depths_len,
    uint16_t *s2_errors, size_t s2_errors_len,
    uint32_t *listed, size_t listed_len,
    uint8_t *reasons, size_t reasons_len,
    uint64_t *marks, size_t marks_len);

/* The text's length, or a refusal's number: 10 where a sample's counts are none that calls can have led to, 21 for a short buffer. */
struct codec_ffi_sheet_answer {
    uint32_t number; /* 0: written */
    uint64_t length;
};

/*
 * Writes the samples' sheet: a line of names, then one for each sample with a family. The buffer has at least 16,384 bytes, however
 * short the text; what lies beyond the text stays as it is, all of it after a refusal. No zero byte is put behind the text.
 */
struct codec_ffi_sheet_answer codec_ffi_sheet(const struct codec_ffi_samples *samples, uint8_t *out, size_t out_len);

/* How many families of each lane wait, and the lane served last. Each call gives the dispatcher for the next one. */
struct codec_ffi_dispatcher {
    uint16_t waiting[8];
    uint32_t last;
};

enum codec_ffi_dispatch_kind {
    CODEC_FFI_DISPATCH_ADDED = 0,
    CODEC_FFI_DISPATCH_SERVED = 1,  /* the lane whose family is next */
    CODEC_FFI_DISPATCH_IDLE = 2,    /* no lane waits */
    CODEC_FFI_DISPATCH_REFUSED = 3, /* refusal 22 or 23 with 0: the dispatcher is the one given */
};

/* Fields that do not belong to the kind are 0. */
struct codec_ffi_dispatch_answer {
    uint32_t kind;
    uint32_t lane;
    uint32_t number;
    uint64_t with;
    struct codec_ffi_dispatcher dispatcher;
};

/* No family waits, and lane 7 is the one served last. */
struct codec_ffi_dispatcher codec_ffi_fresh_dispatcher(void);

/* A family of the lane waits. 22: the lane, or the one served last, is above 7. 23: 65,535 families of it wait. */
struct codec_ffi_dispatch_answer codec_ffi_add(struct codec_ffi_dispatcher dispatcher, uint32_t lane);

/* The first waiting lane after the one served last, in a circle: its count is lowered, also if its family is then refused. */
struct codec_ffi_dispatch_answer codec_ffi_turn(struct codec_ffi_dispatcher dispatcher);

enum codec_ffi_cigar_kind {
    CODEC_FFI_CIGAR_WRITTEN = 0, /* the number of words written */
    CODEC_FFI_CIGAR_REFUSED = 1, /* refusal 24, 25 or 26 with 0: the output is as it was */
};

/* Fields that do not belong to the kind are 0. */
struct codec_ffi_cigar_answer {
    uint32_t kind;
    uint32_t number;
    uint64_t with;
    uint64_t count;
};

/*
 * M becomes = and X by the bases: at most 64 words, as many read bases (at most 1,024) and reference bases as they consume, an
 * output of 2,048 words or more. No pointer is null, also where its length is 0, and the output overlaps nothing.
 */
struct codec_ffi_cigar_answer codec_ffi_extend_cigar(
    const uint32_t *words, size_t words_len,
    const uint8_t *read, size_t read_len,
    const uint8_t *reference, size_t reference_len,
    uint32_t *output, size_t output_len);

/* = and X become M, and neighbouring M's join: at most 1,088 words of at most 1,024 read bases. */
struct codec_ffi_cigar_answer codec_ffi_flatten_cigar(
    const uint32_t *words, size_t words_len,
    uint32_t *output, size_t output_len);

enum codec_ffi_partner_kind {
    CODEC_FFI_PARTNER_ACCEPTED = 0,
    CODEC_FFI_PARTNER_WRONG = 1,   /* the first wrong line and its first wrong field: 1 base, 2 quality, 3 depth, 4 error */
    CODEC_FFI_PARTNER_REFUSED = 2, /* 27: the first malformed line and its table, 1 ours, 2 theirs. 28: unequal numbers of lines */
};

/* Lines count from 1, the line of the names. Fields that do not belong to the kind are 0. */
struct codec_ffi_partner_answer {
    uint32_t kind;
    uint32_t number;
    uint64_t line;
    uint32_t field;
    uint32_t table;
};

/* Whether their output table is what the position rules give for our input table. No pointer is null, also for length 0. */
struct codec_ffi_partner_answer codec_ffi_check_table(
    const uint8_t *ours, size_t ours_len,
    const uint8_t *theirs, size_t theirs_len);

#endif
