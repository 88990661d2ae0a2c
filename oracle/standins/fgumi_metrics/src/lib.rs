//! Stand-in for `fgumi_metrics`: the names of the central reasons.

pub mod rejection {
    pub enum RejectionReason {
        InsufficientSupport,
        ExcessiveNBases,
        MinorityAlignment,
        LowBaseQuality,
        NotPassingFilter,
        MissingUmi,
        NonPairedReads,
        NoValidAlignment,
        R1R2OverlapTooShort,
        IndelErrorBetweenStrands,
        ClipOverlapFailed,
        HighDuplexDisagreement,
        ZeroBasesPostTrimming,
        OrphanConsensus,
        DuplicateUmi,
        NotPrimaryFrPair,
        Downsampled,
        Dovetail,
    }
}
