//! The ledger's rates.

use codec_host::{Ledger, Rates, Refusal};

fn of(duplex_bases: u64, disagreements: u64) -> Ledger {
    Ledger { duplex_bases, disagreements, ..Ledger::default() }
}

#[test]
fn a_fresh_ledger_has_no_rates() {
    assert_eq!(Ledger::default().rates(), Ok(Rates { filtered: 0, rate: 0.0, millionths: 0 }));
}

#[test]
fn filtered_is_the_sum_of_the_reasons() {
    let reasons = [1, 2, 4, 8, 16, 32, 64, 128, 256, 512];
    let ledger = Ledger { reasons, passed_over: 7, no_strand: 9, used: 11, ..Ledger::default() };
    assert_eq!(ledger.rates().map(|rates| rates.filtered), Ok(1_023));
    let most = Ledger { reasons: [1 << 41; 10], ..Ledger::default() };
    assert_eq!(most.rates().map(|rates| rates.filtered), Ok(10 << 41));
}

#[test]
fn millionths_are_rounded_down() {
    for (both, unequal, rate, millionths) in [
        (0, 0, 0.0, 0),
        (4, 1, 0.25, 250_000),
        (3, 1, 1.0 / 3.0, 333_333),
        (3, 2, 2.0 / 3.0, 666_666),
        (1_000_001, 1, 1.0 / 1_000_001.0, 0),
        (1_000_000, 1, 1e-6, 1),
        (1 << 41, 1 << 41, 1.0, 1_000_000),
        (1 << 41, (1 << 41) - 1, 1.0 - 0.5f64.powi(41), 999_999),
        (1, 1 << 41, 0.5f64.powi(-41), 1_000_000 << 41),
    ] {
        let rates = of(both, unequal).rates().expect("within the limits");
        assert_eq!((rates.rate, rates.millionths), (rate, millionths), "{unequal} of {both}");
    }
}

#[test]
fn refusal_10_and_no_other() {
    let refused = Err(Refusal { number: 10, with: 0 });
    let families = |families| Ledger { families, ..Ledger::default() };
    assert!(families(1 << 28).rates().is_ok());
    assert_eq!(families((1 << 28) + 1).rates(), refused);
    for count in 1..20 {
        let with = |figure| {
            let mut counts = [0; 20];
            counts[count] = figure;
            Ledger::from(counts)
        };
        assert!(with(1 << 41).rates().is_ok(), "{count}");
        assert_eq!(with((1 << 41) + 1).rates(), refused, "{count}");
        assert_eq!(with(u64::MAX).rates(), refused, "{count}");
    }
}

#[test]
fn counts_stand_in_the_order_of_the_fields() {
    let counts: [u64; 20] = std::array::from_fn(|at| at as u64 + 100);
    let ledger = Ledger::from(counts);
    assert_eq!(ledger.counts(), counts);
    assert_eq!((ledger.families, ledger.records, ledger.reasons[0]), (100, 101, 102));
    assert_eq!((ledger.reasons[9], ledger.passed_over, ledger.no_strand), (111, 112, 113));
    assert_eq!((ledger.used, ledger.disagreement_rejected, ledger.duplexes), (114, 115, 116));
    assert_eq!((ledger.bases, ledger.duplex_bases, ledger.disagreements), (117, 118, 119));
    assert_eq!(size_of::<Ledger>(), 20 * 8);
}
