//! Plain and extended CIGARs: the worked lists, each limit on both sides, and what a refusal leaves.

use codec_host::{CIGAR_ROOM, Refusal, extend_cigar, flatten_cigar};

/// The words of a CIGAR as SAM writes it.
fn words(cigar: &str) -> Vec<u32> {
    let mut words = Vec::new();
    let mut length = 0;
    for letter in cigar.chars() {
        if let Some(digit) = letter.to_digit(10) {
            length = length * 10 + digit;
        } else {
            let code = "MIDNSHP=X".find(letter).unwrap_or(15) as u32;
            words.push(length * 16 + code);
            length = 0;
        }
    }
    words
}

type Converted = Result<Vec<u32>, u32>;

/// What a call writes, the rest of its output looked at; or the refusal's number.
fn asked(room: usize, call: impl Fn(&mut [u32]) -> Result<usize, Refusal>) -> Converted {
    let before: Vec<u32> = (0..room as u32).map(|place| !place).collect();
    let mut output = before.clone();
    let answer = call(&mut output);
    let count = answer.unwrap_or(0);
    assert_eq!(output[count..], before[count..]);
    answer.map(|count| output[..count].to_vec()).map_err(|refusal| {
        assert_eq!(refusal.with, 0);
        refusal.number
    })
}

fn there(plain: &[u32], read: &[u8], reference: &[u8]) -> Converted {
    asked(CIGAR_ROOM, |output| extend_cigar(plain, read, reference, output))
}

fn back(extended: &[u32]) -> Converted {
    asked(CIGAR_ROOM, |output| flatten_cigar(extended, output))
}

#[test]
fn there_and_back() {
    for (plain, read, reference, extended, joined) in [
        ("3M3M", "ACGTTT", "ACGTTT", "3=3=", "6M"),
        ("3M3M", "ACGTTT", "ACATTT", "2=1X3=", "6M"),
        ("5M3I2D4M", "AAAAACCCGGGG", "AAAATTTGGGC", "4=1X3I2D3=1X", "5M3I2D4M"),
        (
            "2H3S4M2N1P2M1I3S2H",
            "tttACGTGTCggg",
            "ACCTnnGA",
            "2H3S2=1X1=2N1P1=1X1I3S2H",
            "2H3S4M2N1P2M1I3S2H",
        ),
        ("1M", "N", "N", "1=", "1M"),
        ("1M", "a", "A", "1X", "1M"),
        ("", "", "", "", ""),
    ] {
        let given = there(&words(plain), read.as_bytes(), reference.as_bytes());
        assert_eq!(given, Ok(words(extended)), "{plain}");
        assert_eq!(back(&words(extended)), Ok(words(joined)), "{extended}");
    }
}

#[test]
fn back_joins_m_alone() {
    assert_eq!(back(&words("1M1=1X2M")), Ok(words("5M")));
    assert_eq!(back(&words("1=1I1I1X")), Ok(words("1M1I1I1M")));
}

#[test]
fn the_most_words_there() {
    let read: Vec<u8> = b"AC".repeat(512);
    let list = |deletions: usize| [words("1D").repeat(deletions), words("1024M")].concat();
    let given = there(&list(63), &read, &[b'A'; 1_087]).expect("64 words");
    assert_eq!(given.len(), 1_087);
    assert_eq!(back(&given), Ok(list(63)));
    assert_eq!(there(&list(64), &read, &[b'A'; 1_088]), Err(25));
}

#[test]
fn refusal_24_asks_every_word() {
    for bad in ["1=", "1X"] {
        let list = [words("1D").repeat(64), words(bad)].concat();
        assert_eq!(there(&list, b"A", &[b'A'; 65]), Err(24));
        assert_eq!(back(&list).map(|given| given.len()), Ok(65));
    }
    for bad in ["0M", "1Q"] {
        let list = [words("1D").repeat(2_000), words(bad)].concat();
        assert_eq!(there(&list, b"", &[b'A'; 2_000]), Err(24));
        assert_eq!(back(&list), Err(24));
    }
}

#[test]
fn refusal_25_the_limits_of_the_list_given() {
    let read = [b'A'; 1_026];
    assert_eq!(there(&words("1024M"), &read[..1_024], &read[..1_024]), Ok(words("1024=")));
    assert_eq!(there(&words("1025M"), &read[..1_025], &read[..1_025]), Err(25));
    for (bases, under) in [(3, 4), (5, 4), (4, 3), (4, 5)] {
        assert_eq!(there(&words("4M"), &read[..bases], &read[..under]), Err(25));
    }
    assert_eq!(back(&words("1024=")), Ok(words("1024M")));
    assert_eq!(back(&words("1023=1X1I")), Err(25));
    assert_eq!(back(&words("1D").repeat(1_088)).map(|given| given.len()), Ok(1_088));
    assert_eq!(back(&words("1D").repeat(1_089)), Err(25));
}

#[test]
fn refusal_26_a_small_output() {
    let m = words("1M");
    let into = |room, read: &[u8]| asked(room, |output| extend_cigar(&m, read, b"A", output));
    assert_eq!(into(2_048, b"A"), Ok(words("1=")));
    assert_eq!(into(2_047, b"A"), Err(26));
    assert_eq!(into(2_047, b""), Err(25));
    assert_eq!(asked(2_047, |output| flatten_cigar(&m, output)), Err(26));
    assert_eq!(asked(5_000, |output| flatten_cigar(&m, output)), Ok(m.clone()));
}
