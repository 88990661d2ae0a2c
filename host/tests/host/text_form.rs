//! What `combine-columns` reads and writes.

use codec_host::{Answer, text};

const P2: &str = "C 1 0 4607182418800017408\nB 65\nQ 30\nD 5\nE 1\nB 67\nQ 20\nD 4\nE 1\n";

#[test]
fn a_pair_is_written_as_it_is_read() {
    let pairs = text::read(P2).expect("the form");
    assert_eq!(pairs.len(), 1);
    assert_eq!(pairs[0].to_string(), P2);
    assert_eq!(pairs[0].combine().0, Answer::DisagreementCount(1));
}

#[test]
fn columns_may_be_empty() {
    let empty = "C 0 0 0\nB\nQ\nD\nE\nB\nQ\nD\nE\n";
    assert_eq!(text::read(empty).expect("the form")[0].to_string(), empty);
    assert!(text::read("").expect("no pair").is_empty());
}

#[test]
fn a_wrong_line_is_named() {
    let wrong = [("D 4", "D 65536"), ("Q 20", "R 20"), ("E 1\n", ""), ("C 1 0", "C 0")];
    for ((from, to), line) in wrong.into_iter().zip([8, 7, 5, 1]) {
        let error = text::read(&P2.replacen(from, to, 1)).expect_err(to);
        assert!(error.starts_with(&format!("line {line}: ")), "{error}");
    }
}
