//! A partner's table beside ours: every field, the order of the questions, the limits of lines.

use codec_host::{Check, Table, check_table};

const OURS: &str = "BA QA DA EA BB QB DB EB\nA 30 5 1 C 20 4 1\nA 30 5 1 A 20 4 0\n";
const NAMES: &str = "BASE QUAL DEPTH ERR\n";

/// Our table beside these lines below the names.
fn beside(lines: &str) -> Check {
    check_table(OURS.as_bytes(), format!("{NAMES}{lines}").as_bytes())
}

fn malformed(table: Table, line: u64) -> Check {
    Check::Malformed { table, line }
}

#[test]
fn accepts_what_the_rules_give() {
    assert_eq!(beside("A 10 9 4\nA 50 9 1\n"), Check::Accepted);
    assert_eq!(check_table(b"BA QA DA EA BB QB DB EB\n", NAMES.as_bytes()), Check::Accepted);
}

#[test]
fn names_the_first_wrong_field_of_the_first_wrong_line() {
    for (line, field) in
        [("C 50 9 2", 1), ("A 51 8 2", 2), ("A 50 8 2", 3), ("A 50 9 2", 4), ("n 50 9 1", 1)]
    {
        assert_eq!(
            beside(&format!("A 10 9 4\n{line}\n")),
            Check::Wrong { line: 3, field },
            "{line}"
        );
    }
    assert_eq!(beside("A 10 9 3\nC 50 9 1\n"), Check::Wrong { line: 2, field: 4 });
}

#[test]
fn refusal_27_goes_before_a_wrong_line_and_ours_before_theirs() {
    assert_eq!(beside("C 1 1 1\nA 050 9 1\n"), malformed(Table::Theirs, 3));
    assert_eq!(check_table(format!("{OURS}A\n").as_bytes(), b"x"), malformed(Table::Ours, 4));
    assert_eq!(check_table(b"", b""), malformed(Table::Ours, 1));
    assert_eq!(check_table(OURS.as_bytes(), b""), malformed(Table::Theirs, 1));
    assert_eq!(check_table(OURS.as_bytes(), &[0, 255, b'\n']), malformed(Table::Theirs, 1));
}

#[test]
fn refusal_28_unequal_numbers_of_lines() {
    assert_eq!(beside("A 10 9 4\nA 50 9 1\nA 1 1 1\n"), Check::UnequalLines);
    assert_eq!(beside("C 1 1 1\n"), Check::UnequalLines);
}

#[test]
fn at_most_2_048_positions() {
    let ours = |n| format!("BA QA DA EA BB QB DB EB\n{}", "n 0 0 0 n 0 0 0\n".repeat(n));
    let theirs = |n| format!("{NAMES}{}", "N 2 0 0\n".repeat(n));
    let check = |a: usize, b: usize| check_table(ours(a).as_bytes(), theirs(b).as_bytes());
    assert_eq!(check(2048, 2048), Check::Accepted);
    assert_eq!(check(2049, 2049), malformed(Table::Ours, 2050));
    assert_eq!(check(2048, 100_000), malformed(Table::Theirs, 2050));
}
