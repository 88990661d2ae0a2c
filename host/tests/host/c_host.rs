//! The header and the static library serve a C program as well.

use std::path::Path;
use std::process::{Command, Output};

/// Builds a C program of this package and runs it.
fn run(source: &str) -> Output {
    let here = Path::new(env!("CARGO_MANIFEST_DIR"));
    let program = Path::new(env!("CARGO_TARGET_TMPDIR")).join(source.replace(['/', '.'], "-"));
    let built = Command::new("cc")
        .args(["-std=c11", "-O2", "-Wall", "-Wextra", "-Werror", "-I"])
        .arg(here.join("include"))
        .arg(here.join(source))
        .arg(env!("CODEC_FFI_ARCHIVE"))
        .arg("-o")
        .arg(&program)
        .status();
    assert!(built.expect("a C compiler").success(), "{source}");
    Command::new(&program).output().expect("the program starts")
}

fn runs(name: &str) {
    let ended = run(&format!("tests/host/{name}.c")).status;
    assert_eq!(ended.code(), Some(0), "the check of this number in {name}.c failed");
}

#[test]
fn a_c_program_gets_the_same_duplex() {
    runs("combine");
}

#[test]
fn a_c_program_gets_the_same_selection() {
    runs("select");
}

#[test]
fn a_c_program_gets_every_ending() {
    runs("family");
}

#[test]
fn a_c_program_writes_a_sheet() {
    runs("sheet");
}

#[test]
fn a_c_program_takes_turns() {
    runs("dispatch");
}

#[test]
fn a_c_program_converts_cigars() {
    runs("cigar");
}

#[test]
fn a_c_program_checks_a_table() {
    runs("partner");
}

#[test]
fn a_c_program_calls_a_family() {
    let output = run("examples/family.c");
    assert!(output.status.success());
    let expected = "called 15
duplex ACGTACGTACAAAAA
R1     ACGTACGTACnnnnn
R2     nnnnnCGTACAAAAA
record 4 rejected for 4
record 5 rejected for 5, not marked
record 6 rejected for 1
3 of 7 records filtered, 0 of 5 duplex bases disagree: 0 millionths
SAMPLE FAMILIES RECORDS FILTERED CALLED BASES DUPLEX DIFFER PPM
7 1 7 3 1 15 5 0 0
";
    assert_eq!(String::from_utf8_lossy(&output.stdout), expected);
}
