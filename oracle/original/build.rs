//! Puts the original text into the build folder: whole files, a few items, marked trace lines.

use std::path::{Path, PathBuf};
use std::{env, fs};

/// Ends every line that is not the original's.
const MARK: &str = "// oracle trace";

/// Function looked in, how a statement of one line in it begins, and what is traced behind it.
const TRACES: [(&str, &str, &str); 4] = [
    ("fn reject_records_at(", "count +=", "crate::trace::rejected(index, reason);"),
    (
        "fn cap_infos_to_lowest_ranking(",
        "let keep =",
        "crate::trace::capped(infos.iter().map(|info| info.raw_idx), &keep);",
    ),
    (
        "fn consensus_reads_raw(",
        "let r2_is_negative =",
        "trace_selected(&r1_infos, &r2_infos, (overlap_start, overlap_end), consensus_length, r1_is_negative);",
    ),
    (
        "fn consensus_reads_raw(",
        "let mut output =",
        "trace_columns([&consensus, &ss_for_ac, &ss_for_bc]);",
    ),
];

/// First lines of the items taken out of `vanilla_caller.rs`; each ends at its closing line.
const ITEMS: [&str; 6] = [
    "pub(crate) type IndexedSourceRead",
    "type CigarGroup",
    "pub(crate) fn select_most_common_alignment_group",
    "pub(crate) struct SourceRead {",
    "pub struct VanillaConsensusRead {",
    "pub struct VanillaUmiConsensusOptions {",
];

fn main() {
    let here = PathBuf::from(env::var_os("CARGO_MANIFEST_DIR").expect("set by cargo"));
    let out = PathBuf::from(env::var_os("OUT_DIR").expect("set by cargo"));
    let from = env::var_os("FGUMI_SRC")
        .map_or_else(|| here.join("../../../shared/docs/src"), PathBuf::from);
    println!("cargo::rerun-if-env-changed=FGUMI_SRC");
    println!("cargo::rerun-if-changed=build.rs");
    for module in ["caller", "phred", "source_window"] {
        write_module(&out, module, &read_original(&from, module));
    }
    let codec = read_original(&from, "codec_caller");
    write_module(&out, "codec_caller", &traced(&codec, &here.join("src/bridge.rs")));
    let vanilla = read_original(&from, "vanilla_caller");
    write_module(&out, "vanilla_caller", &items(&vanilla, &here.join("src/single_strand.rs")));
}

fn read_original(from: &Path, module: &str) -> String {
    let path = from.join(format!("src--crates--fgumi-consensus--src--{module}.rs.txt"));
    println!("cargo::rerun-if-changed={}", path.display());
    fs::read_to_string(&path).unwrap_or_else(|e| {
        panic!("{}: {e}; name the folder of the original source in FGUMI_SRC", path.display())
    })
}

/// The module's text, and beside it the line that declares it by its full path.
fn write_module(out: &Path, module: &str, text: &str) {
    let file = out.join(format!("{module}.rs"));
    fs::write(&file, text).expect("the build folder can be written");
    let declaration = format!("#[path = {file:?}]\npub mod {module};\n");
    fs::write(out.join(format!("{module}.mod.rs")), declaration).expect("as above");
}

/// The original with the trace lines, and our bridge as its last line.
fn traced(original: &str, bridge: &Path) -> String {
    assert!(!original.contains(MARK), "the mark must not be in the original");
    let mut lines: Vec<String> = original.split_inclusive('\n').map(str::to_string).collect();
    for (function, statement, code) in TRACES {
        let start = position(&lines, 0, function);
        let at = position(&lines, start, statement);
        assert!(lines[at].trim_end().ends_with(';'), "not on one line: {statement}");
        lines.insert(at + 1, format!("{code} {MARK}\n"));
    }
    lines.push(format!("include!({bridge:?}); {MARK}\n"));
    let unmarked: String =
        lines.iter().filter(|line| !line.trim_end().ends_with(MARK)).map(String::as_str).collect();
    assert!(unmarked == original, "without the trace lines this is not the original");
    lines.concat()
}

fn position(lines: &[String], from: usize, beginning: &str) -> usize {
    let found = lines[from..].iter().position(|line| line.trim_start().starts_with(beginning));
    from + found.unwrap_or_else(|| panic!("not in the original: {beginning}"))
}

/// The wanted items, each with the attributes above it, and our single-strand caller last.
fn items(original: &str, single_strand: &Path) -> String {
    let lines: Vec<&str> = original.split_inclusive('\n').collect();
    let mut text = String::new();
    for first in ITEMS {
        let item = item(&lines, first);
        assert!(original.contains(&item), "not the original's text: {first}");
        text.push_str(&item);
    }
    text + &format!("include!({single_strand:?});\n")
}

fn item(lines: &[&str], first: &str) -> String {
    let at = lines
        .iter()
        .position(|line| line.starts_with(first))
        .unwrap_or_else(|| panic!("not in the original: {first}"));
    let above = lines[..at].iter().rev().take_while(|line| line.starts_with("#[")).count();
    let length = match lines[at].trim_end().ends_with(';') {
        true => 1,
        false => {
            2 + lines[at + 1..].iter().position(|line| line.trim_end() == "}").expect("an end")
        }
    };
    lines[at - above..at + length].concat()
}
