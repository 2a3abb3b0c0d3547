//! Plays the scripts beside this file; the output must be the expected one, byte for
//! byte.

use std::fs::{self, File};
use std::path::{Path, PathBuf};
use std::process::{Command, Output};

fn scripts() -> PathBuf {
    Path::new(env!("CARGO_MANIFEST_DIR")).join("tests/scripts")
}

fn oracle(arguments: &[&str], script: &Path) -> Output {
    Command::new(env!("CARGO_BIN_EXE_oracle"))
        .args(arguments)
        .stdin(File::open(script).unwrap())
        .output()
        .unwrap()
}

fn check(name: &str) {
    check_played(&[], name);
}

fn check_played(arguments: &[&str], name: &str) {
    let output = oracle(arguments, &scripts().join(name).with_extension("script"));
    let expected = scripts().join(name).with_extension("expected");
    assert!(output.status.success());
    assert_eq!(
        String::from_utf8(output.stdout).unwrap(),
        fs::read_to_string(expected).unwrap()
    );
}

/// Bulk OUT of 65 bytes at 64: begin's log, packets and record.
#[test]
fn golden() {
    check("golden");
}

/// The table that document 01 wants proved, and what it wants run.
#[test]
fn table() {
    check("table");
}

#[test]
fn control_transfers() {
    check("control");
}

#[test]
fn pipes_interrupts_and_detection() {
    check("pipes");
}

#[test]
fn lending() {
    check("lending");
}

/// Failed and cancelled transfers, and calls that are refused.
#[test]
fn failed_transfers() {
    check("failed");
}

#[test]
fn unreadable_lines() {
    check("unreadable");
}

/// The smallest lists of comings, looks and starts.
#[test]
fn callers() {
    check_played(&["callers"], "callers");
}

/// The smallest lists with shares and frames.
#[test]
fn shares() {
    check_played(&["callers"], "shares");
}

#[test]
fn unreadable_lines_of_callers() {
    check_played(&["callers"], "callers-unreadable");
}

/// The stored output of a program is what the oracle prints.
fn check_stored(judge: &str, program: &str) {
    let crates = Path::new(env!("CARGO_MANIFEST_DIR")).join("../crates");
    let stored = crates.join(program);
    let output = oracle(&[judge], &stored.join("stdin"));
    assert!(output.status.success());
    assert_eq!(output.stdout, fs::read(stored.join("stdout")).unwrap());
}

#[test]
fn stored_configurations() {
    check_stored("descriptors", "descriptorcases");
}

#[test]
fn stored_packets() {
    check_stored("packets", "packets");
}

#[test]
fn stored_records() {
    check_stored("wirelist", "wirecases");
    check_stored("wirepackets", "wirepacketcases");
    check_stored("wirepcap", "wirepcap");
}

#[test]
fn stored_groups() {
    check_stored("shortgroups", "shortgroups");
}

/// A last line without LF is a line.
#[test]
fn last_line_without_end() {
    let script = std::env::temp_dir().join(format!("oracle-{}", std::process::id()));
    fs::write(&script, "close 1\nclose 1").unwrap();
    let output = oracle(&[], &script);
    fs::remove_file(&script).unwrap();
    assert_eq!(
        output.stdout,
        b"answer refused 17\n.\nanswer refused 17\n.\n"
    );
}

#[test]
fn bad_arguments_are_refused() {
    let script = scripts().join("golden.script");
    for arguments in [
        &["gen"][..],
        &["gen", "1", "1", "worse"],
        &["gen", "x", "1", "well"],
        &["gen", "1", "1", "well", "3"],
        &["gen-callers", "1", "1", "worse"],
        &["gen-callers", "1", "1", "well", "1"],
        &["vectors", "1"],
        &["callers", "1"],
        &["callers-vectors", "1"],
        &["compare", "cat", "1"],
        &["compare", "cat", "1", "x"],
        &["compare-callers", "cat", "1"],
        &["compare-callers", "cat", "1", "x"],
        &["compare-descriptors", "cat", "1"],
        &["compare-bytes", "cat", "1", "1"],
        &["descriptors", "1"],
        &["play"],
    ] {
        assert_eq!(oracle(arguments, &script).status.code(), Some(2));
    }
}

fn compare_with_itself(compare: &str, own: &str) {
    let script = scripts().join("golden.script");
    let output = oracle(&[compare, own, "1", "2000"], &script);
    let text = String::from_utf8(output.stdout).unwrap();
    assert!(output.status.success(), "{text}");
    assert_eq!(text.lines().count(), 5);
    assert!(text.ends_with(" calls, 0 differences\n"), "{text}");
}

/// The oracle plays every script as itself.
#[test]
fn compares_equal_with_itself() {
    compare_with_itself("compare", env!("CARGO_BIN_EXE_oracle"));
}

#[test]
fn compares_callers_equal_with_itself() {
    let own = std::env::temp_dir().join(format!("callers-{}", std::process::id()));
    let text = format!(
        "#!/bin/sh\nexec '{}' callers\n",
        env!("CARGO_BIN_EXE_oracle")
    );
    // Written by another process: a file can't be run while a child that some other test
    // starts still has it open.
    let write = "printf %s \"$1\" > \"$0\" && chmod +x \"$0\"";
    let mut shell = Command::new("sh");
    shell.args(["-c", write]).arg(&own).arg(text);
    assert!(shell.status().unwrap().success());
    compare_with_itself("compare-callers", own.to_str().unwrap());
    fs::remove_file(own).unwrap();
}

#[test]
fn a_comparison_ends_at_the_first_difference() {
    let script = scripts().join("golden.script");
    for compare in ["compare", "compare-callers"] {
        let output = oracle(&[compare, "cat", "1", "2000"], &script);
        let text = String::from_utf8(output.stdout).unwrap();
        assert_eq!(output.status.code(), Some(1));
        assert!(text.starts_with("well 1: 500 calls, different\nscript line 1: fresh\n"));
    }
    for subject in [
        "compare-descriptors",
        "compare-packets",
        "compare-wirelist",
        "compare-wirepackets",
    ] {
        let output = oracle(&[subject, "cat", "3", "1"], &script);
        let text = String::from_utf8(output.stdout).unwrap();
        assert_eq!(output.status.code(), Some(1));
        assert!(
            text.starts_with("seed 3, different\nscript line "),
            "{text}"
        );
    }
}
