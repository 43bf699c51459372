//! The speed program, shortly: the library, the full redraw and the span renderer must answer alike, also in the calls whose
//! instructions are counted, a candidate of any kind as the full block that it fills, SET whatever its journal holds, TAKE BACK
//! as the SET of the same depths, MOVE from seat to seat, and HOLES must count as both ways of counting do.

use std::process::{Command, Output};

fn speed(arguments: &[&str]) -> Output {
    Command::new(env!("CARGO_BIN_EXE_speed")).args(arguments).output().expect("the program starts")
}

fn said(output: &Output) -> String {
    assert!(output.status.success(), "{}", String::from_utf8_lossy(&output.stderr));
    String::from_utf8_lossy(&output.stdout).into_owned()
}

#[test]
fn all_three_answer_alike() {
    let said = said(&speed(&["--short"]));
    assert!(
        said.contains("GET / span renderer at 4 × 4, 8 × 8, 64 × 64: ")
            && said.contains("| OPEN | ")
            && said.contains("| MOVE | ")
            && said.contains("| GET / GET of the same full block | one value | a line | a mask |\n")
            && said.contains(" | SET with 1,000 records / SET with none | TAKE BACK / SET |\n")
            && said.contains("HOLES / by the word at 1,024 and 1,001 columns: ")
    );
}

/// The sum of the answers of one round, which is another than that of none.
fn sum(call: &str, program: &str) -> String {
    let sum = said(&speed(&["--calls", call, program, "1"]));
    assert_ne!(sum, "0\n", "{call} by {program}");
    sum
}

#[test]
fn counted_calls() {
    let calls = ["GET at 4 × 4", "GET at 8 × 8", "GET at 64 × 64", "SET at 8 × 8", "OPEN", "MOVE", "RENDER", "GET at 1 × 1"];
    for call in calls.into_iter().chain(["SET and TAKE BACK at 8 × 8"]) {
        let library = sum(call, "the library");
        assert_eq!(sum(call, "span renderer"), library, "{call}");
        assert_eq!(sum(call, "full redraw"), library, "{call}");
    }
    assert_eq!(sum("GET refused", "the library"), format!("{}\n", -7 * 1600));
}

#[test]
fn counted_calls_by_kind() {
    for kind in ["one value", "a line", "a mask"] {
        for side in [4, 8, 64] {
            let call = format!("GET of {kind} at {side} × {side}");
            let library = sum(&call, "the library");
            assert_eq!(sum(&format!("{call} as a full block"), "the library"), library, "{call}");
            assert_eq!(sum(&call, "span renderer"), library, "{call}");
        }
    }
    assert_eq!(sum("GET of one value at 1 × 1", "the library"), sum("GET of one value at 1 × 1", "full redraw"));
}

#[test]
fn words_that_it_does_not_know() {
    for words in [&["--long"][..], &["--short", "again"], &["--calls", "OPEN", "none", "1"], &["--calls", "OPEN", "full redraw", "one"]] {
        let output = speed(words);
        assert_eq!(output.status.code(), Some(1), "{words:?}");
        assert!(output.stdout.is_empty() && !output.stderr.is_empty());
    }
}

#[test]
fn without_valgrind() {
    let mut speed = Command::new(env!("CARGO_BIN_EXE_speed"));
    let output = speed.arg("--instructions").env("PATH", "").output().expect("the program starts");
    assert_eq!(output.status.code(), Some(1));
    assert!(String::from_utf8_lossy(&output.stderr).starts_with("valgrind is not installed"));
}
