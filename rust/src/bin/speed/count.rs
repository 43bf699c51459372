//! Instructions counted by cachegrind: numbers that do not depend on how busy the machine is.
//!
//! The program runs itself under valgrind, once with no round of a call and once with some; the difference is the rounds'.

use crate::calls::{self, BY_POSITION, LIBRARY, PROGRAMS, SIDES, WHOLE};
use crate::kinds::KINDS;
use crate::Stage;
use std::io::ErrorKind;
use std::process::Command;

const ROUNDS: usize = 2;

/// Prints the instructions a position of every call and program, those of GET by kind, and those of a whole GET.
pub fn print() -> Result<(), String> {
    let stage = calls::stage();
    let positions = BY_POSITION.map(|(_, call)| calls::positions(&stage, call, ROUNDS));
    let mut rows = Vec::new();
    for program in PROGRAMS {
        let mut row = vec![program.to_string()];
        for ((name, _), positions) in BY_POSITION.iter().zip(positions) {
            row.push(format!("{:.1}", rounds(name, program)? / positions as f64));
        }
        rows.push(row.join(" | "));
    }
    let mut whole = [0.0; WHOLE.len()];
    for (count, (name, call)) in whole.iter_mut().zip(WHOLE) {
        *count = rounds(name, LIBRARY)? / (ROUNDS * calls::trials(&stage, call)) as f64;
    }
    println!("| instructions a position | {} |", BY_POSITION.map(|(name, _)| name).join(" | "));
    println!("|---|{}", "---|".repeat(BY_POSITION.len()));
    rows.iter().for_each(|row| println!("| {row} |"));
    println!();
    print_kinds(&stage)?;
    let [full, value, refused] = whole.map(|count| format!("{count:.0}"));
    println!(
        "\nA whole GET of the library takes {full} instructions at 1 × 1, {value} for one value, and {refused} where it is refused with 7."
    );
    Ok(())
}

/// GET of candidates of each kind, and of the full blocks of the same depths.
fn print_kinds(stage: &Stage) -> Result<(), String> {
    let heads = KINDS.map(|(name, _)| format!("GET of {name} | the same full block"));
    println!("| instructions a position | {} |", heads.join(" | "));
    println!("|---|{}", "---|".repeat(2 * KINDS.len()));
    for side in SIDES {
        let mut row = vec![format!("{side} × {side}")];
        for kind in KINDS {
            for (name, call) in calls::by_kind(kind, side) {
                row.push(format!("{:.1}", rounds(&name, LIBRARY)? / calls::positions(stage, call, ROUNDS) as f64));
            }
        }
        println!("| {} |", row.join(" | "));
    }
    Ok(())
}

/// The instructions of all rounds of a call.
fn rounds(call: &str, program: &str) -> Result<f64, String> {
    Ok(counted(call, program, ROUNDS)? as f64 - counted(call, program, 0)? as f64)
}

/// The instructions of a run of this program that makes so many rounds of a call.
fn counted(call: &str, program: &str, rounds: usize) -> Result<u64, String> {
    let own = std::env::current_exe().map_err(|error| format!("the program does not find itself: {error}"))?;
    let mut valgrind = Command::new("valgrind");
    valgrind.args(["--tool=cachegrind", "--cache-sim=no", "--cachegrind-out-file=/dev/null"]);
    valgrind.arg(own).args(["--calls", call, program, &rounds.to_string()]);
    let output = valgrind.output().map_err(|error| match error.kind() {
        ErrorKind::NotFound => "valgrind is not installed: its tool cachegrind counts the instructions".to_string(),
        _ => format!("valgrind does not start: {error}"),
    })?;
    let said = String::from_utf8_lossy(&output.stderr);
    match instructions(&said) {
        Some(count) if output.status.success() => Ok(count),
        _ => Err(format!("valgrind gave no count of instructions. It said:\n{}", said.trim_end())),
    }
}

/// The number in cachegrind's line `I refs:`; versions differ in its spaces.
fn instructions(said: &str) -> Option<u64> {
    said.lines().find_map(|line| {
        let (name, number) = line.split_once("refs:")?;
        let counts = name.split_whitespace().last() == Some("I");
        number.trim().replace(',', "").parse().ok().filter(|_| counts)
    })
}

#[cfg(test)]
mod tests {
    use super::instructions;

    #[test]
    fn cachegrind_lines() {
        assert_eq!(instructions("==7== Cachegrind\n==7== \n==7== I   refs:      1,234,567\n"), Some(1_234_567));
        assert_eq!(instructions("==7== I refs:        89\n"), Some(89));
        assert_eq!(instructions("==7== D   refs:      5  (3 rd   + 2 wr)\n==7== I refs: 6\n==7== LL refs: 7"), Some(6));
        assert_eq!(instructions("==7== I refs: many"), None);
        assert_eq!(instructions(""), None);
    }
}
