//! Reads sheets, each over names of its own, confirms them and prints what their variables stand for:
//! `cargo run --example check_sheet ../../examples/01-kilometres.sheet`.
use shupkelen::{NameTable, Refusal, Solver};
use std::error::Error;
use std::process::ExitCode;

/// Is the sheet accepted? Says what its variables stand for, or why not.
fn check(solver: &mut Solver, path: &str) -> Result<bool, Box<dyn Error>> {
    let mut names = NameTable::new();
    let sheet = match solver.read_text(&mut names, &std::fs::read(path)?) {
        Ok(sheet) => sheet,
        Err(unread) => {
            println!("{path}:{}:{}: {}", unread.line, unread.column, unread.refusal);
            return Ok(false);
        }
    };
    match solver.confirm(&names, &sheet.records) {
        Ok(solution) => {
            println!("{path}: accepted after {} rounds", solution.rounds);
            for binding in solution.bindings(&names)? {
                println!("  {binding}");
            }
            for bound in solution.bounds(&names)? {
                println!("  ?{bound}: DType");
            }
            Ok(true)
        }
        Err(stopped) => {
            println!("{path}: {stopped}");
            if stopped.refusal == Refusal::Unsolved {
                for constraint in names.constraints_from(&stopped.remaining)? {
                    println!("  {constraint}");
                }
            }
            Ok(false)
        }
    }
}

fn main() -> Result<ExitCode, Box<dyn Error>> {
    let mut solver = Solver::new();
    let mut all = true;
    for path in std::env::args().skip(1) {
        all &= check(&mut solver, &path)?;
    }
    Ok(if all { ExitCode::SUCCESS } else { ExitCode::FAILURE })
}
