//! Compares the linked library with the second implementation and tells what was
//! reached. `SEED=` and `CASES=` set the seed and the number of generated cases.

use std::process::ExitCode;

use compare::{Linked, Run};

fn main() -> ExitCode {
    let run = Run::from_environment();
    println!("SEED={} CASES={}", run.seed, run.cases);
    let report = run.compare(&Linked);
    let reached = report.reached();
    let seconds = report.time.as_secs_f64();
    print!("{reached}");
    println!("{} calls compared in {seconds:.1} s", reached.calls);
    let failings = report.failings(&run);
    failings.iter().for_each(|failing| println!("{failing}"));
    if failings.is_empty() {
        println!("no difference");
        ExitCode::SUCCESS
    } else {
        ExitCode::FAILURE
    }
}
