//! `run [calls] [images]` drives the reference against itself, and
//! `sheets [texts]` its importer; `tape` prints what benchtape prints for the
//! tape on standard input. The environment's `SEED` sets the seed of a run.

use role_reference::random::printed_seed;
use role_reference::reference::Reference;
use role_reference::sheets::import;
use role_reference::{compare, compare_sheets};
use std::io::Read;
use std::process::ExitCode;

fn count(argument: Option<String>, default: usize) -> usize {
    argument.map_or(default, |text| text.parse().expect("a count"))
}

fn exit_code(agrees: bool) -> ExitCode {
    if agrees {
        ExitCode::SUCCESS
    } else {
        ExitCode::FAILURE
    }
}

fn run(calls: usize, images: usize) -> ExitCode {
    let seed = printed_seed();
    exit_code(compare::run_and_print::<Reference>(seed, calls, images))
}

fn sheets(texts: usize) -> ExitCode {
    let seed = printed_seed();
    exit_code(compare_sheets::run_and_print(seed, texts, &import))
}

fn tape() -> ExitCode {
    let mut bytes = Vec::new();
    std::io::stdin()
        .read_to_end(&mut bytes)
        .expect("standard input is read");
    print!("{}", Reference::tape(&bytes));
    ExitCode::SUCCESS
}

fn main() -> ExitCode {
    let mut arguments = std::env::args().skip(1);
    match arguments.next().as_deref() {
        Some("run") => {
            let calls = count(arguments.next(), 200_000);
            let images = count(arguments.next(), 50_000);
            run(calls, images)
        }
        Some("sheets") => sheets(count(arguments.next(), 50_000)),
        Some("tape") => tape(),
        _ => {
            eprintln!("run [calls] [images] | sheets [texts] | tape");
            ExitCode::FAILURE
        }
    }
}
