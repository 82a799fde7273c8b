//! `bench [PROGRAM LIST]` times the other machine and the Rust one in turn, over
//! the same work, and prints for each call how much longer the other one takes.
//! With a run program and a list of event lines it times that program too.

#[path = "../../archive.rs"]
mod archive;
mod calls;
#[cfg(feature = "gauge")]
mod gauge;
mod programs;
mod timing;

use std::env;
use std::process;
use timing::Row;

/// All rows, each printed when it is measured.
fn measure(program: Option<(&str, &str)>) -> Result<(), String> {
    println!("{:28} {:>12} {:>12} {:>8}", "nanoseconds a call", "archive", "Rust", "ratio");
    let work = calls::Work::new()?;
    work.step().print();
    match unchecked_step()? {
        Some(row) => row.print(),
        None => println!("{:28} built without the feature gauge", timing::UNCHECKED),
    }
    work.empty().print();
    work.holders().print();
    if let Some((program, list)) = program {
        programs::run_program(program, list)?.print();
    }
    Ok(())
}

#[cfg(feature = "gauge")]
fn unchecked_step() -> Result<Option<Row>, String> {
    gauge::unchecked_step().map(Some)
}

#[cfg(not(feature = "gauge"))]
fn unchecked_step() -> Result<Option<Row>, String> {
    Ok(None)
}

fn main() {
    let arguments: Vec<String> = env::args().skip(1).collect();
    let program = match &arguments[..] {
        [] => None,
        [program, list] => Some((program.as_str(), list.as_str())),
        _ => {
            eprintln!("usage: bench [PROGRAM LIST]");
            process::exit(2);
        }
    };
    if let Err(trouble) = measure(program) {
        eprintln!("bench: {}", trouble);
        process::exit(1);
    }
}
