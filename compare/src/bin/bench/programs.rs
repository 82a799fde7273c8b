//! The run programs, from start to end.

use crate::timing::{time, Row};
use std::env;
use std::fs::{self, File};
use std::path::{Path, PathBuf};
use std::process::{Command, Stdio};
use std::time::Duration;

/// Both programs on the lines of the list, by the line.
pub fn run_program(program: &str, list: &str) -> Result<Row, String> {
    let text = fs::read(list).map_err(|error| format!("{}: {}", list, error))?;
    let lines = text.iter().filter(|&&byte| byte == b'\n').count();
    let (program, own, list) = (Path::new(program), own_program()?, Path::new(list));
    let archive = || must_run(program, list);
    let rust = || must_run(&own, list);
    Ok(Row::measure("run program, a line", lines, archive, rust))
}

/// A program that fails has no time that could stand in the table.
fn must_run(program: &Path, list: &Path) -> Duration {
    match run(program, list) {
        Ok(took) => took,
        Err(trouble) => panic!("{}", trouble),
    }
}

/// The Rust run program, which is built beside this one.
fn own_program() -> Result<PathBuf, String> {
    match env::current_exe() {
        Ok(this) => Ok(this.with_file_name("run")),
        Err(error) => Err(format!("where the run program is: {}", error)),
    }
}

fn run(program: &Path, list: &Path) -> Result<Duration, String> {
    let told = |error| format!("{}: {}", program.display(), error);
    let input = File::open(list).map_err(told)?;
    let mut command = Command::new(program);
    command.stdin(input).stdout(Stdio::null());
    let mut status = None;
    let took = time(|| status = Some(command.status()));
    match status {
        Some(Ok(status)) if status.success() => Ok(took),
        Some(Err(error)) => Err(told(error)),
        _ => Err(format!("{} failed", program.display())),
    }
}
