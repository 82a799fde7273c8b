//! `lists SEED COUNT` prints COUNT event lines. The same seed always gives
//! the same list. Some lines can't be read.

use compare::machine::{Event, FIELDS};
use compare::maker::Maker;
use std::env;
use std::io::{self, BufWriter, Write};
use std::process;

fn line(maker: &mut Maker) -> String {
    if maker.random.one_in(120) {
        return unreadable(maker);
    }
    let event = maker.event();
    maker.take(event);
    written(event)
}

/// A line that no event has; the machine doesn't see it.
fn unreadable(maker: &mut Maker) -> String {
    let fitting = maker.fitting();
    let good = written(fitting);
    match maker.random.below(16) {
        0 => String::new(),
        1 => good.replacen(' ', "  ", 1),
        2 => format!(" {}", good),
        3 => format!("{} ", good),
        4 => format!("{}\r", good),
        5 => format!("0{}", good),
        6 => good.replacen(' ', " 0", 1) + "x",
        7 => good.replacen(' ', "\t", 1) + "\t",
        8 => "open 5 1 9 0".to_string(),
        9 => format!("{} 0", good),
        10 => fitting.kind.to_string(),
        11 => format!("-{}", good),
        12 => "7 4294967296".to_string(),
        13 => "7 00000000001".to_string(),
        14 => "1".repeat(maker.random.within(47, 200) as usize),
        _ => format!("{} {}", good, "0 ".repeat(40)),
    }
}

fn written(event: Event) -> String {
    let count = FIELDS.get(event.kind as usize).cloned().unwrap_or(0);
    let mut line = event.kind.to_string();
    for field in &event.fields[..count] {
        line.push(' ');
        line.push_str(&field.to_string());
    }
    line
}

fn print(seed: u64, count: u64) -> io::Result<()> {
    let out = io::stdout();
    let mut out = BufWriter::new(out.lock());
    let mut maker = Maker::new(seed, count);
    for _ in 0..count {
        out.write_all(line(&mut maker).as_bytes())?;
        out.write_all(b"\n")?;
    }
    out.flush()
}

fn main() {
    let arguments: Vec<String> = env::args().skip(1).collect();
    let numbers: Vec<u64> = arguments.iter().filter_map(|word| word.parse().ok()).collect();
    if arguments.len() != 2 || numbers.len() != 2 {
        eprintln!("usage: lists SEED COUNT");
        process::exit(2);
    }
    if let Err(error) = print(numbers[0], numbers[1]) {
        // A reader that has gone away needs no message.
        if error.kind() != io::ErrorKind::BrokenPipe {
            eprintln!("lists: {}", error);
        }
        process::exit(1);
    }
}
