//! The run program from outside, and the lists with it.

use std::collections::HashMap;
use std::io::{BufRead, BufReader, Write};
use std::process::{Child, Command, Stdio};
use std::thread;

/// The run program with a pipe at either end.
fn start() -> Child {
    Command::new(env!("CARGO_BIN_EXE_run"))
        .stdin(Stdio::piped())
        .stdout(Stdio::piped())
        .spawn()
        .unwrap()
}

fn run(input: &[u8]) -> String {
    let mut child = start();
    // The program writes while it reads, so both ends must be served.
    let mut into = child.stdin.take().unwrap();
    let input = input.to_vec();
    let feeder = thread::spawn(move || into.write_all(&input).unwrap());
    let output = child.wait_with_output().unwrap();
    feeder.join().unwrap();
    assert!(output.status.success());
    String::from_utf8(output.stdout).unwrap()
}

fn list(seed: u32, count: u32) -> Vec<u8> {
    let output = Command::new(env!("CARGO_BIN_EXE_lists"))
        .args([seed.to_string(), count.to_string()])
        .output()
        .unwrap();
    assert!(output.status.success());
    output.stdout
}

const WORKED: &str = "\
1 5 1001 1100 0 | 1 0 0
2 0 0           | 2 0 0
3 0 5           | 3 0 0
5 0 5 40        | 4 0 0
7 0             | 5 0 1 5 1001 40
9 5 0 3         | 6 0 1
16 3            | 7 0 0
14 5 0 3 1      | 8 6 0
17 3            | 9 0 0
14 5 0 3 1      | 10 0 1
14 5 0 3 1      | 11 0 0
15 5 0 3 1      | 12 0 1
2 0 3           | 13 0 0
3 0 5           | 14 0 0
6 0 5           | 15 0 1041
5 0 5 61        | 16 14 0
5 0 5 60        | 17 0 0
7 0             | 18 0 1 5 1041 60
";

#[test]
fn the_worked_run() {
    let (mut input, mut wanted) = (String::new(), String::new());
    for line in WORKED.lines() {
        let (left, right) = line.split_once('|').unwrap();
        input.push_str(left.trim());
        input.push('\n');
        wanted.push_str(right.trim());
        wanted.push('\n');
    }
    assert_eq!(run(input.as_bytes()), wanted);
    // The last line may lack its LF.
    assert_eq!(run(input.trim_end().as_bytes()), wanted);
}

#[test]
fn empty_input_gives_no_output() {
    assert_eq!(run(b""), "");
}

#[test]
fn answers_come_before_more_is_read() {
    let mut child = start();
    let mut into = child.stdin.take().unwrap();
    let mut from = BufReader::new(child.stdout.take().unwrap());
    let mut answer = String::new();
    into.write_all(b"1 0 1 1 0\n2 0").unwrap();
    from.read_line(&mut answer).unwrap();
    into.write_all(b" 0\n").unwrap();
    from.read_line(&mut answer).unwrap();
    assert_eq!(answer, "1 0 0\n2 0 0\n");
    drop(into);
    assert!(child.wait().unwrap().success());
}

#[test]
fn a_list_is_the_same_for_the_same_seed() {
    assert_eq!(list(7, 500), list(7, 500));
    assert_ne!(list(7, 500), list(8, 500));
}

#[test]
fn a_list_reaches_all_kinds_and_codes() {
    let input = String::from_utf8(list(1, 20_000)).unwrap();
    let output = run(input.as_bytes());
    assert_eq!(input.lines().count(), 20_000);
    assert_eq!(output.lines().count(), 20_000);
    let mut accepted = [0; 18];
    let mut codes = [0; 19];
    let mut draws = [0; 5];
    // `split` and not `lines`, which would take a CR off.
    for (event, answer) in input.split('\n').zip(output.lines()) {
        let answer: Vec<usize> = answer.split(' ').map(|word| word.parse().unwrap()).collect();
        codes[answer[1]] += 1;
        if answer[1] == 0 {
            let kind: usize = event.split(' ').next().unwrap().parse().unwrap();
            accepted[kind] += 1;
            if kind == 7 {
                draws[answer[2]] += 1;
            }
        }
    }
    assert!(codes[0] >= 10_000);
    for kind in 1..18 {
        assert!(accepted[kind] > 0, "kind {} is never accepted", kind);
    }
    for code in (3..19).filter(|&code| code != 16) {
        assert!(codes[code] > 0, "code {} never comes", code);
    }
    assert_eq!(codes[1] + codes[2], 0);
    assert!(draws.iter().all(|&count| count > 0), "{:?}", draws);
}

/// Serials of a series follow on each other: none twice, none left out.
#[test]
fn serials_follow_on_each_other() {
    let input = String::from_utf8(list(2, 20_000)).unwrap();
    let output = run(input.as_bytes());
    let mut next: HashMap<u64, u64> = HashMap::new();
    let mut issued = 0;
    for (event, answer) in input.split('\n').zip(output.lines()) {
        let answer: Vec<u64> = answer.split(' ').map(|word| word.parse().unwrap()).collect();
        if answer[1] != 0 {
            continue;
        }
        let event: Vec<u64> = event.split(' ').map(|word| word.parse().unwrap()).collect();
        if event[0] == 1 {
            next.insert(event[1], event[2]);
        }
        if event[0] == 7 {
            assert_eq!(answer.len() as u64, 3 + 3 * answer[2]);
            for draw in answer[3..].chunks(3) {
                assert_eq!(next[&draw[0]], draw[1]);
                next.insert(draw[0], draw[1] + draw[2]);
                issued += 1;
            }
        }
    }
    assert!(issued > 500);
}
