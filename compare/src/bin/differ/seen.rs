//! What came up in the lists: how often each kind was accepted and got each
//! refusal, and the deep states that were met.

use compare::machine::*;

/// Kinds by name; the first row is for all numbers that are no kind.
const KIND_NAMES: [&str; 18] = [
    "no kind", "OPEN", "BEGIN", "LOCKX", "LOCKS", "DRAW", "READ", "COMMIT", "ABORT", "SEND",
    "DEMOTE", "SHARE", "DROP", "PROMOTE", "GRANT", "ACK", "CRASH", "RESTART",
];

/// For which kinds each refusal from 4 on is listed. Refusal 3 may come for any
/// kind, and nothing else for what is no kind.
const REFUSED_KINDS: [&[u32]; 15] = [
    &[OPEN, BEGIN],
    &[
        LOCKX, LOCKS, DRAW, READ, COMMIT, ABORT, SEND, DEMOTE, SHARE, DROP, PROMOTE, GRANT, ACK,
    ],
    &[OPEN, BEGIN, DEMOTE, DROP, PROMOTE, CRASH, SEND, SHARE, ACK, GRANT],
    &[RESTART],
    &[LOCKX, LOCKS],
    &[LOCKX, LOCKS],
    &[LOCKX, SEND, DEMOTE, LOCKS, SHARE, DROP, PROMOTE],
    &[LOCKX, SEND, DEMOTE, DROP, PROMOTE],
    &[DRAW, READ],
    &[DRAW],
    &[DRAW],
    &[SEND, SHARE],
    &[SEND, SHARE],
    &[DROP, PROMOTE],
    &[GRANT, ACK],
];

/// Codes are 0 to 18.
const CODES: usize = 19;
/// The first refusal that a list of events may get.
const BAD_EVENT: usize = 3;

/// Whether the paper's table lists the code for the kind; row 0 is no kind.
fn possible(row: usize, code: usize) -> bool {
    match code {
        0 => row != 0,
        1 | 2 => false,
        BAD_EVENT => true,
        _ => REFUSED_KINDS[code - BAD_EVENT - 1].contains(&(row as u32)),
    }
}

type Test = fn(Event, Answer, &Machine) -> bool;

/// What must come up among the accepted events: its name, and how it is told
/// from the event, the answer and the tables afterwards.
const LANDMARKS: [(&str, Test); 16] = [
    ("COMMIT without a draw", |event, answer, _| event.kind == COMMIT && answer.value == 0),
    ("COMMIT of one draw", |event, answer, _| event.kind == COMMIT && answer.value == 1),
    ("COMMIT of two draws", |event, answer, _| event.kind == COMMIT && answer.value == 2),
    ("COMMIT of three draws", |event, answer, _| event.kind == COMMIT && answer.value == 3),
    ("COMMIT of four draws", |event, answer, _| event.kind == COMMIT && answer.value == 4),
    ("COMMIT of a last serial", ends_a_range),
    ("fourth lock of a job", |event, _, machine| {
        (event.kind == LOCKX || event.kind == LOCKS)
            && machine.jobs[event.fields[0] as usize].used() == LOCK_PLACES
    }),
    ("GRANT that brings a share", |event, answer, machine| {
        brings(event, answer, machine) == Some(SHARED)
    }),
    ("GRANT that brings the token", |event, answer, machine| {
        brings(event, answer, machine) == Some(EXCLUSIVE)
    }),
    ("repeated GRANT", |event, answer, _| event.kind == GRANT && answer.value == 0),
    ("repeated GRANT, copy gone on", |event, answer, machine| {
        event.kind == GRANT && answer.value == 0 && receivers_copy(event, machine) == VOID
    }),
    ("ACK that ends a Release", |event, answer, _| event.kind == ACK && answer.value == 1),
    ("late ACK", |event, answer, _| event.kind == ACK && answer.value == 0),
    ("CRASH that closes jobs", |event, answer, _| event.kind == CRASH && answer.value > 1),
    ("RESTART with copies", |event, answer, _| event.kind == RESTART && answer.value > 1),
    ("transfer 9,999", |event, answer, _| event.kind == SEND && answer.value == SENT_MOST),
];

/// A draw of this COMMIT took the last serial of its series.
fn ends_a_range(event: Event, answer: Answer, machine: &Machine) -> bool {
    let draws = machine.output.chunks(3).take(answer.value as usize);
    let mut ends = draws.map(|draw| (machine.lasts[draw[0] as usize], draw[1] + draw[2]));
    event.kind == COMMIT && ends.any(|(last, end)| end == last + 1)
}

fn receivers_copy(event: Event, machine: &Machine) -> u32 {
    machine.kinds[place(event.fields[0] as usize, event.fields[2] as usize)]
}

/// The kind of copy that a first GRANT brings.
fn brings(event: Event, answer: Answer, machine: &Machine) -> Option<u32> {
    if event.kind == GRANT && answer.value == 1 {
        Some(receivers_copy(event, machine))
    } else {
        None
    }
}

pub struct Seen {
    /// By kind and code.
    counts: [[u64; CODES]; KIND_NAMES.len()],
    landmarks: [u64; LANDMARKS.len()],
}

impl Seen {
    pub fn nothing() -> Seen {
        Seen {
            counts: [[0; CODES]; KIND_NAMES.len()],
            landmarks: [0; LANDMARKS.len()],
        }
    }

    /// Notes a step of the Rust machine, with the tables after it.
    pub fn note(&mut self, event: Event, answer: Answer, machine: &Machine) {
        let row = if event.kind <= RESTART { event.kind as usize } else { 0 };
        self.counts[row][answer.code as usize] += 1;
        if answer.code != 0 {
            return;
        }
        for (count, (_, test)) in self.landmarks.iter_mut().zip(LANDMARKS) {
            *count += u64::from(test(event, answer, machine));
        }
    }

    pub fn add(&mut self, other: &Seen) {
        for (row, more) in self.counts.iter_mut().zip(&other.counts) {
            add_each(row, more);
        }
        add_each(&mut self.landmarks, &other.landmarks);
    }

    pub fn print(&self) {
        print!("\n{:8} {:>8}", "", "accepted");
        for code in BAD_EVENT..CODES {
            print!(" {:>7}", code);
        }
        println!();
        for (row, name) in KIND_NAMES.iter().enumerate() {
            print!("{:8} {:>8}", name, self.cell(row, 0));
            for code in BAD_EVENT..CODES {
                print!(" {:>7}", self.cell(row, code));
            }
            println!();
        }
        println!();
        for ((name, _), count) in LANDMARKS.iter().zip(&self.landmarks) {
            println!("{:30} {:>8}", name, count);
        }
    }

    /// The count, or nothing where none is possible and none came.
    fn cell(&self, row: usize, code: usize) -> String {
        match self.counts[row][code] {
            0 if !possible(row, code) => String::new(),
            count => count.to_string(),
        }
    }

    /// Fails unless exactly what is possible came up.
    pub fn complete(&self) -> Result<(), String> {
        for (row, name) in KIND_NAMES.iter().enumerate() {
            for code in 0..CODES {
                let came = self.counts[row][code] != 0;
                if came && !possible(row, code) {
                    return Err(format!("{} got code {}, which isn't listed for it", name, code));
                }
                if possible(row, code) && !came {
                    return Err(format!("{} never got code {}: take more events", name, code));
                }
            }
        }
        for ((name, _), count) in LANDMARKS.iter().zip(&self.landmarks) {
            if *count == 0 {
                return Err(format!("{} never came up: take more events", name));
            }
        }
        Ok(())
    }
}

fn add_each(counts: &mut [u64], more: &[u64]) {
    for (count, more) in counts.iter_mut().zip(more) {
        *count += more;
    }
}
